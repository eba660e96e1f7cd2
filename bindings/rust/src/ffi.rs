//! The calls of `dymelor.h` on an open object, and of `dymelor_process.h` on an open process. All unsafe code of the crate stands here. Each block quotes what the header asks of a
//! caller there; the headings of these sentences hold for all blocks:
//!
//! - "a pointer to an object is that of such a dym_object": [`OpenObject`] holds one from a `dym_open` or `dym_load` that succeeded to
//!   its `dym_close`, and hands its address to no one else.
//! - "each other pointer is that of a whole value of its type": they are all made of references and slices of this crate, which don't
//!   overlap, since they are exclusive wherever C writes.
//! - "one call at a time on an object": the type isn't `Sync`, so that only one thread at a time calls, and no call calls back.

use crate::error::{done, Error, Status, FILE, NONE};
use crate::pod::{Fits, Pod};
use crate::process::{Config, Event as PlainEvent, Message as PlainMessage, Progress};
use crate::time::Time;
use std::array;
use std::cell::UnsafeCell;
use std::ffi::c_void;
use std::os::raw::c_char;
use std::ptr::{self, NonNull};
use std::slice;

/// `dym_object`.
#[repr(C)]
struct Object {
    inside: *mut c_void,
}

/// `dym_handle`.
#[repr(C)]
#[derive(Clone, Copy)]
pub(crate) struct Handle {
    pub exponent: u8,
    pub index: u32,
}

/// `dym_nil`.
pub(crate) const NIL: Handle = Handle {
    exponent: 0,
    index: 0,
};

pub(crate) const FULL: u32 = 0;
pub(crate) const INCREMENTAL: u32 = 1;

pub(crate) const FOUND_NIL: u32 = 0;
pub(crate) const FOUND_LIVE: u32 = 1;

/// `dym_found`.
#[repr(C)]
pub(crate) struct Found {
    pub kind: u32,
    pub chunk: Handle,
    pub number: u64,
}

/// `dym_slots`.
#[repr(C)]
#[derive(Default)]
pub(crate) struct Slots {
    pub kept: u32,
    pub slots: u32,
}

/// `dym_heap`.
#[repr(C)]
#[derive(Default)]
pub(crate) struct Heap {
    pub version: u32,
    pub quota: u32,
    pub held: u32,
}

/// `dym_bytes`.
#[repr(C)]
#[derive(Default)]
pub(crate) struct Bytes {
    pub live: u64,
    pub kept: u64,
    pub idle: u64,
}

extern "C" {
    fn dym_version() -> u32;
    fn dym_open(object: *mut Object, quota: u32, version: u32) -> Status;
    fn dym_close(object: *mut Object) -> Status;
    fn dym_malloc(object: *mut Object, length: u64, chunk: *mut Handle) -> Status;
    fn dym_calloc(object: *mut Object, count: u64, length: u64, chunk: *mut Handle) -> Status;
    fn dym_realloc(object: *mut Object, chunk: Handle, length: u64, moved: *mut Handle) -> Status;
    fn dym_free(object: *mut Object, chunk: Handle) -> Status;
    fn dym_write(
        object: *mut Object,
        chunk: Handle,
        at: u32,
        bytes: *const c_void,
        length: usize,
    ) -> Status;
    fn dym_fill(object: *mut Object, chunk: Handle, at: u32, length: u32, byte: u8) -> Status;
    fn dym_read(
        object: *const Object,
        chunk: Handle,
        at: u32,
        bytes: *mut c_void,
        length: usize,
    ) -> Status;
    fn dym_link(object: *mut Object, chunk: Handle, at: u32, to: Handle) -> Status;
    fn dym_follow(object: *const Object, chunk: Handle, at: u32, found: *mut Found) -> Status;
    fn dym_sum(object: *const Object, chunk: Handle, total: *mut u64) -> Status;
    fn dym_size(object: *const Object, chunk: Handle, length: *mut u32) -> Status;
    fn dym_next(object: *const Object, after: Handle, next: *mut Handle) -> Status;
    fn dym_address(object: *const Object, chunk: Handle, address: *mut *const c_void) -> Status;
    fn dym_touch(object: *mut Object, chunk: Handle, address: *mut *mut c_void) -> Status;
    fn dym_log(object: *mut Object, kind: u32, time: u64, logged: *mut u32) -> Status;
    fn dym_restore(object: *mut Object, time: u64, restored: *mut u64) -> Status;
    fn dym_restore_before(object: *mut Object, time: u64, restored: *mut u64) -> Status;
    fn dym_prune(object: *mut Object, bound: u64, dropped: *mut u32) -> Status;
    fn dym_prune_before(object: *mut Object, bound: u64, dropped: *mut u32) -> Status;
    fn dym_log_time(object: *const Object, place: u32, time: *mut u64) -> Status;
    fn dym_log_kind(object: *const Object, place: u32, kind: *mut u32) -> Status;
    fn dym_changed(object: *const Object, count: *mut u64) -> Status;
    fn dym_inspect(object: *const Object, heap: *mut Heap) -> Status;
    fn dym_usage(object: *const Object, bytes: *mut Bytes) -> Status;
    fn dym_logs(object: *const Object, slots: *mut Slots) -> Status;
    fn dym_save(
        object: *const Object,
        name: *const c_char,
        name_length: usize,
        bytes: *mut c_void,
        room: usize,
        length: *mut u64,
    ) -> Status;
    fn dym_load(object: *mut Object, bytes: *const c_void, length: usize, part: *mut u32)
        -> Status;
    fn dym_process_open(process: *mut Process, config: *const ProcessConfig) -> Status;
    fn dym_process_close(process: *mut Process) -> Status;
    fn dym_process_take(process: *mut Process, message: *const Message, undone: *mut u64)
        -> Status;
    fn dym_process_outbox(
        process: *mut Process,
        messages: *mut Message,
        room: usize,
        count: *mut u64,
    ) -> Status;
    fn dym_process_next(process: *const Process, time: *mut u64) -> Status;
    fn dym_process_begin(process: *mut Process, event: *mut Event, how: *mut u32) -> Status;
    fn dym_process_replay(process: *mut Process, event: *mut Event, how: *mut u32) -> Status;
    fn dym_process_send(process: *mut Process, event: *const Event) -> Status;
    fn dym_process_end(process: *mut Process) -> Status;
    fn dym_process_commit(process: *mut Process, bound: u64, committed: *mut u64) -> Status;
    fn dym_process_committed(
        process: *mut Process,
        events: *mut Event,
        room: usize,
        count: *mut u64,
    ) -> Status;
    fn dym_process_progress(process: *const Process, progress: *mut ProcessProgress) -> Status;
    fn dym_process_period(process: *mut Process, period: u64) -> Status;
}

/// `dym_event`.
#[repr(C)]
#[derive(Clone, Copy, Default)]
pub(crate) struct Event {
    pub time: u64,
    pub priority: u64,
    pub serial: u64,
    pub sender: u32,
    pub receiver: u32,
    pub kind: u64,
    pub data: [u64; 4],
}

/// `dym_message`.
#[repr(C)]
#[derive(Clone, Copy, Default)]
pub(crate) struct Message {
    pub event: Event,
    pub is_anti: u32,
    pub mark: u32,
}

/// `dym_process`.
#[repr(C)]
struct Process {
    object: Object,
    inside: *mut c_void,
}

/// `dym_process_config`.
#[repr(C)]
struct ProcessConfig {
    number: u32,
    processes: u32,
    period: u64,
    quota: u32,
    version: u32,
    is_checked: u32,
}

/// `dym_progress`.
#[repr(C)]
#[derive(Default)]
struct ProcessProgress {
    ran: u64,
    replays: u64,
    logged: u64,
    outbox: u64,
    is_open: u32,
}

/// `DYM_REPLAYED`.
const REPLAYED: u32 = 1;

/// What a `dym_process` has beside its object, open from when it is made until it is dropped. The object is an [`OpenObject`] beside it: while a call
/// runs, a `dym_process` of both stands in their place, since "While it is open a copy may take its place, but a copy and the original are never
/// both used".
pub(crate) struct OpenProcess {
    inside: *mut c_void,
    /// How many events were committed.
    committed: u64,
}

// SAFETY: as of `OpenObject`.
unsafe impl Send for OpenProcess {}

/// A `dym_object` that is open from when it is made until it is dropped.
///
/// A call that changes neither heap nor logs writes to the object all the same, since it counts a command, and one by
/// `const dym_object *` "may write to it while it runs", hence the cell. It makes the type one that isn't `Sync`.
pub(crate) struct OpenObject {
    object: UnsafeCell<Object>,
}

// SAFETY: "one call at a time on an object. It may be another thread's than the call before: a lock, a barrier, a thread's start or
// join, or an atomic that is stored with release and loaded with acquire then stands between the two." Whatever safe Rust moves a value to
// another thread by is one of these.
unsafe impl Send for OpenObject {}

/// `dym_version`.
pub(crate) fn version() -> u32 {
    // SAFETY: it takes nothing, and answers a number.
    unsafe { dym_version() }
}

impl OpenObject {
    fn closed() -> OpenObject {
        OpenObject {
            object: UnsafeCell::new(Object {
                inside: ptr::null_mut(),
            }),
        }
    }

    pub fn open(quota: u32, version: u32) -> Result<OpenObject, Error> {
        let object = OpenObject::closed();
        // SAFETY: "a dym_object is zeroed before its first use, and then written by these calls alone. While it is open a copy may take
        // its place, [..] but a copy and the original are never both used": Rust's moves are such copies.
        let status = unsafe { dym_open(object.object.get(), quota, version) };
        done(status).map(|()| object)
    }

    pub fn load(file: &[u8]) -> Result<OpenObject, Error> {
        let object = OpenObject::closed();
        let mut part = 0;
        // SAFETY: "a dym_object is zeroed before its first use", and "Any bytes may be handed in".
        let status = unsafe {
            dym_load(
                object.object.get(),
                file.as_ptr().cast(),
                file.len(),
                &mut part,
            )
        };
        match status {
            FILE => Err(Error::File { part }),
            _ => done(status).map(|()| object),
        }
    }

    pub fn malloc(&mut self, length: u64) -> Result<Handle, Error> {
        let mut chunk = NIL;
        // SAFETY: "each other pointer is that of a whole value of its type, which the caller may write".
        done(unsafe { dym_malloc(self.object.get(), length, &mut chunk) }).map(|()| chunk)
    }

    pub fn calloc(&mut self, count: u64, length: u64) -> Result<Handle, Error> {
        let mut chunk = NIL;
        // SAFETY: "each other pointer is that of a whole value of its type, which the caller may write".
        done(unsafe { dym_calloc(self.object.get(), count, length, &mut chunk) }).map(|()| chunk)
    }

    pub fn realloc(&mut self, chunk: Handle, length: u64) -> Result<Handle, Error> {
        let mut moved = NIL;
        // SAFETY: "each other pointer is that of a whole value of its type, which the caller may write".
        done(unsafe { dym_realloc(self.object.get(), chunk, length, &mut moved) }).map(|()| moved)
    }

    pub fn free(&mut self, chunk: Handle) -> Result<(), Error> {
        // SAFETY: "whatever numbers are handed in, each [..] touches no memory but the object's own".
        done(unsafe { dym_free(self.object.get(), chunk) })
    }

    pub fn write(&mut self, chunk: Handle, at: u32, bytes: &[u8]) -> Result<(), Error> {
        // SAFETY: "bytes that are handed in or out are at a pointer that isn't null, also where there are none": no slice's is.
        done(unsafe {
            dym_write(
                self.object.get(),
                chunk,
                at,
                bytes.as_ptr().cast(),
                bytes.len(),
            )
        })
    }

    pub fn fill(&mut self, chunk: Handle, at: u32, length: u32, byte: u8) -> Result<(), Error> {
        // SAFETY: "whatever numbers are handed in, each [..] touches no memory but the object's own".
        done(unsafe { dym_fill(self.object.get(), chunk, at, length, byte) })
    }

    pub fn read(&self, chunk: Handle, at: u32, bytes: &mut [u8]) -> Result<(), Error> {
        // SAFETY: "bytes that are handed in or out are at a pointer that isn't null, also where there are none": no slice's is.
        done(unsafe {
            dym_read(
                self.object.get(),
                chunk,
                at,
                bytes.as_mut_ptr().cast(),
                bytes.len(),
            )
        })
    }

    pub fn link(&mut self, chunk: Handle, at: u32, to: Handle) -> Result<(), Error> {
        // SAFETY: "whatever numbers are handed in, each [..] touches no memory but the object's own".
        done(unsafe { dym_link(self.object.get(), chunk, at, to) })
    }

    pub fn follow(&self, chunk: Handle, at: u32) -> Result<Found, Error> {
        let mut found = Found {
            kind: FOUND_NIL,
            chunk: NIL,
            number: 0,
        };
        // SAFETY: "each other pointer is that of a whole value of its type, which the caller may write".
        done(unsafe { dym_follow(self.object.get(), chunk, at, &mut found) }).map(|()| found)
    }

    pub fn sum(&self, chunk: Handle) -> Result<u64, Error> {
        let mut total = 0;
        // SAFETY: "each other pointer is that of a whole value of its type, which the caller may write".
        done(unsafe { dym_sum(self.object.get(), chunk, &mut total) }).map(|()| total)
    }

    pub fn size(&self, chunk: Handle) -> Result<u32, Error> {
        let mut length = 0;
        // SAFETY: "each other pointer is that of a whole value of its type, which the caller may write".
        done(unsafe { dym_size(self.object.get(), chunk, &mut length) }).map(|()| length)
    }

    pub fn next(&self, after: Handle) -> Result<Handle, Error> {
        let mut next = NIL;
        // SAFETY: "each other pointer is that of a whole value of its type, which the caller may write".
        done(unsafe { dym_next(self.object.get(), after, &mut next) }).map(|()| next)
    }

    /// The bytes of a chunk. As long as they are borrowed nothing frees or writes them, since the object is.
    pub fn chunk(&self, chunk: Handle) -> Result<&[u8], Error> {
        let length = self.size(chunk)?;
        let mut address = NonNull::<c_void>::dangling().as_ptr() as *const c_void;
        // SAFETY: "each other pointer is that of a whole value of its type, which the caller may write".
        done(unsafe { dym_address(self.object.get(), chunk, &mut address) })?;
        // SAFETY: "it reads by a pointer what a live chunk has: its bytes from the first to its length, and no others".
        Ok(unsafe { slice::from_raw_parts(address.cast(), length as usize) })
    }

    /// The same, to be changed. No call comes between, since the object is borrowed for as long.
    pub fn chunk_mut(&mut self, chunk: Handle) -> Result<&mut [u8], Error> {
        let length = self.size(chunk)?;
        let mut address = NonNull::dangling().as_ptr();
        // SAFETY: "each other pointer is that of a whole value of its type, which the caller may write".
        done(unsafe { dym_touch(self.object.get(), chunk, &mut address) })?;
        // SAFETY: "it writes by a pointer into a live chunk that was touched since the last dym_log, dym_restore, dym_restore_before or
        // dym_load", and the borrow ends before the next of these.
        Ok(unsafe { slice::from_raw_parts_mut(address.cast(), length as usize) })
    }

    /// The bytes of several chunks, to be changed at once. No two of the handles may name one chunk.
    pub fn chunks_mut<const N: usize>(
        &mut self,
        chunks: [Handle; N],
    ) -> Result<[&mut [u8]; N], Error> {
        let mut found = [(NonNull::<c_void>::dangling().as_ptr(), 0); N];
        for (k, chunk) in chunks.iter().enumerate() {
            if chunks[..k]
                .iter()
                .any(|it| it.exponent == chunk.exponent && it.index == chunk.index)
            {
                return Err(Error::Twice);
            }
            found[k].1 = self.size(*chunk)? as usize;
        }
        for (k, chunk) in chunks.iter().enumerate() {
            // SAFETY: "each other pointer is that of a whole value of its type, which the caller may write".
            done(unsafe { dym_touch(self.object.get(), *chunk, &mut found[k].0) })?;
        }
        // SAFETY: as in `chunk_mut`; different chunks have no byte in common, and the object is borrowed as long as all of them.
        Ok(array::from_fn(|k| unsafe {
            slice::from_raw_parts_mut(found[k].0.cast(), found[k].1)
        }))
    }

    /// A value in a chunk that is long enough.
    pub fn value<T: Pod>(&self, chunk: Handle) -> Result<&T, Error> {
        let () = Fits::<T>::IN_A_CHUNK;
        let bytes = self.chunk(chunk)?;
        if bytes.len() < std::mem::size_of::<T>() {
            return Err(Error::Range);
        }
        if !T::ANY_BYTES && !T::is_value(&bytes[..std::mem::size_of::<T>()]) {
            return Err(Error::NoValue);
        }
        // SAFETY: the bytes are enough, and aligned for it: "Each chunk is aligned to 16 bytes", more than which `Fits` refuses. They are a
        // value of the type, as was tested, or any bytes are.
        Ok(unsafe { &*bytes.as_ptr().cast::<T>() })
    }

    /// Writes a value into a chunk that is long enough, whatever stands there.
    pub fn put_value<T: Pod>(&mut self, chunk: Handle, value: T) -> Result<(), Error> {
        let () = Fits::<T>::IN_A_CHUNK;
        let bytes = self.chunk_mut(chunk)?;
        if bytes.len() < std::mem::size_of::<T>() {
            return Err(Error::Range);
        }
        // SAFETY: the bytes are enough, and aligned for it, as in `value`; the value has no padding and needs no drop.
        unsafe { bytes.as_mut_ptr().cast::<T>().write(value) };
        Ok(())
    }

    /// The values in chunks that are long enough, to be changed at once.
    pub fn values_mut<T: Pod, const N: usize>(
        &mut self,
        chunks: [Handle; N],
    ) -> Result<[&mut T; N], Error> {
        for chunk in chunks {
            self.value::<T>(chunk)?;
        }
        let bytes = self.chunks_mut(chunks)?.map(|it| it.as_mut_ptr());
        // SAFETY: as in `value` and `chunks_mut`.
        Ok(array::from_fn(|k| unsafe { &mut *bytes[k].cast::<T>() }))
    }

    /// The values of two types in two chunks, to be changed at once.
    pub fn pair_mut<T: Pod, U: Pod>(
        &mut self,
        first: Handle,
        second: Handle,
    ) -> Result<(&mut T, &mut U), Error> {
        self.value::<T>(first)?;
        self.value::<U>(second)?;
        let [first, second] = self.chunks_mut([first, second])?;
        // SAFETY: as in `value` and `chunks_mut`.
        Ok(unsafe {
            (
                &mut *first.as_mut_ptr().cast::<T>(),
                &mut *second.as_mut_ptr().cast::<U>(),
            )
        })
    }

    /// The answer is the kind of the log that was taken.
    pub fn log(&mut self, kind: u32, time: u64) -> Result<u32, Error> {
        let mut logged = 0;
        // SAFETY: "each other pointer is that of a whole value of its type, which the caller may write".
        done(unsafe { dym_log(self.object.get(), kind, time, &mut logged) }).map(|()| logged)
    }

    pub fn restore(&mut self, time: u64) -> Result<u64, Error> {
        let mut restored = 0;
        // SAFETY: "each other pointer is that of a whole value of its type, which the caller may write".
        done(unsafe { dym_restore(self.object.get(), time, &mut restored) }).map(|()| restored)
    }

    pub fn restore_before(&mut self, time: u64) -> Result<u64, Error> {
        let mut restored = 0;
        // SAFETY: "each other pointer is that of a whole value of its type, which the caller may write".
        done(unsafe { dym_restore_before(self.object.get(), time, &mut restored) })
            .map(|()| restored)
    }

    pub fn prune_before(&mut self, bound: u64) -> Result<u32, Error> {
        let mut dropped = 0;
        // SAFETY: "each other pointer is that of a whole value of its type, which the caller may write".
        done(unsafe { dym_prune_before(self.object.get(), bound, &mut dropped) }).map(|()| dropped)
    }

    pub fn log_time(&self, place: u32) -> Result<u64, Error> {
        let mut time = 0;
        // SAFETY: "each other pointer is that of a whole value of its type, which the caller may write".
        done(unsafe { dym_log_time(self.object.get(), place, &mut time) }).map(|()| time)
    }

    pub fn log_kind(&self, place: u32) -> Result<u32, Error> {
        let mut kind = FULL;
        // SAFETY: "each other pointer is that of a whole value of its type, which the caller may write".
        done(unsafe { dym_log_kind(self.object.get(), place, &mut kind) }).map(|()| kind)
    }

    pub fn changed(&self) -> Result<u64, Error> {
        let mut count = 0;
        // SAFETY: "each other pointer is that of a whole value of its type, which the caller may write".
        done(unsafe { dym_changed(self.object.get(), &mut count) }).map(|()| count)
    }

    pub fn usage(&self) -> Result<Bytes, Error> {
        let mut bytes = Bytes::default();
        // SAFETY: "each other pointer is that of a whole value of its type, which the caller may write".
        done(unsafe { dym_usage(self.object.get(), &mut bytes) }).map(|()| bytes)
    }

    pub fn inspect(&self) -> Result<Heap, Error> {
        let mut heap = Heap::default();
        // SAFETY: "each other pointer is that of a whole value of its type, which the caller may write".
        done(unsafe { dym_inspect(self.object.get(), &mut heap) }).map(|()| heap)
    }

    pub fn prune(&mut self, bound: u64) -> Result<u32, Error> {
        let mut dropped = 0;
        // SAFETY: "each other pointer is that of a whole value of its type, which the caller may write".
        done(unsafe { dym_prune(self.object.get(), bound, &mut dropped) }).map(|()| dropped)
    }

    pub fn logs(&self) -> Result<Slots, Error> {
        let mut slots = Slots::default();
        // SAFETY: "each other pointer is that of a whole value of its type, which the caller may write".
        done(unsafe { dym_logs(self.object.get(), &mut slots) }).map(|()| slots)
    }

    /// Writes the file to where the bytes begin. The length is the file's, also where the answer is that they have no room for it.
    pub fn save(&self, name: &[u8], bytes: &mut [u8], length: &mut u64) -> Result<(), Error> {
        // SAFETY: "bytes that are handed in or out are at a pointer that isn't null, also where there are none": no slice's is.
        done(unsafe {
            dym_save(
                self.object.get(),
                name.as_ptr().cast(),
                name.len(),
                bytes.as_mut_ptr().cast(),
                bytes.len(),
                length,
            )
        })
    }
}

impl Drop for OpenObject {
    /// Closes the object. One that is dropped because it couldn't be opened is closed already, and the call then does nothing.
    fn drop(&mut self) {
        // SAFETY: "a pointer to an object is that of such a dym_object", closed or open: "DYM_STATE: it was closed".
        unsafe { dym_close(self.object.get()) };
    }
}

/// An empty vector with room for so many.
fn with_room<T>(count: u64) -> Result<Vec<T>, Error> {
    let count = usize::try_from(count).map_err(|_| Error::Memory)?;
    let mut all = Vec::new();
    all.try_reserve_exact(count).map_err(|_| Error::Memory)?;
    Ok(all)
}

impl OpenProcess {
    /// An open process at its start, and its object.
    pub fn open(config: &Config) -> Result<(OpenProcess, OpenObject), Error> {
        let given = ProcessConfig {
            number: config.number,
            processes: config.processes,
            period: config.period,
            quota: config.quota,
            version: 2,
            is_checked: 0,
        };
        let mut object = OpenObject::closed();
        let mut process = OpenProcess {
            inside: ptr::null_mut(),
            committed: 0,
        };
        // SAFETY: "a dym_process is zeroed before its first use".
        done(process.call(&mut object, |c| unsafe { dym_process_open(c, &given) }))?;
        Ok((process, object))
    }

    /// Makes a call on a `dym_process` of both.
    fn call(&mut self, object: &mut OpenObject, call: impl FnOnce(*mut Process) -> Status) -> Status {
        let mut process = Process {
            object: Object {
                inside: object.object.get_mut().inside,
            },
            inside: self.inside,
        };
        let status = call(&mut process);
        object.object.get_mut().inside = process.object.inside;
        self.inside = process.inside;
        status
    }

    /// Makes a call that looks at no object, on a `dym_process` without one.
    fn look(&self, call: impl FnOnce(*mut Process) -> Status) -> Status {
        let object = Object {
            inside: ptr::null_mut(),
        };
        call(&mut Process {
            object,
            inside: self.inside,
        })
    }

    pub fn take(&mut self, object: &mut OpenObject, message: &PlainMessage) -> Result<u64, Error> {
        let given = Message::from(*message);
        let mut undone = 0;
        // SAFETY: see the head of this file, for this call and those below.
        done(self.call(object, |c| unsafe { dym_process_take(c, &given, &mut undone) }))?;
        Ok(undone)
    }

    pub fn outbox(&mut self) -> Result<Vec<PlainMessage>, Error> {
        // Room for all comes before the first is moved, so that none is lost.
        let mut all = with_room(self.told().outbox)?;
        let mut piece = [Message::default(); 16];
        loop {
            let mut count = 0;
            done(self.look(|c| unsafe {
                dym_process_outbox(c, piece.as_mut_ptr(), piece.len(), &mut count)
            }))?;
            let moved = (count as usize).min(piece.len());
            all.extend(piece[..moved].iter().map(|it| PlainMessage::from(*it)));
            if moved < piece.len() {
                return Ok(all);
            }
        }
    }

    pub fn next_time(&self) -> Option<Time> {
        let mut time = 0;
        let status = self.look(|c| unsafe { dym_process_next(c, &mut time) });
        (status == 0).then_some(Time(time))
    }

    pub fn begin(&mut self, object: &mut OpenObject) -> Result<Option<(PlainEvent, bool)>, Error> {
        let (mut event, mut how) = (Event::default(), 0);
        match self.call(object, |c| unsafe { dym_process_begin(c, &mut event, &mut how) }) {
            NONE => Ok(None),
            status => done(status).map(|()| Some((event.into(), how & REPLAYED != 0))),
        }
    }

    pub fn replay(&mut self, object: &mut OpenObject) -> Result<Option<PlainEvent>, Error> {
        let (mut event, mut how) = (Event::default(), 0);
        match self.call(object, |c| unsafe { dym_process_replay(c, &mut event, &mut how) }) {
            NONE => Ok(None),
            status => done(status).map(|()| Some(event.into())),
        }
    }

    pub fn send(&mut self, object: &mut OpenObject, event: &Event) -> Result<(), Error> {
        done(self.call(object, |c| unsafe { dym_process_send(c, event) }))
    }

    pub fn end(&mut self, object: &mut OpenObject) -> Result<(), Error> {
        done(self.call(object, |c| unsafe { dym_process_end(c) }))
    }

    pub fn commit(&mut self, object: &mut OpenObject, bound: u64) -> Result<Vec<PlainEvent>, Error> {
        // The same: no more are committed than were run and weren't committed before.
        let mut all = with_room(self.told().ran.saturating_sub(self.committed))?;
        let mut committed = 0;
        done(self.call(object, |c| unsafe { dym_process_commit(c, bound, &mut committed) }))?;
        self.committed += committed;
        let mut piece = [Event::default(); 16];
        loop {
            let mut count = 0;
            done(self.look(|c| unsafe {
                dym_process_committed(c, piece.as_mut_ptr(), piece.len(), &mut count)
            }))?;
            let moved = (count as usize).min(piece.len());
            all.extend(piece[..moved].iter().map(|it| PlainEvent::from(*it)));
            if moved < piece.len() {
                return Ok(all);
            }
        }
    }

    fn told(&self) -> ProcessProgress {
        let mut told = ProcessProgress::default();
        self.look(|c| unsafe { dym_process_progress(c, &mut told) });
        told
    }

    pub fn progress(&self) -> Progress {
        let told = self.told();
        Progress {
            ran: told.ran,
            replays: told.replays,
            logged: told.logged,
        }
    }

    pub fn set_period(&mut self, period: u64) {
        self.look(|c| unsafe { dym_process_period(c, period) });
    }
}

impl Drop for OpenProcess {
    /// Closes the process. Its object is an [`OpenObject`], which closes itself.
    fn drop(&mut self) {
        self.look(|c| unsafe { dym_process_close(c) });
    }
}

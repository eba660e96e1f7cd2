use crate::answers::{Found, Heap, LogKind, Logs, Usage, Version};
use crate::chunk::Chunk;
use crate::chunks::Chunks;
use crate::error::Error;
use crate::ffi::{self, OpenObject};
use crate::handle::Handle;
use crate::pod::Pod;
use crate::time::Time;
use std::fmt;

/// The heap of one logical process, with its logs. It is closed, and all its memory freed, when it is dropped.
///
/// What changes the heap or the logs takes the object by `&mut self`; what only looks takes it by `&self`. Commands of both kinds are
/// counted: each method can return [`Error::Spent`], which isn't named again below, but [`open`](Object::open), [`load`](Object::load),
/// [`save`](Object::save), [`inspect`](Object::inspect), [`size`](Object::size), [`chunk`](Object::chunk), [`get`](Object::get),
/// [`log_time`](Object::log_time), [`log_kind`](Object::log_kind), [`changed`](Object::changed), [`usage`](Object::usage),
/// [`next_chunk`](Object::next_chunk) and [`chunks`](Object::chunks).
///
/// An object may move to another thread. Threads can't share it, since the library allows one call at a time on an object:
///
/// ```
/// fn crosses<T: Send>() {}
/// crosses::<dymelor::Object>();
/// ```
///
/// ```compile_fail,E0277
/// fn is_shared<T: Sync>() {}
/// is_shared::<dymelor::Object>();
/// ```
#[must_use = "an object is closed when it is dropped"]
pub struct Object {
    inside: OpenObject,
}

impl Object {
    /// An object that is open.
    pub(crate) fn of(inside: OpenObject) -> Object {
        Object { inside }
    }

    /// What a process lends its calls.
    pub(crate) fn inside_mut(&mut self) -> &mut OpenObject {
        &mut self.inside
    }
}

/// Opening, and checkpoint files.
///
/// A file has the kept logs of an object, as if they were taken again, with its quota and version, under a name. What was changed since the newest
/// log isn't in it. The program `dymelor` saves and loads files of this form.
impl Object {
    /// Opens an object with an empty heap and no log. The quota is the most segments of 64 KiB that it may hold, 1 to 1,024. Addresses are
    /// reserved for twelve times as many, and memory is taken for those that are used.
    ///
    /// # Errors
    ///
    /// [`Error::Bad`] if the quota is 0 or above 1,024, and [`Error::Memory`].
    pub fn open(quota: u32, version: Version) -> Result<Object, Error> {
        let version = match version {
            Version::One => 1,
            Version::Two => 2,
        };
        let inside = OpenObject::open(quota, version)?;
        Ok(Object { inside })
    }

    /// Opens an object as the newest log of a file has it, with all its logs, and empty if the file has none. Its quota and version are
    /// the file's. Any bytes may be handed in: an object comes of them exactly where they are a file. The name that the file has isn't told.
    ///
    /// # Errors
    ///
    /// [`Error::File`] if the bytes are no file, and [`Error::Memory`].
    pub fn load(file: &[u8]) -> Result<Object, Error> {
        let inside = OpenObject::load(file)?;
        Ok(Object { inside })
    }

    /// The object's version, its quota, and how many segments it holds. This is no command.
    pub fn inspect(&self) -> Heap {
        match self.inside.inspect() {
            Ok(heap) => Heap {
                version: match heap.version {
                    1 => Version::One,
                    _ => Version::Two,
                },
                quota: heap.quota,
                held: heap.held,
            },
            Err(why) => unreachable!("an open object tells its quota: {why}"),
        }
    }

    /// How many bytes the object has in use. It asks each live chunk for its length. This is no command.
    pub fn usage(&self) -> Usage {
        match self.inside.usage() {
            Ok(bytes) => Usage {
                live: bytes.live,
                kept: bytes.kept,
                idle: bytes.idle,
            },
            Err(why) => unreachable!("an open object tells what it uses: {why}"),
        }
    }

    /// The file of the object's kept logs, under a name of 1 to 32 characters `A-Z a-z 0-9 _` that isn't the word `object`.
    ///
    /// The library makes the file twice, once to tell its length.
    ///
    /// # Errors
    ///
    /// [`Error::Bad`] if it isn't such a name, and [`Error::Memory`].
    pub fn save(&self, name: &str) -> Result<Vec<u8>, Error> {
        let length = self.saved_length(name)?;
        let mut file = Vec::new();
        file.try_reserve_exact(length).map_err(|_| Error::Memory)?;
        file.resize(length, 0);
        self.inside.save(name.as_bytes(), &mut file, &mut 0)?;
        Ok(file)
    }

    /// How long the file is: no file fits into no bytes, and the library tells the length then.
    fn saved_length(&self, name: &str) -> Result<usize, Error> {
        let mut length = 0;
        match self.inside.save(name.as_bytes(), &mut [], &mut length) {
            Ok(()) | Err(Error::Range) => usize::try_from(length).map_err(|_| Error::Memory),
            Err(why) => Err(why),
        }
    }
}

/// Values in chunks of their own.
///
/// A [`Chunk`] is a handle that knows the type of what lies in its chunk, which is [`Pod`]. A handle that got old, whose chunk was freed and
/// allocated for something else, may show another value, or fail with [`Error::NoValue`]; it never shows a broken one.
///
/// ```
/// # fn main() -> Result<(), dymelor::Error> {
/// use dymelor::{pod, LogKind, Object, Time, Version};
///
/// pod! {
///     /// One player.
///     #[derive(Debug, PartialEq)]
///     pub struct Player {
///         pub x: f32,
///         pub y: f32,
///         pub score: u64,
///     }
/// }
///
/// let mut object = Object::open(4, Version::Two)?;
/// let (ann, bob) = (Player { x: 1.0, y: 2.0, score: 0 }, Player { x: 5.0, y: 2.0, score: 0 });
/// let (ann, bob) = (object.make(ann)?, object.make(bob)?);
/// object.log(LogKind::Full, Time(0))?;
/// let [a, b] = object.get_many_mut([ann, bob])?; // both at once
/// a.score += 1;
/// b.x = a.x;
/// object.restore_before(Time(1))?;
/// assert_eq!(object.get(bob)?, &Player { x: 5.0, y: 2.0, score: 0 });
/// # Ok(())
/// # }
/// ```
impl Object {
    /// A fresh chunk with a value in it.
    ///
    /// # Errors
    ///
    /// [`Error::Quota`].
    pub fn make<T: Pod>(&mut self, value: T) -> Result<Chunk<T>, Error> {
        let chunk = Chunk::of(self.malloc(std::mem::size_of::<T>() as u64)?);
        if let Err(why) = self.set(chunk, value) {
            let _ = self.free(Some(chunk.handle()));
            return Err(why);
        }
        Ok(chunk)
    }

    /// Writes a value into a chunk, whatever bytes it has: its chunk is touched, as by [`chunk_mut`](Object::chunk_mut).
    ///
    /// # Errors
    ///
    /// [`Error::Dead`], and [`Error::Range`] if the chunk is shorter than the value.
    pub fn set<T: Pod>(&mut self, chunk: Chunk<T>, value: T) -> Result<(), Error> {
        self.inside.put_value(sent(chunk.handle()), value)
    }

    /// A value where it lies. This is no command, and isn't counted.
    ///
    /// # Errors
    ///
    /// [`Error::Dead`], [`Error::Range`] if the chunk is shorter than the value, and [`Error::NoValue`] if its bytes are no value of the type.
    pub fn get<T: Pod>(&self, chunk: Chunk<T>) -> Result<&T, Error> {
        self.inside.value(sent(chunk.handle()))
    }

    /// A value where it lies, to be changed: its chunk is touched, as by [`chunk_mut`](Object::chunk_mut).
    ///
    /// # Errors
    ///
    /// [`Error::Dead`], [`Error::Range`] if the chunk is shorter than the value, and [`Error::NoValue`] if its bytes are no value of the type.
    pub fn get_mut<T: Pod>(&mut self, chunk: Chunk<T>) -> Result<&mut T, Error> {
        let [value] = self.get_many_mut([chunk])?;
        Ok(value)
    }

    /// Several values of one type, to be changed at once.
    ///
    /// # Errors
    ///
    /// [`Error::Dead`], [`Error::Range`] if a chunk is shorter than the value, [`Error::NoValue`] if its bytes are no value of the type, and
    /// [`Error::Twice`] if a chunk is named twice.
    pub fn get_many_mut<T: Pod, const N: usize>(
        &mut self,
        chunks: [Chunk<T>; N],
    ) -> Result<[&mut T; N], Error> {
        self.inside.values_mut(chunks.map(|it| sent(it.handle())))
    }

    /// Two values of any types, to be changed at once.
    ///
    /// # Errors
    ///
    /// [`Error::Dead`], [`Error::Range`] if a chunk is shorter than the value, [`Error::NoValue`] if its bytes are no value of the type, and
    /// [`Error::Twice`] if both are one chunk.
    pub fn pair_mut<T: Pod, U: Pod>(
        &mut self,
        first: Chunk<T>,
        second: Chunk<U>,
    ) -> Result<(&mut T, &mut U), Error> {
        self.inside
            .pair_mut(sent(first.handle()), sent(second.handle()))
    }
}

/// Chunks.
impl Object {
    /// A fresh chunk of zero bytes: the free one with the least index in the class of the length, which may be 0.
    ///
    /// # Errors
    ///
    /// [`Error::TooLarge`], [`Error::Quota`].
    pub fn malloc(&mut self, length: u64) -> Result<Handle, Error> {
        self.inside.malloc(length).map(chunk_of)
    }

    /// The same for `count * length` bytes, also where that product is above 2^64.
    ///
    /// # Errors
    ///
    /// [`Error::TooLarge`], [`Error::Quota`].
    pub fn calloc(&mut self, count: u64, length: u64) -> Result<Handle, Error> {
        self.inside.calloc(count, length).map(chunk_of)
    }

    /// Gives a chunk another length: its bytes stay up to the smaller length, and zeros follow. The answer is its handle then, which is the
    /// same where the class is; else the old one is dead, and the quota has to allow both chunks for a moment. For `None` this is
    /// [`malloc`](Object::malloc), whatever the length; else a length of 0 frees the chunk, and the answer is `None`.
    ///
    /// # Errors
    ///
    /// [`Error::Dead`], [`Error::TooLarge`], [`Error::Quota`].
    pub fn realloc(&mut self, chunk: Option<Handle>, length: u64) -> Result<Option<Handle>, Error> {
        self.inside
            .realloc(sent_or_nil(chunk), length)
            .map(chunk_or_nil_of)
    }

    /// Frees a chunk; for `None` does nothing.
    ///
    /// # Errors
    ///
    /// [`Error::Dead`].
    pub fn free(&mut self, chunk: Option<Handle>) -> Result<(), Error> {
        self.inside.free(sent_or_nil(chunk))
    }

    /// Writes bytes into a chunk, from its place `at` on.
    ///
    /// # Errors
    ///
    /// [`Error::Dead`], [`Error::Range`].
    pub fn write(&mut self, chunk: Handle, at: u32, bytes: &[u8]) -> Result<(), Error> {
        self.inside.write(sent(chunk), at, bytes)
    }

    /// Makes `length` bytes of a chunk from its place `at` on `byte`.
    ///
    /// # Errors
    ///
    /// [`Error::Dead`], [`Error::Range`].
    pub fn fill(&mut self, chunk: Handle, at: u32, length: u32, byte: u8) -> Result<(), Error> {
        self.inside.fill(sent(chunk), at, length, byte)
    }

    /// Copies bytes of a chunk, from its place `at` on, to `bytes`, which stay as they were if the call is refused.
    ///
    /// # Errors
    ///
    /// [`Error::Dead`], [`Error::Range`].
    pub fn read(&self, chunk: Handle, at: u32, bytes: &mut [u8]) -> Result<(), Error> {
        self.inside.read(sent(chunk), at, bytes)
    }

    /// The bytes of a chunk, where they lie. This is no command, and isn't counted.
    ///
    /// # Errors
    ///
    /// [`Error::Dead`].
    pub fn chunk(&self, chunk: Handle) -> Result<&[u8], Error> {
        self.inside.chunk(sent(chunk))
    }

    /// The bytes of a chunk, where they lie, to be changed. This counts as a [`write`](Object::write) of all of them, with those that stand
    /// there when the borrow ends. A chunk of length 0 has no byte to be written, and isn't touched.
    ///
    /// # Errors
    ///
    /// [`Error::Dead`].
    pub fn chunk_mut(&mut self, chunk: Handle) -> Result<&mut [u8], Error> {
        self.inside.chunk_mut(sent(chunk))
    }

    /// The bytes of several chunks at once, to be changed. Each counts as by [`chunk_mut`](Object::chunk_mut); where the call fails, none was
    /// changed, but some may be touched.
    ///
    /// # Errors
    ///
    /// [`Error::Dead`], and [`Error::Twice`] if a chunk is named twice.
    pub fn chunks_mut<const N: usize>(
        &mut self,
        chunks: [Handle; N],
    ) -> Result<[&mut [u8]; N], Error> {
        self.inside.chunks_mut(chunks.map(sent))
    }

    /// Writes the number of a handle, which needn't be live, or that of nil into eight bytes of a chunk from its place `at` on.
    ///
    /// # Errors
    ///
    /// [`Error::Dead`], [`Error::Range`].
    pub fn link(&mut self, chunk: Handle, at: u32, to: Option<Handle>) -> Result<(), Error> {
        self.inside.link(sent(chunk), at, sent_or_nil(to))
    }

    /// What eight bytes of a chunk from its place `at` on name.
    ///
    /// # Errors
    ///
    /// [`Error::Dead`], [`Error::Range`].
    pub fn follow(&self, chunk: Handle, at: u32) -> Result<Found, Error> {
        let found = self.inside.follow(sent(chunk), at)?;
        Ok(match found.kind {
            ffi::FOUND_NIL => Found::Nil,
            ffi::FOUND_LIVE => Found::Live(chunk_of(found.chunk)),
            _ => Found::Loose(found.number),
        })
    }

    /// The sum of a chunk's bytes as numbers.
    ///
    /// # Errors
    ///
    /// [`Error::Dead`].
    pub fn sum(&self, chunk: Handle) -> Result<u64, Error> {
        self.inside.sum(sent(chunk))
    }

    /// A chunk's length in bytes. This is no command, and isn't counted.
    ///
    /// # Errors
    ///
    /// [`Error::Dead`].
    pub fn size(&self, chunk: Handle) -> Result<u32, Error> {
        self.inside.size(sent(chunk))
    }

    /// The first live chunk after `after`, which needn't be live, in the order of handles; after `None` the first of all. This is no command
    /// either. With it a heap can be walked while its chunks are changed; [`chunks`](Object::chunks) walks one that stays as it is.
    pub fn next_chunk(&self, after: Option<Handle>) -> Option<Handle> {
        match self.inside.next(sent_or_nil(after)) {
            Ok(next) => chunk_or_nil_of(next),
            Err(why) => unreachable!("an open object tells its chunks: {why}"),
        }
    }

    /// The live chunks, in the order of their handles.
    pub fn chunks(&self) -> Chunks<'_> {
        Chunks::of(self)
    }

    /// Returns one number for the live heap, that of `dym_hash`, so that two peers or two runs compare states by one word: FNV-1a of 64 bits over
    /// each live chunk, in the order of the handles, of its handle's number, its length and its bytes.
    ///
    /// Heaps with the same live chunks and bytes have the same hash, whatever their logs. It reads every byte of the heap. This is no command.
    /// Two machines get the same hash from the same calls: a chunk's bytes are what the program wrote (a number's least byte first,
    /// as on x86-64, where alone the library was tried), a `Pod` type has no padding, and no address stands in the heap.
    pub fn hash(&self) -> u64 {
        let mut hash = 0xcbf2_9ce4_8422_2325;
        let mut add = |bytes: &[u8]| {
            for byte in bytes {
                hash = (hash ^ u64::from(*byte)).wrapping_mul(0x0000_0100_0000_01b3);
            }
        };
        for chunk in self.chunks() {
            let Ok(bytes) = self.chunk(chunk) else {
                unreachable!("the chunk is live");
            };
            add(&chunk.number().to_le_bytes());
            add(&(bytes.len() as u32).to_le_bytes());
            add(bytes);
        }
        hash
    }
}

/// Logs.
impl Object {
    /// Logs the heap at a time above that of the newest log. The answer is the log's kind: it is full, whatever kind is asked, where there is
    /// none before it or 31 incremental ones stand behind the last full one.
    ///
    /// # Errors
    ///
    /// [`Error::NotAfter`], [`Error::LogsFull`], and [`Error::Memory`], where nothing was logged.
    pub fn log(&mut self, kind: LogKind, time: Time) -> Result<LogKind, Error> {
        let asked = match kind {
            LogKind::Full => ffi::FULL,
            LogKind::Incremental => ffi::INCREMENTAL,
        };
        self.inside.log(asked, time.0).map(kind_of)
    }

    /// Brings the heap back to the newest log at or before a time, which stays, and drops the logs after it. The answer is its time.
    ///
    /// # Errors
    ///
    /// [`Error::NoLog`].
    pub fn restore(&mut self, time: Time) -> Result<Time, Error> {
        self.inside.restore(time.0).map(Time)
    }

    /// The same with the newest log before a time, of which there is none at time 0.
    ///
    /// # Errors
    ///
    /// [`Error::NoLog`].
    pub fn restore_before(&mut self, time: Time) -> Result<Time, Error> {
        self.inside.restore_before(time.0).map(Time)
    }

    /// Drops the logs before the newest one at or before a bound, so that this one can still be restored. The answer is how many; it may be 0.
    /// For a bound at which an event may still come, as GVT, [`prune_before`](Object::prune_before) is the call.
    ///
    /// # Errors
    ///
    /// Only [`Error::Spent`].
    pub fn prune(&mut self, bound: Time) -> Result<u32, Error> {
        self.inside.prune(bound.0)
    }

    /// Drops the logs before the newest one before a bound, so that [`restore_before`](Object::restore_before) with that bound or a later time
    /// still finds it. At bound 0 it drops none.
    ///
    /// # Errors
    ///
    /// Only [`Error::Spent`].
    pub fn prune_before(&mut self, bound: Time) -> Result<u32, Error> {
        self.inside.prune_before(bound.0)
    }

    /// The time of a kept log, of which the oldest has place 0. This is no command.
    ///
    /// # Errors
    ///
    /// [`Error::NoLog`] if no log is kept at this place.
    pub fn log_time(&self, place: u32) -> Result<Time, Error> {
        self.inside.log_time(place).map(Time)
    }

    /// The kind of a kept log, of which the oldest has place 0. This is no command.
    ///
    /// # Errors
    ///
    /// [`Error::NoLog`] if no log is kept at this place.
    pub fn log_kind(&self, place: u32) -> Result<LogKind, Error> {
        self.inside.log_kind(place).map(kind_of)
    }

    /// How many chunks were changed, made or freed since the newest log was taken or brought back: so many a restore of it looks at. It is 0
    /// while there is no log. This is no command.
    pub fn changed(&self) -> u64 {
        match self.inside.changed() {
            Ok(count) => count,
            Err(why) => unreachable!("an open object tells what changed: {why}"),
        }
    }

    /// How many logs are kept, and how many records they take.
    ///
    /// # Errors
    ///
    /// Only [`Error::Spent`].
    pub fn logs(&self) -> Result<Logs, Error> {
        let slots = self.inside.logs()?;
        Ok(Logs {
            kept: slots.kept,
            records: slots.slots,
        })
    }
}

/// A kind as C has it.
fn kind_of(kind: u32) -> LogKind {
    match kind {
        ffi::FULL => LogKind::Full,
        _ => LogKind::Incremental,
    }
}

impl fmt::Debug for Object {
    fn fmt(&self, f: &mut fmt::Formatter<'_>) -> fmt::Result {
        let heap = self.inspect();
        f.debug_struct("Object")
            .field("version", &heap.version)
            .field("quota", &heap.quota)
            .field("held", &heap.held)
            .field("chunks", &self.chunks().count())
            .finish_non_exhaustive()
    }
}

/// A handle as C has it.
fn sent(chunk: Handle) -> ffi::Handle {
    ffi::Handle {
        exponent: chunk.exponent(),
        index: chunk.index(),
    }
}

/// A handle or nil as C has it.
fn sent_or_nil(chunk: Option<Handle>) -> ffi::Handle {
    chunk.map_or(ffi::NIL, sent)
}

/// A handle or nil that C told: nil is the only one without a class.
fn chunk_or_nil_of(told: ffi::Handle) -> Option<Handle> {
    Handle::new(told.exponent, told.index)
}

/// The handle of a chunk that C told.
fn chunk_of(told: ffi::Handle) -> Handle {
    match chunk_or_nil_of(told) {
        Some(chunk) => chunk,
        None => unreachable!("the library tells a chunk of exponent {}", told.exponent),
    }
}

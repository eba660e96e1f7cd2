//! Heaps that can be logged at simulation times and rolled back, for simulators of the Time Warp kind.
//!
//! An [`Object`] is the heap of one logical process. Its chunks are named by [`Handle`]s, which stay valid over rollbacks; their bytes are
//! written and read by calls, or borrowed where they lie, so that the object keeps what they were before their first change. A log marks the
//! heap at a simulation [`Time`]; a restore brings back the newest log at or before a time, by what was kept since; a prune drops the logs
//! that no rollback can reach. Two events of a process, and a straggler:
//!
//! ```
//! use dymelor::{Error, LogKind, Object, Time, Version};
//!
//! fn simulate() -> Result<u8, Error> {
//!     let mut process = Object::open(4, Version::Two)?; // at most four segments of 64 KiB, exact lengths
//!     let state = process.malloc(64)?;
//!     process.log(LogKind::Full, Time(0))?; // before the first event, so that every straggler finds a log
//!     process.write(state, 0, &[10])?; // the event of time 10
//!     process.log(LogKind::Incremental, Time(10))?;
//!     process.chunk_mut(state)?[0] = 20; // the event of time 20, in place
//!     process.log(LogKind::Incremental, Time(20))?;
//!     process.restore_before(Time(15))?; // a straggler of time 15: back to the log of time 10
//!     let mut byte = [0];
//!     process.read(state, 0, &mut byte)?;
//!     Ok(byte[0])
//! }
//!
//! assert_eq!(simulate(), Ok(10));
//! ```
//!
//! # What it stands on
//!
//! The crate calls the exports of the C library `libdymelor`, each of which is proved to do what its header `dymelor.h` says, but for what is
//! said there to be tested (the numbers of `usage` and `changed`), and none of the inline calls of that header. What Rust adds is only
//! tested: this crate, which takes over what the header asks of a caller, so that none of it is left to the program. It depends only on
//! `std`.
//!
//! `build.rs` asks `pkg-config` for the library `dymelor`, of this crate's version or a later one with the same second number. If the
//! environment variable `DYMELOR_DIR` names a prefix, it takes the library in its folder `lib` instead, where the header in its folder
//! `include` has such a version. The archive is linked, and with `DYMELOR_LINK=shared` the shared library.
//!
//! What the header asks of a whole program holds of one in safe Rust: no call comes from a signal handler, nor from the forked child of a
//! process that has threads, as both are reached by `unsafe` alone; and `malloc`, `realloc` and `free` are those of the C library that the
//! program is linked with.
#![deny(unsafe_code)]
#![warn(missing_docs)]

/// The example of README is compiled and run.
#[cfg(doctest)]
#[doc = include_str!("../README.md")]
struct Readme;

mod answers;
mod chunk;
mod chunks;
mod error;
#[allow(unsafe_code)]
mod ffi;
mod handle;
mod object;
#[allow(unsafe_code)]
mod pod;
mod process;
mod time;

pub use answers::{Found, Heap, LogKind, Logs, Usage, Version};
pub use chunk::Chunk;
pub use chunks::Chunks;
pub use error::Error;
pub use handle::Handle;
pub use object::Object;
pub use pod::Pod;
pub use process::{Config, Draft, Event, Message, Model, Process, Progress, Site};
pub use time::Time;

#[doc(hidden)]
pub mod private {
    pub use crate::pod::same;
}

/// The version of the library that the program runs with: its three numbers.
pub fn library_version() -> (u32, u32, u32) {
    let number = ffi::version();
    (number / 10_000, number / 100 % 100, number % 100)
}

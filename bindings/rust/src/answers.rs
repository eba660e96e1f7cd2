use crate::handle::Handle;

/// The version of an object, which decides how long its chunks are.
#[derive(Clone, Copy, Debug, PartialEq, Eq, Hash)]
pub enum Version {
    /// A chunk is as long as the chunks of its class.
    One,
    /// A chunk is as long as was asked.
    Two,
}

/// What an object is, and how much of its quota it has.
#[derive(Clone, Copy, Debug, PartialEq, Eq, Hash)]
pub struct Heap {
    /// Its version.
    pub version: Version,
    /// The most segments of 64 KiB that it may hold.
    pub quota: u32,
    /// How many it holds.
    pub held: u32,
}

/// How many bytes an object has in use.
#[derive(Clone, Copy, Debug, PartialEq, Eq, Hash)]
pub struct Usage {
    /// The bytes of live chunks.
    pub live: u64,
    /// What is kept of chunks as they were before they changed, for restores. A prune may leave up to as much again.
    pub kept: u64,
    /// The bytes of held segments that are none of a live chunk.
    pub idle: u64,
}

/// The kind of a log, as the objects of scripts take them: both bring back the whole heap, and here both cost the same.
#[derive(Clone, Copy, Debug, PartialEq, Eq, Hash)]
pub enum LogKind {
    /// One that stands for itself.
    Full,
    /// One that stands on the log before it.
    Incremental,
}

/// The logs that an object keeps.
#[derive(Clone, Copy, Debug, PartialEq, Eq, Hash)]
pub struct Logs {
    /// How many there are.
    pub kept: u32,
    /// How many records a script's object would have for them: theirs, and those from the last full log before the oldest one.
    pub records: u32,
}

/// What eight bytes of a chunk name.
#[derive(Clone, Copy, Debug, PartialEq, Eq, Hash)]
pub enum Found {
    /// Nothing: they are zero.
    Nil,
    /// A live chunk.
    Live(Handle),
    /// No live chunk. The number is the one that the bytes are, the least byte first; where it is that of a handle
    /// ([`Handle::from_number`]), the link is live again once a chunk has this handle.
    Loose(u64),
}

use crate::handle::Handle;
use crate::pod::Pod;
use std::fmt;
use std::hash::{Hash, Hasher};
use std::marker::PhantomData;

/// The handle of a chunk in which a value of a type lies. [`Object::make`](crate::Object::make) gives one.
///
/// It is a name, as [`Handle`] is: it is copied, kept beside the object, and good in each state in which its chunk is live.
pub struct Chunk<T> {
    handle: Handle,
    value: PhantomData<fn() -> T>,
}

impl<T: Pod> Chunk<T> {
    /// The handle of a chunk that is to have such a value, as one that was kept as a number ([`Handle::from_number`]).
    pub fn of(handle: Handle) -> Chunk<T> {
        Chunk {
            handle,
            value: PhantomData,
        }
    }
}

impl<T> Chunk<T> {
    /// The handle, for the calls that take any chunk.
    pub fn handle(self) -> Handle {
        self.handle
    }
}

// What `derive` writes would ask the same of `T`.
impl<T> Clone for Chunk<T> {
    fn clone(&self) -> Chunk<T> {
        *self
    }
}

impl<T> Copy for Chunk<T> {}

impl<T> PartialEq for Chunk<T> {
    fn eq(&self, other: &Chunk<T>) -> bool {
        self.handle == other.handle
    }
}

impl<T> Eq for Chunk<T> {}

impl<T> Hash for Chunk<T> {
    fn hash<H: Hasher>(&self, state: &mut H) {
        self.handle.hash(state);
    }
}

impl<T> fmt::Debug for Chunk<T> {
    fn fmt(&self, f: &mut fmt::Formatter<'_>) -> fmt::Result {
        f.debug_tuple("Chunk").field(&self.handle).finish()
    }
}

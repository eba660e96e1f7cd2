use crate::handle::Handle;
use crate::object::Object;
use std::iter::FusedIterator;

/// The live chunks of an object, in the order of their handles.
#[derive(Clone, Debug)]
pub struct Chunks<'a> {
    object: &'a Object,
    next: Option<Handle>,
}

impl<'a> Chunks<'a> {
    pub(crate) fn of(object: &'a Object) -> Chunks<'a> {
        let next = object.next_chunk(None);
        Chunks { object, next }
    }
}

impl Iterator for Chunks<'_> {
    type Item = Handle;

    fn next(&mut self) -> Option<Handle> {
        let chunk = self.next?;
        self.next = self.object.next_chunk(Some(chunk));
        Some(chunk)
    }
}

impl FusedIterator for Chunks<'_> {}

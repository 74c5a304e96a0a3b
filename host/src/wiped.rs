//! Bytes that are wiped when they go: keys, and what is worked with.

use crate::calls;
use std::ops::{Deref, DerefMut};

/// So many bytes, neither more nor fewer until they are wiped: nothing is left behind by growing. They stay where they are when
/// their owner is moved.
#[derive(Clone, PartialEq, Eq)]
pub(crate) struct Wiped(Box<[u8]>);

impl Wiped {
    pub(crate) fn zeros(length: usize) -> Wiped {
        Wiped(vec![0; length].into_boxed_slice())
    }
}

impl From<&[u8]> for Wiped {
    fn from(bytes: &[u8]) -> Wiped {
        Wiped(bytes.into())
    }
}

impl Deref for Wiped {
    type Target = [u8];

    fn deref(&self) -> &[u8] {
        &self.0
    }
}

impl DerefMut for Wiped {
    fn deref_mut(&mut self) -> &mut [u8] {
        &mut self.0
    }
}

impl Drop for Wiped {
    fn drop(&mut self) {
        calls::wipe(&mut self.0);
    }
}

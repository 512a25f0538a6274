//! A lent buffer between canaries: bytes before and after it that no call may
//! change.

use std::ops::{Deref, DerefMut};

/// Guard bytes on each side; a buffer begins at another alignment by its
/// `shift`.
const GUARD: usize = 48;

/// No canary is 0 or FF, which a stray write would most likely be, and each
/// differs from its neighbours.
fn canary(at: usize) -> u8 {
    0x5B ^ (at % 32) as u8
}

#[derive(Clone)]
pub struct Guarded {
    all: Vec<u8>,
    start: usize,
    length: usize,
}

impl Guarded {
    /// A copy of the bytes, at an address that varies with the shift.
    pub fn holding(bytes: &[u8], shift: usize) -> Guarded {
        let mut guarded = Guarded::zeros(bytes.len(), shift);
        guarded.copy_from_slice(bytes);
        guarded
    }

    /// Zeros that are not touched before they are used.
    pub fn zeros(length: usize, shift: usize) -> Guarded {
        let start = GUARD + shift % 16;
        let mut all = vec![0; start + length + GUARD];
        for at in (0..start).chain(start + length..start + length + GUARD) {
            all[at] = canary(at);
        }
        Guarded { all, start, length }
    }

    /// The place of the first canary that was changed: how far before or after
    /// the buffer it lies.
    pub fn struck(&self) -> Option<String> {
        let end = self.start + self.length;
        let changed = |at: &usize| self.all[*at] != canary(*at);
        let before = (0..self.start).rev().find(changed);
        let after = (end..self.all.len()).find(changed);
        let before = before.map(|at| format!("{} before its start", self.start - at));
        before.or_else(|| after.map(|at| format!("{} behind its last byte", at - end + 1)))
    }
}

impl Deref for Guarded {
    type Target = [u8];

    fn deref(&self) -> &[u8] {
        &self.all[self.start..self.start + self.length]
    }
}

impl DerefMut for Guarded {
    fn deref_mut(&mut self) -> &mut [u8] {
        &mut self.all[self.start..self.start + self.length]
    }
}

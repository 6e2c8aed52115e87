//! Buffers with bytes around them that have to stay.

use std::sync::atomic::{AtomicUsize, Ordering};

/// What stands in a buffer and around it before a call.
pub const CANARY: u8 = 0xa5;

/// How many bytes stand on each side.
static AROUND: AtomicUsize = AtomicUsize::new(24);

/// No bytes around a buffer from now on: it is an allocation by itself, so that valgrind sees a read beside it too.
pub fn leave_to_valgrind() {
    AROUND.store(0, Ordering::Relaxed);
}

/// A buffer in the middle of a longer one.
pub struct Guarded {
    all: Vec<u8>,
    around: usize,
}

impl Guarded {
    /// A buffer of so many canary bytes.
    pub fn new(length: usize) -> Self {
        let around = AROUND.load(Ordering::Relaxed);
        Guarded {
            all: vec![CANARY; length + 2 * around],
            around,
        }
    }

    /// A buffer with this content.
    pub fn of(content: &[u8]) -> Self {
        let mut guarded = Guarded::new(content.len());
        guarded.lent_mut().copy_from_slice(content);
        guarded
    }

    /// The buffer.
    pub fn lent(&self) -> &[u8] {
        &self.all[self.around..self.all.len() - self.around]
    }

    /// The buffer, to be written.
    pub fn lent_mut(&mut self) -> &mut [u8] {
        let end = self.all.len() - self.around;
        &mut self.all[self.around..end]
    }

    /// The canary bytes that a new buffer of this length has.
    pub fn as_made(&self) -> Vec<u8> {
        vec![CANARY; self.lent().len()]
    }

    /// Whether from this place on the buffer and what is around it are canary bytes.
    pub fn untouched_from(&self, at: usize) -> bool {
        let whole = |bytes: &[u8]| bytes.iter().all(|b| *b == CANARY);
        whole(&self.all[..self.around]) && whole(&self.all[self.around + at..])
    }

    /// Whether the buffer holds this and nothing around it has changed.
    pub fn holds(&self, content: &[u8]) -> bool {
        let length = self.lent().len();
        let around = self.all[..self.around]
            .iter()
            .chain(&self.all[self.around + length..]);
        self.lent() == content && around.into_iter().all(|b| *b == CANARY)
    }
}

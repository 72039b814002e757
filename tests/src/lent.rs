// A buffer lent to the library: random guard bytes stand on both sides of it, and a copy of
// everything as it was before the call shows every byte that the call wrote.
use crate::rng::Rng;
use std::ptr;

const GUARD: usize = 16;

pub struct Lent {
    bytes: Vec<u8>,
    before: Vec<u8>,
    null: bool,
}

impl Lent {
    /// A buffer that holds `content`.
    pub fn holding(rng: &mut Rng, content: &[u8]) -> Lent {
        let mut bytes = rng.bytes(GUARD);
        bytes.extend_from_slice(content);
        bytes.extend(rng.bytes(GUARD));
        Lent { before: bytes.clone(), bytes, null: false }
    }

    /// A buffer of this length that holds a random pattern.
    pub fn random(rng: &mut Rng, len: usize) -> Lent {
        let pattern = rng.bytes(len);
        Lent::holding(rng, &pattern)
    }

    /// NULL with length 0.
    pub fn null() -> Lent {
        let bytes = vec![0; 2 * GUARD];
        Lent { before: bytes.clone(), bytes, null: true }
    }

    /// NULL with length 0, or else a buffer that holds `content`.
    pub fn null_or_holding(rng: &mut Rng, null: bool, content: &[u8]) -> Lent {
        if null {
            Lent::null()
        } else {
            Lent::holding(rng, content)
        }
    }

    /// What is handed to the library. The pointer may reach the guard bytes too, so a write
    /// there is seen and not optimised away.
    pub fn pointer(&mut self) -> *mut u8 {
        if self.null {
            ptr::null_mut()
        } else {
            self.bytes.as_mut_ptr().wrapping_add(GUARD)
        }
    }

    pub fn len(&self) -> usize {
        self.bytes.len() - 2 * GUARD
    }

    pub fn is_empty(&self) -> bool {
        self.len() == 0
    }

    /// What the buffer held before the call.
    pub fn lent(&self) -> &[u8] {
        &self.before[GUARD..GUARD + self.len()]
    }

    /// What the buffer holds now.
    pub fn content(&self) -> &[u8] {
        &self.bytes[GUARD..GUARD + self.len()]
    }

    /// Nothing was written, neither in the buffer nor beside it.
    pub fn is_unchanged(&self) -> bool {
        self.bytes == self.before
    }

    /// Nothing was written beside the buffer.
    pub fn keeps_guards(&self) -> bool {
        let after = GUARD + self.len();
        self.bytes[..GUARD] == self.before[..GUARD] && self.bytes[after..] == self.before[after..]
    }

    /// Holds the buffer to what was to be written in it; `None` is nothing at all.
    pub fn assert_holds<const LEN: usize>(
        &self,
        expected: Option<&[u8; LEN]>,
        input: impl Fn() -> String,
    ) {
        match expected {
            Some(bytes) => {
                let (content, wanted) = (self.content().escape_ascii(), bytes.escape_ascii());
                assert!(self.content() == bytes, "{} left {content}, not {wanted}", input());
                assert!(self.keeps_guards(), "{} wrote beside a buffer", input());
            }
            None => assert!(self.is_unchanged(), "{} wrote at a buffer", input()),
        }
    }

    /// How the buffer was lent, for the messages of the tests.
    pub fn shown(&self) -> String {
        if self.null {
            String::from("NULL")
        } else {
            format!("\"{}\" ({} bytes)", self.lent().escape_ascii(), self.len())
        }
    }
}

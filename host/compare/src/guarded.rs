//! What is lent to a call, so that a byte written where none should be is seen.

/// A lent slice between bytes that are not lent.
pub struct Guarded {
    bytes: Vec<u8>,
}

const GUARD: usize = 16;

impl Guarded {
    pub fn new(len: usize) -> Guarded {
        Guarded {
            bytes: (0..len + 2 * GUARD).map(before).collect(),
        }
    }

    pub fn lent(&mut self) -> &mut [u8] {
        let end = self.bytes.len() - GUARD;
        &mut self.bytes[GUARD..end]
    }

    /// What is lent, as it is before the call.
    pub fn before(len: usize) -> Vec<u8> {
        (GUARD..GUARD + len).map(before).collect()
    }

    /// The bytes stand at the front of what was lent, and all others are as they were.
    pub fn holds(&self, written: &[u8]) -> Result<(), String> {
        for (at, byte) in self.bytes.iter().enumerate() {
            let expected = match at.checked_sub(GUARD) {
                Some(at) if at < written.len() => written[at],
                _ => before(at),
            };
            if *byte != expected {
                let at = at as isize - GUARD as isize;
                return Err(format!("has {byte:#x} at {at} in place of {expected:#x}"));
            }
        }
        Ok(())
    }
}

/// What stands at a place before the call; no ASCII, so that a word of a message differs.
fn before(at: usize) -> u8 {
    0x80 | (at as u8).wrapping_mul(37)
}

//! Inputs: every short word over some letters, and random words from a seed.

/// The characters of a text as letters. A letter is one byte or more.
pub fn letters(text: &str) -> Vec<&[u8]> {
    let letter = |(at, character): (usize, char)| &text.as_bytes()[at..at + character.len_utf8()];
    text.char_indices().map(letter).collect()
}

/// Every byte as a letter.
pub fn all_bytes() -> Vec<[u8; 1]> {
    (0..=255).map(|byte| [byte]).collect()
}

/// Shows `see` every word of at most `longest` letters.
pub fn each_word<L: AsRef<[u8]>>(letters: &[L], longest: usize, see: &mut impl FnMut(&[u8])) {
    each_longer(&mut Vec::new(), letters, longest, see);
}

fn each_longer<L: AsRef<[u8]>>(word: &mut Vec<u8>, letters: &[L], more: usize, see: &mut impl FnMut(&[u8])) {
    see(word);
    if more == 0 {
        return;
    }
    let len = word.len();
    for letter in letters {
        word.extend_from_slice(letter.as_ref());
        each_longer(word, letters, more - 1, see);
        word.truncate(len);
    }
}

/// Random numbers by splitmix64: the same seed gives the same run.
pub struct Rng(u64);

impl Rng {
    pub fn new(seed: u64) -> Rng {
        Rng(seed)
    }

    fn next(&mut self) -> u64 {
        self.0 = self.0.wrapping_add(0x9E37_79B9_7F4A_7C15);
        let z = (self.0 ^ (self.0 >> 30)).wrapping_mul(0xBF58_476D_1CE4_E5B9);
        let z = (z ^ (z >> 27)).wrapping_mul(0x94D0_49BB_1331_11EB);
        z ^ (z >> 31)
    }

    /// Any number.
    pub fn any(&mut self) -> u64 {
        self.next()
    }

    /// A number below n.
    pub fn below(&mut self, n: usize) -> usize {
        (self.next() % n as u64) as usize
    }

    pub fn pick<T: Copy>(&mut self, from: &[T]) -> T {
        from[self.below(from.len())]
    }

    /// A length: mostly short, since short inputs differ most; one in 200 up to some thousand.
    pub fn length(&mut self) -> usize {
        match self.below(200) {
            0 => self.below(4000),
            1..=20 => self.below(200),
            _ => self.below(20),
        }
    }

    pub fn word(&mut self, letters: &[&[u8]], count: usize) -> Vec<u8> {
        let mut word = Vec::new();
        for _ in 0..count {
            word.extend_from_slice(self.pick(letters));
        }
        word
    }

    /// s with a bit of one byte flipped, a byte removed, or a byte doubled.
    pub fn damaged(&mut self, s: &[u8]) -> Vec<u8> {
        let mut damaged = s.to_vec();
        if s.is_empty() {
            return damaged;
        }
        let at = self.below(s.len());
        match self.below(3) {
            0 => damaged[at] ^= 1 << self.below(8),
            1 => drop(damaged.remove(at)),
            _ => damaged.insert(at, s[at]),
        }
        damaged
    }
}

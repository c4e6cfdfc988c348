//! The numbers of a line, read one after another. A part is its length, then its words.

pub struct Reader<'a> {
    words: &'a [u64],
    at: usize,
}

impl<'a> Reader<'a> {
    pub fn new(words: &'a [u64]) -> Self {
        Reader { words, at: 0 }
    }

    pub fn number(&mut self) -> u64 {
        self.at += 1;
        self.words[self.at - 1]
    }

    pub fn part(&mut self) -> &'a [u64] {
        let len = self.number() as usize;
        self.at += len;
        &self.words[self.at - len..self.at]
    }

    /// A part of u32 words.
    pub fn part32(&mut self) -> Vec<u32> {
        self.part().iter().map(|&w| u32::try_from(w).expect("a u32 word")).collect()
    }

    pub fn numbers<const N: usize>(&mut self) -> [u64; N] {
        std::array::from_fn(|_| self.number())
    }

    /// What was read so far.
    pub fn so_far(&self) -> &'a [u64] {
        &self.words[..self.at]
    }
}

/// Appends a part.
pub fn put(line: &mut Vec<u64>, part: impl IntoIterator<Item = u64>) {
    let at = line.len();
    line.push(0);
    line.extend(part);
    line[at] = (line.len() - at - 1) as u64;
}

/// Appends a part of u32 words.
pub fn put32(line: &mut Vec<u64>, part: &[u32]) {
    put(line, part.iter().map(|&w| w as u64));
}

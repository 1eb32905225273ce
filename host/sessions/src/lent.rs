//! Report memory as tests lend it: filled with junk, its neighbours guarded.

const GUARD: usize = 24;
const GUARD_BYTE: u8 = 0x5A;
const JUNK: u8 = 0xC3;

pub struct Lent {
    buffer: Vec<u8>,
    length: usize,
}

impl Lent {
    /// Memory of no bytes, until some is lent.
    pub fn new() -> Self {
        let mut lent = Lent {
            buffer: Vec::new(),
            length: 0,
        };
        lent.lend(0);
        lent
    }

    /// Memory of this length, junk in all of it.
    pub fn lend(&mut self, length: usize) -> &mut [u8] {
        self.length = length;
        self.buffer.clear();
        self.buffer.resize(GUARD, GUARD_BYTE);
        self.buffer.resize(GUARD + length, JUNK);
        self.buffer.resize(GUARD + length + GUARD, GUARD_BYTE);
        &mut self.buffer[GUARD..GUARD + length]
    }

    /// Memory that holds these bytes.
    pub fn hold(&mut self, bytes: &[u8]) -> &mut [u8] {
        let memory = self.lend(bytes.len());
        memory.copy_from_slice(bytes);
        memory
    }

    /// The memory as the call left it.
    pub fn memory(&self) -> &[u8] {
        &self.buffer[GUARD..GUARD + self.length]
    }

    /// Whether the bytes before and after the memory are as they were.
    pub fn is_guarded(&self) -> bool {
        let before = &self.buffer[..GUARD];
        let after = &self.buffer[GUARD + self.length..];
        before.iter().chain(after).all(|byte| *byte == GUARD_BYTE)
    }

    /// Spoils a byte as a wrong call might, to see that it is found; negative
    /// places are before the memory.
    pub fn spoil(&mut self, at: isize) {
        let place = GUARD.checked_add_signed(at);
        if let Some(byte) = place.and_then(|place| self.buffer.get_mut(place)) {
            *byte ^= 1;
        }
    }

    /// What a call wrote, after checking what it must leave: the guards, and
    /// zeros from the bytes written to the end.
    pub fn written(&self, written: usize) -> Result<&[u8], String> {
        if !self.is_guarded() {
            return Err("bytes outside the report memory were written".to_string());
        }
        if written > self.length {
            return Err("more bytes were told than the report memory has".to_string());
        }
        let (records, rest) = self.memory().split_at(written);
        // Without an early end the bytes are looked at many at a time.
        if rest.iter().fold(0, |any, byte| any | byte) != 0 {
            return Err("report bytes after the records are not zero".to_string());
        }
        Ok(records)
    }
}

impl Default for Lent {
    fn default() -> Self {
        Lent::new()
    }
}

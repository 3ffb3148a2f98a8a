/// What is answered where nothing was driven.
const NOTHING: u16 = 256;

/// A bus access as an event carries it, of either chip.
#[derive(Clone, Copy, Debug, PartialEq, Eq, Default)]
pub struct Access(pub u32);

impl Access {
    /// No access: an event that only changes levels.
    pub const NONE: Access = Access(0);

    /// A 6846 read; the code is CS0 + 2 x CS1, the address A0-A10.
    pub fn read_6846(code: u32, address: u32) -> Access {
        Access(3 | (code & 3) << 2 | (address & 0x7ff) << 4)
    }

    pub fn write_6846(code: u32, address: u32, byte: u8) -> Access {
        Access(1 | (code & 3) << 2 | (address & 0x7ff) << 4 | (byte as u32) << 16)
    }

    /// A 6840 read; the register is RS0 + 2 x RS1 + 4 x RS2.
    pub fn read_6840(register: u32) -> Access {
        Access(3 | (register & 7) << 2)
    }

    pub fn write_6840(register: u32, byte: u8) -> Access {
        Access(1 | (register & 7) << 2 | (byte as u32) << 16)
    }
}

/// The events of one chip, three words each, and an answer place for each event.
#[derive(Clone, Debug, PartialEq, Eq, Default)]
pub struct List {
    pub(crate) words: Vec<u32>,
    pub(crate) answers: Vec<u16>,
}

impl List {
    pub fn new() -> List {
        List::default()
    }

    /// Adds an event for the cycle that gives `stamp`, and tells its index.
    pub fn push(&mut self, stamp: u32, levels: u32, access: Access) -> usize {
        self.words.extend([stamp, levels, access.0]);
        self.answers.push(NOTHING);
        self.answers.len() - 1
    }

    /// The byte that the event's access read; `None` if nothing was driven, or it is not yet done.
    pub fn answer(&self, index: usize) -> Option<u8> {
        self.answers
            .get(index)
            .and_then(|&answer| u8::try_from(answer).ok())
    }

    pub fn len(&self) -> usize {
        self.answers.len()
    }

    pub fn is_empty(&self) -> bool {
        self.answers.is_empty()
    }

    pub fn words(&self) -> &[u32] {
        &self.words
    }
}

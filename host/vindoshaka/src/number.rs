use std::fmt;

/// The number that a call returns: 0, or why it refused or stopped.
#[derive(Clone, Copy, Debug, PartialEq, Eq, Hash)]
#[repr(u32)]
pub enum Number {
    Done = 0,
    BadOption = 1,
    BadRom = 2,
    BadList = 3,
    FewPlaces = 4,
    BadEvent = 5,
    MustWait = 6,
    BookFull = 7,
    StampsDiffer = 8,
    BadRecord = 9,
}

impl Number {
    pub const ALL: [Number; 10] = [
        Number::Done,
        Number::BadOption,
        Number::BadRom,
        Number::BadList,
        Number::FewPlaces,
        Number::BadEvent,
        Number::MustWait,
        Number::BookFull,
        Number::StampsDiffer,
        Number::BadRecord,
    ];

    /// The library returns no other number: each contract says so.
    pub(crate) fn of(number: u32) -> Number {
        Number::ALL[number as usize]
    }

    /// A stop has done its count of cycles and can go on; a refusal has done nothing.
    pub fn is_stop(self) -> bool {
        matches!(self, Number::BadEvent | Number::MustWait | Number::BookFull)
    }
}

impl fmt::Display for Number {
    fn fmt(&self, f: &mut fmt::Formatter<'_>) -> fmt::Result {
        f.write_str(match self {
            Number::Done => "all asked cycles done",
            Number::BadOption => "a start option is outside its values, or the two codes are equal",
            Number::BadRom => "the lent ROM is not 2,048 bytes",
            Number::BadList => {
                "the list's length is no multiple of 3, or it has fewer events than were done"
            }
            Number::FewPlaces => "fewer answer places than events",
            Number::BadEvent => "stopped: the next event is bad",
            Number::MustWait => "stopped: the chip must wait for the other",
            Number::BookFull => "stopped: this 6846 cycle changes CTO, and 64 changes wait",
            Number::StampsDiffer => "report asked while the stamps differ",
            Number::BadRecord => "the board record is outside its ranges",
        })
    }
}

impl std::error::Error for Number {}

//! A second emulator of the board with an MC6846 and an MC6840: plain mutable state, one call per chip.
//!
//! Nothing is allocated in a cycle. `Board` is the entry; `runfile` replays text files of commands.

mod board;
mod book;
mod chip6840;
mod chip6846;
mod events;
mod port;
pub mod rng;
pub mod runfile;
mod timer;
mod watch;

pub use board::{number, Board};
pub use book::{Book, ROOM};
pub use chip6840::Chip6840;
pub use chip6846::{Chip6846, Select};
pub use port::Port;
pub use timer::{Place, Timer};
pub use watch::{Nobody, Watch};

/// The answer of a place where nothing was driven.
pub const NOTHING: u16 = 256;

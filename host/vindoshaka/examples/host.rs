//! A host as an emulator of a 6802 would be: it runs its CPU some cycles ahead, gives the bus accesses of those cycles to
//! the two chips as events, and moves both in a batch. It looks at IRQ between batches.

use vindoshaka::{level, Access, Board, List, Number, Options};

/// Stands for the firmware: what it does on the bus in each cycle, if anything.
struct Firmware {
    cycle: u32,
}

enum Bus {
    To6846(Access),
    To6840(Access),
}

const IO: u32 = 1;

impl Firmware {
    /// Sets up the 6846's timer with an interrupt, and asks its status now and then.
    fn step(&mut self) -> Option<Bus> {
        self.cycle += 1;
        match self.cycle {
            1 => Some(Bus::To6846(Access::write_6846(IO, 6, 0x00))),
            2 => Some(Bus::To6846(Access::write_6846(IO, 7, 0xc7))),
            3 => Some(Bus::To6846(Access::write_6846(IO, 5, 0xc2))),
            4 => Some(Bus::To6840(Access::write_6840(1, 0x01))),
            5 => Some(Bus::To6840(Access::write_6840(0, 0x82))),
            _ => None,
        }
    }

    /// The interrupt's routine: status, then the counter, which frees IRQ.
    fn interrupted(&mut self, list: &mut List) -> usize {
        let levels = level::ALL_6846 & !level::CTG;
        self.cycle += 2;
        let status = list.push(self.cycle - 1, levels, Access::read_6846(IO, 0));
        list.push(self.cycle, levels, Access::read_6846(IO, 6));
        status
    }
}

fn main() -> Result<(), Number> {
    const BATCH: u32 = 64;
    let rom = vec![0x39; 2048];
    let mut board = Board::start(
        Options {
            io_code: IO,
            ..Options::default()
        },
        0,
    )?;
    let mut firmware = Firmware { cycle: 0 };
    let (mut to_6846, mut to_6840) = (List::new(), List::new());
    let mut interrupts = 0;

    while firmware.cycle < 2_000 {
        for _ in 0..BATCH {
            match firmware.step() {
                Some(Bus::To6846(access)) => {
                    to_6846.push(firmware.cycle, level::ALL_6846 & !level::CTG, access);
                }
                Some(Bus::To6840(access)) => {
                    to_6840.push(firmware.cycle, level::ALL_6840 & !level::G1, access);
                }
                None => {}
            }
        }
        let mut cycles = firmware.cycle - board.stamp_6846();
        board.move_6846(&rom, &mut to_6846, cycles).all_done()?;
        board.move_6840(&mut to_6840, cycles).all_done()?;
        if !board.report()?.irq_is_high() {
            interrupts += 1;
            let status = firmware.interrupted(&mut to_6846);
            cycles = firmware.cycle - board.stamp_6846();
            board.move_6846(&rom, &mut to_6846, cycles).all_done()?;
            board.move_6840(&mut to_6840, cycles).all_done()?;
            assert_eq!(to_6846.answer(status), Some(0x81));
        }
    }
    println!(
        "{} cycles, {interrupts} interrupts, pins {:#06x}",
        board.stamp_6846(),
        board.report()?.0
    );
    assert!(interrupts > 0);
    Ok(())
}

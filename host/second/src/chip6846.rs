//! The MC6846: ROM, port, timer.

use crate::port::Port;
use crate::timer::{Lines, Place, Timer};
use crate::watch::Watch;
use crate::NOTHING;

/// Level bits: 0-7 P, 8 CP1, 9 CP2, 10 CTG, 11 CTC, 12 RESET.
pub const ALL_HIGH: u32 = (1 << 13) - 1;
const CP1_PLACE: u32 = 8;
const CP2: u32 = 1 << 9;
const CTG: u32 = 1 << 10;
const CTC: u32 = 1 << 11;
const RESET: u32 = 1 << 12;

/// Access bits: 0 present, 1 read, 2 CS0, 3 CS1, 4-14 A0-A10, 16-23 data.
const PRESENT: u32 = 1 << 0;
const READ: u32 = 1 << 1;

/// The start options that decide what an access reaches.
#[derive(Clone, Copy, Debug, PartialEq, Eq)]
pub struct Select {
    pub rom_code: u32,
    pub io_code: u32,
    /// 0, 1, or 2 for either.
    pub a6: u32,
    /// 0 for none, or 7 to 10 for the address line that must be 1.
    pub extra: u32,
}

impl Select {
    /// ROM and I/O code 0 to 3 and different; A6 0 to 2; extra line 0 or 7 to 10.
    pub fn in_ranges(&self) -> bool {
        self.rom_code <= 3
            && self.io_code <= 3
            && self.rom_code != self.io_code
            && self.a6 <= 2
            && (self.extra == 0 || (7..=10).contains(&self.extra))
    }

    /// I/O needs its code, A3-A5 zero, A6 by option, the extra line at 1.
    #[inline]
    fn reaches_io(&self, code: u32, address: u32) -> bool {
        code == self.io_code
            && address >> 3 & 7 == 0
            && (self.a6 == 2 || address >> 6 & 1 == self.a6)
            && (self.extra == 0 || address >> self.extra & 1 == 1)
    }
}

#[derive(Clone, Debug, PartialEq, Eq)]
pub struct Chip6846 {
    /// The levels sampled last: held between events, and the other side of the next edge.
    pub levels: u32,
    pub timer: Timer,
    pub port: Port,
    /// The MSB buffer a latch write takes.
    pub msb_buffer: u8,
    /// The LSB buffer an MSB read fills.
    pub lsb_buffer: u8,
}

impl Chip6846 {
    /// Start leaves the reset state; before the first event all levels are high.
    pub fn new() -> Chip6846 {
        Chip6846 {
            levels: ALL_HIGH,
            timer: Timer::in_reset(1),
            port: Port::in_reset(),
            msb_buffer: 0,
            lsb_buffer: 0,
        }
    }

    /// RESET low: everything but the sampled levels.
    fn reset(&mut self) {
        *self = Chip6846 {
            levels: self.levels,
            ..Chip6846::new()
        };
    }

    #[inline(always)]
    pub fn cto(&self) -> bool {
        self.timer.pin(Place::Of6846)
    }

    #[inline(always)]
    fn held(&self) -> bool {
        self.timer.control & 1 != 0
    }

    /// One cycle: sample levels; RESET; gate and CP edges; clocks; bus access. Output levels follow from the state.
    #[inline(always)]
    pub fn cycle<W: Watch>(
        &mut self,
        select: &Select,
        rom: &[u8; 2048],
        levels: u32,
        access: u32,
        watch: &mut W,
    ) -> u16 {
        // An edge compares with the previous cycle's level, also across a reset.
        let fell = self.levels & !levels;
        let rose = levels & !self.levels;
        self.levels = levels;
        if levels & RESET == 0 {
            watch.reset_cycle(false, access & PRESENT != 0);
            self.reset();
            return self.answer_in_reset(select, rom, access);
        }
        self.port
            .edges(fell >> CP1_PLACE, rose >> CP1_PLACE, levels as u8, watch);
        let held = self.held();
        let lines = Lines {
            gate_fell: fell & CTG != 0,
            gate_rose: rose & CTG != 0,
            gate: levels & CTG != 0,
            clock_fell: fell & CTC != 0,
        };
        self.timer.cycle(Place::Of6846, held, lines, watch);
        let answer = if access & PRESENT != 0 {
            self.access(select, rom, access, watch)
        } else {
            NOTHING
        };
        if self.port.cp2_is_output() {
            watch.cp2_out(self.port.cp2_setting(), self.port.cp2_driven());
        }
        answer
    }

    /// ROM and register reads answer from the reset state with no side effect; writes do nothing.
    fn answer_in_reset(&self, select: &Select, rom: &[u8; 2048], access: u32) -> u16 {
        if access & (PRESENT | READ) != PRESENT | READ {
            return NOTHING;
        }
        let (code, address) = code_and_address(access);
        if code == select.rom_code {
            return rom[address as usize] as u16;
        }
        if select.reaches_io(code, address) {
            return self.peek(address & 7) as u16;
        }
        NOTHING
    }

    fn access<W: Watch>(
        &mut self,
        select: &Select,
        rom: &[u8; 2048],
        access: u32,
        watch: &mut W,
    ) -> u16 {
        let (code, address) = code_and_address(access);
        let read = access & READ != 0;
        // ROM needs its code, for reads only.
        if read && code == select.rom_code {
            watch.rom_read();
            return rom[address as usize] as u16;
        }
        if !select.reaches_io(code, address) {
            watch.missed_6846();
            return NOTHING;
        }
        let register = address & 7;
        watch.register_6846(register, read);
        if read {
            let byte = self.peek(register);
            self.after_read(register, watch);
            byte as u16
        } else {
            self.write(register, (access >> 16) as u8, watch);
            NOTHING
        }
    }

    /// Status: bit 0 timer, 1 CP1, 2 CP2, 7 any enabled flag.
    fn status(&self) -> u8 {
        self.timer.flag as u8
            | (self.port.flag_1 as u8) << 1
            | (self.port.flag_2 as u8) << 2
            | (self.asks() as u8) << 7
    }

    /// The composite flag.
    pub fn asks(&self) -> bool {
        self.timer.asks() || self.port.asks()
    }

    /// What a register reads as, with no side effect.
    fn peek(&self, register: u32) -> u8 {
        match register {
            1 => self.port.pcr,
            2 => self.port.ddr,
            3 => self.port.data(self.levels as u8),
            5 => self.timer.control,
            6 => (self.timer.counter >> 8) as u8,
            7 => self.lsb_buffer,
            _ => self.status(),
        }
    }

    fn after_read<W: Watch>(&mut self, register: u32, watch: &mut W) {
        match register {
            0 | 4 => {
                self.timer.arm();
                self.port.arm();
            }
            3 => self.port.after_data_read(watch),
            6 => {
                // Reading the counter's MSB copies its LSB to the buffer and clears an armed flag.
                self.lsb_buffer = self.timer.counter as u8;
                if self.timer.clear_if_armed() {
                    watch.armed_clear(false);
                }
            }
            _ => {}
        }
    }

    /// Status is read only: a write at 0 or 4 does nothing.
    fn write<W: Watch>(&mut self, register: u32, data: u8, watch: &mut W) {
        match register {
            1 => self.port.write_control(data),
            2 => self.port.write_direction(data),
            3 => self.port.write_data(data, watch),
            5 => {
                if (self.timer.control ^ data) & 1 != 0 {
                    watch.internal_reset(false, data & 1 != 0);
                }
                self.timer.write_control(data);
                self.settle();
            }
            6 => self.msb_buffer = data,
            7 => {
                // The LSB write takes the MSB buffer with it.
                let latch = u16::from_be_bytes([self.msb_buffer, data]);
                self.timer.write_latch(Place::Of6846, latch);
                self.settle();
            }
            _ => {}
        }
    }

    fn settle(&mut self) {
        let held = self.held();
        self.timer.settle(Place::Of6846, held);
    }

    /// Bits 0-7 P0-P7, 8 CP2, as the report gives them.
    pub fn port_levels(&self) -> u32 {
        let cp2 = if self.port.cp2_is_output() {
            self.port.cp2_driven()
        } else {
            self.levels & CP2 != 0
        };
        self.port.levels(self.levels as u8) as u32 | (cp2 as u32) << 8
    }
}

impl Default for Chip6846 {
    fn default() -> Self {
        Chip6846::new()
    }
}

/// CS0 + 2 x CS1, and A0-A10.
#[inline(always)]
fn code_and_address(access: u32) -> (u32, u32) {
    (access >> 2 & 3, access >> 4 & 2047)
}

//! The 6846's port: eight data lines, CP1, CP2.

use crate::watch::Watch;

const CP1_ENABLE: u8 = 1 << 0;
const CP1_RISING: u8 = 1 << 1;
const CAPTURE: u8 = 1 << 2;
const BIT_3: u8 = 1 << 3;
const BIT_4: u8 = 1 << 4;
const CP2_OUT: u8 = 1 << 5;
const BIT_6: u8 = 1 << 6;
const HELD: u8 = 1 << 7;

#[derive(Clone, Debug, PartialEq, Eq)]
pub struct Port {
    pub pcr: u8,
    pub ddr: u8,
    pub pdr: u8,
    pub flag_1: bool,
    pub armed_1: bool,
    pub flag_2: bool,
    pub armed_2: bool,
    /// All eight levels at the first active CP1 edge, until they are released.
    pub captured: bool,
    pub capture: u8,
    /// The last cycle had a PDR access.
    pub touched: bool,
    /// The cycle before the last had one: CP2 out 0,1 is low.
    pub pulse: bool,
    /// Flag 1 was set after the last cycle's edges: CP2 out 0,0 is high, even if the access cleared it.
    pub acknowledge: bool,
}

impl Port {
    /// Reset state: PCR = 128, everything else 0.
    pub fn in_reset() -> Port {
        Port {
            pcr: HELD,
            ddr: 0,
            pdr: 0,
            flag_1: false,
            armed_1: false,
            flag_2: false,
            armed_2: false,
            captured: false,
            capture: 0,
            touched: false,
            pulse: false,
            acknowledge: false,
        }
    }

    /// CP edges of one cycle, with the PCR before the access. `fell` and `rose` hold CP1 in bit 0, CP2 in bit 1.
    #[inline(always)]
    pub fn edges<W: Watch>(&mut self, fell: u32, rose: u32, pins: u8, watch: &mut W) {
        self.pulse = self.touched;
        self.touched = false;
        // While PCR7=1 flags and capture are held clear: edges set nothing.
        if (fell | rose) & 3 != 0 && self.pcr & HELD == 0 {
            self.take_edges(fell, rose, pins, watch);
        }
        self.acknowledge = self.flag_1;
    }

    /// PCR1 and PCR4 choose the edge (0 falling).
    fn take_edges<W: Watch>(&mut self, fell: u32, rose: u32, pins: u8, watch: &mut W) {
        let active_1 = if self.pcr & CP1_RISING != 0 {
            rose
        } else {
            fell
        };
        if active_1 & 1 != 0 {
            self.flag_1 = true;
            // The first active edge captures, whatever flag 1 was.
            if self.pcr & CAPTURE != 0 && !self.captured {
                self.captured = true;
                self.capture = pins;
                watch.capture();
            }
        }
        // CP2 edges set flag 2 if PCR5=0.
        let active_2 = if self.pcr & BIT_4 != 0 { rose } else { fell };
        if active_2 & 2 != 0 && self.pcr & CP2_OUT == 0 {
            self.flag_2 = true;
        }
    }

    /// Enables: PCR0; PCR3 with PCR5=0.
    #[inline(always)]
    pub fn asks(&self) -> bool {
        (self.flag_1 && self.pcr & CP1_ENABLE != 0)
            || (self.flag_2 && self.pcr & (CP2_OUT | BIT_3) == BIT_3)
    }

    /// A PDR read gives stored output bits and, for the bits that are inputs now, the capture or the pins.
    #[inline]
    pub fn data(&self, pins: u8) -> u8 {
        let inputs = if self.captured { self.capture } else { pins };
        (self.pdr & self.ddr) | (inputs & !self.ddr)
    }

    /// What a PDR read does: it releases the capture and is a PDR access.
    pub fn after_data_read<W: Watch>(&mut self, watch: &mut W) {
        if self.captured {
            watch.capture_read();
        }
        self.captured = false;
        self.touch(watch);
    }

    /// A PDR write changes output bits only, and releases no capture. With PCR7=1 DDR is 0, so it is lost.
    pub fn write_data<W: Watch>(&mut self, data: u8, watch: &mut W) {
        self.pdr = (self.pdr & !self.ddr) | (data & self.ddr);
        self.touch(watch);
    }

    /// With PCR7=1 a DDR write is lost.
    pub fn write_direction(&mut self, data: u8) {
        if self.pcr & HELD == 0 {
            self.ddr = data;
        }
    }

    /// PCR6 stores 0. PCR2=0 releases the capture at once; PCR7=1 clears all but the PCR.
    pub fn write_control(&mut self, data: u8) {
        self.pcr = data & !BIT_6;
        if self.pcr & CAPTURE == 0 {
            self.captured = false;
        }
        if self.pcr & HELD != 0 {
            self.ddr = 0;
            self.pdr = 0;
            self.captured = false;
            self.flag_1 = false;
            self.armed_1 = false;
            self.flag_2 = false;
            self.armed_2 = false;
        }
    }

    /// A status read arms every set flag.
    pub fn arm(&mut self) {
        self.armed_1 |= self.flag_1;
        self.armed_2 |= self.flag_2;
    }

    /// A PDR access clears armed port flags, and makes CP2 out 0,1 low in the next cycle.
    fn touch<W: Watch>(&mut self, watch: &mut W) {
        self.touched = true;
        if self.armed_1 {
            self.flag_1 = false;
            self.armed_1 = false;
            watch.armed_clear(false);
        }
        if self.armed_2 {
            self.flag_2 = false;
            self.armed_2 = false;
            watch.armed_clear(false);
        }
    }

    #[inline]
    pub fn cp2_is_output(&self) -> bool {
        self.pcr & CP2_OUT != 0
    }

    /// PCR4 x 2 + PCR3.
    pub fn cp2_setting(&self) -> u8 {
        self.pcr >> 3 & 3
    }

    /// CP2 out: PCR4=1 gives PCR3; 0,1 low only in the cycle after a PDR access; 0,0 high while flag 1
    /// is set and in the cycle in which it clears.
    pub fn cp2_driven(&self) -> bool {
        match (self.pcr & BIT_4 != 0, self.pcr & BIT_3 != 0) {
            (true, level) => level,
            (false, true) => !self.pulse,
            (false, false) => self.flag_1 || self.acknowledge,
        }
    }

    /// Driven level for an output, last sampled level for an input (not the capture).
    pub fn levels(&self, pins: u8) -> u8 {
        (self.pdr & self.ddr) | (pins & !self.ddr)
    }
}

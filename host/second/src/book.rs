//! The book of CTO changes that the 6840 has not yet seen.

/// Changes that may wait.
pub const ROOM: u32 = 64;

/// The 6846 cycles in which CTO changed, oldest first, in a ring.
#[derive(Clone, Debug, PartialEq, Eq)]
pub struct Book {
    pub cycles: [u32; ROOM as usize],
    pub first: u32,
    pub waiting: u32,
}

impl Book {
    pub fn empty() -> Book {
        Book {
            cycles: [0; ROOM as usize],
            first: 0,
            waiting: 0,
        }
    }

    /// The change that has waited for `place` others; the ring's room is used again.
    #[inline(always)]
    pub fn change(&self, place: u32) -> u32 {
        self.cycles[(self.first.wrapping_add(place) % ROOM) as usize]
    }

    #[inline(always)]
    pub fn is_full(&self) -> bool {
        self.waiting == ROOM
    }

    #[inline(always)]
    pub fn note(&mut self, cycle: u32) {
        self.cycles[(self.first.wrapping_add(self.waiting) % ROOM) as usize] = cycle;
        self.waiting += 1;
    }

    /// Whether a change of that very cycle waits; it can only be the oldest, since none is earlier than the 6840's stamp.
    #[inline(always)]
    pub fn begins_with(&self, cycle: u32) -> bool {
        self.waiting != 0 && self.change(0) == cycle
    }

    #[inline(always)]
    pub fn drop_first(&mut self) {
        self.first = (self.first + 1) % ROOM;
        self.waiting -= 1;
    }

    /// 0 to 64 changes, their cycles rising and each from `from` to `lead` cycles later.
    pub fn in_ranges(&self, from: u32, lead: i32) -> bool {
        if self.waiting > ROOM {
            return false;
        }
        let mut least = 0;
        for place in 0..self.waiting {
            let ahead = self.change(place).wrapping_sub(from) as i32;
            if ahead < least || ahead > lead {
                return false;
            }
            least = ahead + 1;
        }
        true
    }
}

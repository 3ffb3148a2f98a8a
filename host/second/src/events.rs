//! Events: three words each, stamp, levels, access.

/// Which bits an event of one chip may set.
pub struct Form {
    pub levels: u32,
    pub access: u32,
}

pub const FORM_6846: Form = Form {
    levels: 0x0000_1fff,
    access: 0x00ff_7fff,
};

pub const FORM_6840: Form = Form {
    levels: 0x0000_007f,
    access: 0x00ff_001f,
};

const PRESENT: u32 = 1 << 0;
const READ: u32 = 1 << 1;
const DATA: u32 = 0x00ff_0000;

/// A good event, taken apart; `ahead` is 1 for the very next cycle.
#[derive(Clone, Copy)]
pub struct Event {
    pub ahead: u32,
    pub levels: u32,
    pub access: u32,
}

/// Stands for a next event that is bad.
pub struct Bad;

/// Takes the event of that index apart, for a chip at `stamp`; `None` if the list has no more.
#[inline]
pub fn next(list: &[u32], index: usize, stamp: u32, form: &Form) -> Result<Option<Event>, Bad> {
    let event = match list.get(index * 3..index * 3 + 3) {
        Some(event) => event,
        None => return Ok(None),
    };
    let (levels, access) = (event[1], event[2]);
    // Stamps go round, so only their distance counts, never their size.
    let ahead = event[0].wrapping_sub(stamp);
    let unnamed = levels & !form.levels != 0 || access & !form.access != 0;
    let read_with_data = access & READ != 0 && access & DATA != 0;
    let absent_with_bits = access & PRESENT == 0 && access != 0;
    let out_of_reach = ahead == 0 || ahead > 2_147_483_647;
    if unnamed || read_with_data || absent_with_bits || out_of_reach {
        return Err(Bad);
    }
    Ok(Some(Event {
        ahead,
        levels,
        access,
    }))
}

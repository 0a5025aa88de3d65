//! A body that cannot be written, for a reason that is told: a unit has at most 16 parameters.

pub fn many(a: u8, _: u8, _: u8, _: u8, _: u8, _: u8, _: u8, _: u8, _: u8, _: u8, _: u8, _: u8, _: u8, _: u8, _: u8, _: u8, _: u8) -> u8 {
    a
}

//! Unions: their fields lie in the same place.
#[derive(Clone, Copy)]
pub struct Halves {
    low: u16,
    high: u16,
}

pub union Number {
    whole: u32,
    halves: Halves,
}

pub fn one_field(number: &mut Number) -> u32 {
    unsafe {
        let whole = &mut number.whole;
        *whole = 1;
        number.whole
    }
}

pub fn one_field_twice(number: &mut Number) -> u32 {
    unsafe {
        let first = &mut number.whole;
        let second = &mut number.whole; //~ E0499
        *first = 1;
        *second
    }
}

pub fn two_fields(number: &mut Number) -> u32 {
    unsafe {
        let whole = &mut number.whole;
        let halves = &mut number.halves; //~ E0499
        halves.low = 1;
        *whole
    }
}

pub fn two_fields_in_turn(number: &mut Number) -> u32 {
    unsafe {
        let halves = &mut number.halves;
        halves.low = 1;
        number.whole
    }
}

pub fn two_parts_of_a_field(number: &mut Number) -> u16 {
    unsafe {
        let low = &mut number.halves.low;
        let high = &mut number.halves.high;
        std::mem::swap(low, high);
        *low
    }
}

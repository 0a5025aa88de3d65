//! Statics, constants and promoted values.
use std::sync::Mutex;

static COUNT: Mutex<u32> = Mutex::new(0);
static NAMES: [&str; 2] = ["a", "b"];
static mut OPEN: u32 = 0;
const LIMIT: &u32 = &3;

pub fn a_reference_to_a_static() -> &'static [&'static str; 2] {
    &NAMES
}

pub fn an_element_of_a_static(at: usize) -> &'static str {
    NAMES[at]
}

pub fn a_constant_that_is_a_reference() -> &'static u32 {
    LIMIT
}

pub fn a_lock_of_a_static() -> u32 {
    let mut guard = COUNT.lock().unwrap();
    *guard += 1;
    *guard
}

pub fn a_static_that_is_written() -> u32 {
    unsafe {
        OPEN += 1;
        OPEN
    }
}

pub fn a_static_that_is_written_while_it_is_shown() -> u32 {
    unsafe {
        let shown = &raw const OPEN;
        OPEN += 1;
        *shown
    }
}

pub fn a_promoted_array() -> &'static [u32] {
    &[1, 2, 3]
}

pub fn an_array_that_is_not_promoted(value: u32) -> &'static [u32] {
    &[value] //~ E0515
}

pub fn a_static_string_as_a_shorter_one<'a>(flag: bool, text: &'a str) -> &'a str {
    if flag {
        "static"
    } else {
        text
    }
}

pub fn a_shorter_string_as_a_static_one<'a>(flag: bool, text: &'a str) -> &'static str {
    if flag {
        "static"
    } else {
        text //~ lifetime
    }
}

pub fn a_static_reference_in_a_struct() -> u32 {
    struct Holder {
        held: &'static u32,
    }
    let holder = Holder { held: &5 };
    *holder.held
}

pub fn a_local_in_a_struct_of_static_ones() -> u32 {
    struct Holder {
        held: &'static u32,
    }
    let value = 5;
    let holder = Holder { held: &value }; //~ E0597
    *holder.held
}

pub fn a_type_that_has_to_be_static<T: 'static>(value: T) -> T {
    value
}

pub fn a_reference_where_a_static_type_is_asked(value: &u32) -> u32 {
    *a_type_that_has_to_be_static(value) //~ E0521
}

pub fn a_local_where_a_static_type_is_asked() -> u32 {
    let value = 1;
    *a_type_that_has_to_be_static(&value) //~ E0597
}

pub fn a_static_reference_where_a_static_type_is_asked() -> u32 {
    *a_type_that_has_to_be_static(&1)
}

pub fn leaked() -> &'static mut u32 {
    let leaked = Box::leak(Box::new(1));
    *leaked += 1;
    leaked
}

pub fn leaked_and_lent_twice() -> u32 {
    let leaked: &'static mut u32 = Box::leak(Box::new(1));
    let first = &mut *leaked;
    let second = &mut *leaked; //~ E0499
    *first + *second
}

pub fn lent_for_ever(value: &'static mut u32) -> u32 {
    fn forever(_: &'static mut u32) {}
    forever(value);
    *value //~ E0503
}

//! E0506: an assignment to what is borrowed.
pub fn assigned_while_shown() -> u32 {
    let mut value = 1;
    let shown = &value;
    value = 2; //~ E0506
    *shown
}

pub fn assigned_after_it_was_shown() -> u32 {
    let mut value = 1;
    let shown = &value;
    let seen = *shown;
    value = 2;
    seen + value
}

pub fn assigned_before_it_is_shown_again() -> u32 {
    let mut value = 1;
    let mut shown = &value;
    let seen = *shown;
    value = 2;
    shown = &value;
    seen + *shown
}

pub fn a_field_assigned_while_it_is_shown(pair: &mut (u32, u32)) -> u32 {
    let shown = &pair.0;
    pair.0 = 2; //~ E0506
    *shown
}

pub fn a_field_assigned_while_the_other_is_shown(pair: &mut (u32, u32)) -> u32 {
    let shown = &pair.0;
    pair.1 = 2;
    *shown
}

pub fn behind_a_reference_that_is_shown(value: &mut u32) -> u32 {
    let shown = &*value;
    *value = 2; //~ E0506
    *shown
}

pub fn the_reference_itself_is_assigned<'a>(mut value: &'a u32, other: &'a u32) -> u32 {
    let shown = &*value;
    value = other;
    *shown + *value
}

pub fn the_mutable_reference_itself_is_assigned<'a>(
    mut value: &'a mut u32,
    other: &'a mut u32,
) -> u32 {
    let shown = &*value;
    value = other;
    *shown + *value
}

pub fn the_reference_is_assigned_while_it_is_shown<'a>(mut value: &'a u32, other: &'a u32) -> u32 {
    let shown = &value;
    value = other; //~ E0506
    **shown
}

pub fn in_a_loop_that_looks_later() {
    let mut value = 0;
    let mut shown = vec![];
    while value < 3 {
        value += 1; //~ E0506
        shown.push(&value);
    }
}

pub fn in_a_loop_that_forgets() {
    let mut value = 0;
    while value < 3 {
        let shown = &value;
        let seen = *shown;
        value = seen + 1;
    }
}

pub fn an_element_assigned_while_one_is_shown(values: &mut [u32; 3], at: usize) -> u32 {
    let shown = &values[0];
    values[at] = 1; //~ E0506
    *shown
}

pub fn an_element_assigned_while_another_is_shown(values: &mut [u32; 3]) -> u32 {
    let [first, .., last] = values;
    *last = 1;
    *first
}

pub fn an_element_of_constant_place_is_no_other(values: &mut [u32; 3]) -> u32 {
    let shown = &values[0];
    values[1] = 1; //~ E0506
    *shown
}

pub fn behind_a_box_that_is_shown() -> u32 {
    let mut boxed = Box::new(1);
    let shown = &*boxed;
    *boxed = 2; //~ E0506
    *shown
}

pub fn a_box_that_is_shown_is_replaced() -> u32 {
    let mut boxed = Box::new(1);
    let shown = &*boxed;
    boxed = Box::new(2); //~ E0506
    *shown
}

pub fn a_closure_assigns_while_it_is_shown() -> u32 {
    let mut value = 1;
    let mut set = || value = 2;
    set();
    let shown = &value;
    *shown
}

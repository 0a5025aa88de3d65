//! E0503: a use of a value that is mutably borrowed.
pub fn compared_while_borrowed() -> bool {
    let mut value = 3;
    let held = &mut value;
    let equal = value == 3; //~ E0503
    *held = 4;
    equal
}

pub fn compared_after_the_borrow() -> bool {
    let mut value = 3;
    let held = &mut value;
    *held = 4;
    value == 3
}

pub fn copied_while_borrowed() -> u32 {
    let mut value = 3;
    let held = &mut value;
    let copied = value; //~ E0503
    *held = 4;
    copied
}

pub fn a_field_copied_while_the_other_is_borrowed() -> u32 {
    let mut pair = (1, 2);
    let held = &mut pair.0;
    let copied = pair.1;
    *held = 4;
    copied
}

pub fn added_to_while_borrowed() {
    let mut value = 3;
    let held = &mut value;
    value += 1; //~ E0503
    *held = 4;
}

pub fn an_index_while_borrowed(values: &[u32]) -> u32 {
    let mut at = 0;
    let held = &mut at;
    let found = values[at]; //~ E0503
    *held = 4;
    found
}

pub fn a_condition_while_borrowed() -> u32 {
    let mut flag = true;
    let held = &mut flag;
    if flag {
        //~^ E0503
        return 1;
    }
    *held = false;
    0
}

pub fn a_condition_before_the_borrow() -> u32 {
    let mut flag = true;
    if flag {
        return 1;
    }
    let held = &mut flag;
    *held = false;
    0
}

#[derive(Clone, Copy)]
pub enum Colour {
    Red,
    Blue(u32),
}

pub fn matched_while_borrowed() -> u32 {
    let mut colour = Colour::Blue(1);
    let held = &mut colour;
    let found = match colour {
        //~^ E0503
        Colour::Red => 0,
        Colour::Blue(shade) => shade, //~ E0503
    };
    *held = Colour::Red;
    found
}

pub fn matched_after_the_borrow() -> u32 {
    let mut colour = Colour::Blue(1);
    let held = &mut colour;
    *held = Colour::Red;
    match colour {
        Colour::Red => 0,
        Colour::Blue(shade) => shade,
    }
}

pub fn counted_by_a_closure() -> u32 {
    let mut count = 0;
    let mut add = || count += 1;
    let seen = count; //~ E0503
    add();
    seen
}

pub fn counted_by_a_closure_and_read_later() -> u32 {
    let mut count = 0;
    let mut add = || count += 1;
    add();
    count
}

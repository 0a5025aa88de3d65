//! E0621: a parameter's type has to name a region.
pub fn the_greater<'a>(first: &'a u32, second: &u32) -> &'a u32 {
    if first > second {
        first
    } else {
        second //~ E0621
    }
}

pub fn the_greater_with_a_name<'a>(first: &'a u32, second: &'a u32) -> &'a u32 {
    if first > second {
        first
    } else {
        second
    }
}

pub fn the_first_alone<'a>(first: &'a u32, second: &u32) -> &'a u32 {
    drop(*second);
    first
}

pub fn pushed_to_a_named_vector<'a>(kept: &mut Vec<&'a u32>, value: &u32) {
    kept.push(value); //~ E0621
}

pub fn pushed_by_name<'a>(kept: &mut Vec<&'a u32>, value: &'a u32) {
    kept.push(value);
}

pub struct Holder<'a> {
    held: &'a u32,
}

pub fn made_of_no_name<'a>(value: &u32) -> Holder<'a> {
    Holder { held: value } //~ E0621
}

pub fn made_of_a_name<'a>(value: &'a u32) -> Holder<'a> {
    Holder { held: value }
}

pub fn set_to_no_name<'a>(holder: &mut Holder<'a>, value: &u32) {
    holder.held = value; //~ E0621
}

pub fn set_to_a_name<'a>(holder: &mut Holder<'a>, value: &'a u32) {
    holder.held = value;
}

pub fn a_struct_without_a_name<'a>(holder: Holder) -> &'a u32 {
    holder.held //~ E0621
}

pub fn static_of_no_name(value: &u32) -> &'static u32 {
    value //~ lifetime
}

pub fn through_a_local<'a>(first: &'a u32, second: &u32) -> &'a u32 {
    let mut kept = first;
    if *kept == 0 {
        kept = second;
    }
    kept //~ E0621
}

pub fn through_a_local_that_is_set_again<'a>(first: &'a u32, second: &u32) -> &'a u32 {
    let mut other = first;
    other = second;
    drop(*other);
    first
}

//! E0515: a reference to what the function owns is returned.
pub fn a_local() -> &'static u32 {
    let value = String::new().len() as u32;
    &value //~ E0515
}

pub fn a_constant() -> &'static u32 {
    &1
}

pub fn a_parameter(value: u32) -> &'static u32 {
    &value //~ E0515
}

pub fn what_a_parameter_shows(value: &u32) -> &u32 {
    &*value
}

pub fn the_parameter_that_shows<'a>(value: &'a u32) -> &'a &'a u32 {
    &value //~ E0515
}

pub fn a_slice_of_a_local_string() -> &'static str {
    let text = String::from("a");
    text.as_str() //~ E0515
}

pub fn a_local_string_itself() -> String {
    let text = String::from("a");
    text
}

pub fn an_iterator_over_a_local() -> impl Iterator<Item = &'static u32> {
    let values = vec![1];
    values.iter() //~ E0515
}

pub fn an_iterator_that_owns() -> impl Iterator<Item = u32> {
    let values = vec![1];
    values.into_iter()
}

pub struct Holder<'a> {
    held: &'a u32,
}

pub fn a_struct_that_shows_a_local<'a>() -> Holder<'a> {
    let value = String::new().len() as u32;
    Holder { held: &value } //~ E0515
}

pub fn a_struct_that_shows_a_parameter<'a>(held: &'a u32) -> Holder<'a> {
    Holder { held }
}

pub fn in_an_option(value: u32) -> Option<&'static u32> {
    Some(&value) //~ E0515
}

pub fn in_a_pair<'a>(value: &'a u32) -> (&'a u32, &'a u32) {
    let copied = *value;
    (value, &copied) //~ E0515
}

pub fn on_one_path<'a>(value: &'a u32, flag: bool) -> &'a u32 {
    let copied = *value;
    if flag {
        return &copied; //~ E0515
    }
    value
}

pub fn of_a_closure() -> u32 {
    let make = |value: u32| -> u32 { value };
    make(1)
}

pub fn a_local_box_that_leaks() -> &'static u32 {
    Box::leak(Box::new(1))
}

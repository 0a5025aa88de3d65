//! E0502: a shared borrow and a mutable one at once.
use std::collections::HashMap;

pub fn a_push_while_an_element_is_shown(values: &mut Vec<u32>) -> u32 {
    let first = &values[0];
    values.push(1); //~ E0502
    *first
}

pub fn a_push_after_the_element_was_copied(values: &mut Vec<u32>) -> u32 {
    let first = values[0];
    values.push(1);
    first
}

pub fn a_look_while_it_is_changed(values: &mut Vec<u32>) -> usize {
    let first = &mut values[0];
    let count = values.len(); //~ E0502
    *first = 1;
    count
}

pub fn a_look_after_the_change(values: &mut Vec<u32>) -> usize {
    let first = &mut values[0];
    *first = 1;
    values.len()
}

pub fn a_shared_field_and_the_whole(pair: &mut (u32, u32)) -> u32 {
    let left = &pair.0;
    let whole = &mut *pair; //~ E0502
    whole.1 = 2;
    *left
}

pub fn a_shared_field_and_the_other(pair: &mut (u32, u32)) -> u32 {
    let left = &pair.0;
    let right = &mut pair.1;
    *right = 2;
    *left
}

pub fn iterated_and_grown(values: &mut Vec<u32>) {
    for it in values.iter() {
        if *it == 0 {
            values.push(1); //~ E0502
        }
    }
}

pub fn iterated_then_grown(values: &mut Vec<u32>) {
    let empty = values.iter().any(|it| *it == 0);
    if empty {
        values.push(1);
    }
}

pub fn a_key_of_the_map_itself(map: &mut HashMap<String, u32>) {
    if let Some(name) = map.keys().next() {
        map.remove(name); //~ E0502
    }
}

pub fn a_copied_key_of_the_map(map: &mut HashMap<String, u32>) {
    if let Some(name) = map.keys().next().cloned() {
        map.remove(&name);
    }
}

pub fn a_string_and_its_slice() -> usize {
    let mut text = String::from("words");
    let word = text.trim();
    text.clear(); //~ E0502
    word.len()
}

pub fn a_string_after_its_slice() -> usize {
    let mut text = String::from("words");
    let count = text.trim().len();
    text.clear();
    count
}

pub fn shared_by_a_closure(values: &mut Vec<u32>) -> usize {
    let count = || values.len();
    values.push(1); //~ E0502
    count()
}

pub fn shared_by_a_closure_before(values: &mut Vec<u32>) -> usize {
    let count = || values.len();
    let found = count();
    values.push(1);
    found
}

pub fn swapped_with_what_it_shows(values: &mut [u32], other: &mut u32) {
    let first = &values[0];
    let second = &mut values[1..]; //~ E0502
    second[0] = *first;
    *other = 0;
}

pub fn through_a_call_that_keeps(value: &mut u32) -> u32 {
    fn keep<'a>(it: &'a mut u32) -> &'a u32 {
        it
    }
    let kept = keep(value);
    let shown = &*value; //~ E0502
    *kept + *shown
}

pub fn through_a_call_that_forgets(value: &mut u32) -> u32 {
    fn forget(it: &mut u32) -> u32 {
        *it
    }
    let kept = forget(value);
    let shown = &*value;
    kept + *shown
}

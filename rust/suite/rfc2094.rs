//! The problem cases of RFC 2094, and bodies that its text goes through.
use std::collections::HashMap;

fn capitalize(data: &mut [char]) {
    for it in data {
        *it = it.to_ascii_uppercase();
    }
}

/// Case 1: the reference is in a variable, and is not used after the call.
pub fn case_1_a_reference_in_a_variable() -> Vec<char> {
    let mut data = vec!['a', 'b', 'c'];
    let slice = &mut data[..];
    capitalize(slice);
    data.push('d');
    data
}

pub fn case_1_the_reference_is_used_later() -> Vec<char> {
    let mut data = vec!['a', 'b', 'c'];
    let slice = &mut data[..];
    capitalize(slice);
    data.push('d'); //~ E0499
    capitalize(slice);
    data
}

/// Case 2: the borrow is needed in one arm alone.
pub fn case_2_one_arm_needs_the_borrow(map: &mut HashMap<u32, String>, key: u32) {
    match map.get_mut(&key) {
        Some(value) => value.push('x'),
        None => {
            map.insert(key, String::new());
        }
    }
}

pub fn case_2_both_arms_need_the_borrow(map: &mut HashMap<u32, String>, key: u32) {
    let mut spare = String::new();
    let value = map.get_mut(&key).unwrap_or(&mut spare);
    map.insert(key, String::new()); //~ E0499
    value.push('x');
}

/// Case 3: the borrow is returned in one arm, so that it lasts to the end of the function in the other one too.
pub fn case_3_the_borrow_is_returned_in_one_arm(
    map: &mut HashMap<u32, String>,
    key: u32,
) -> &mut String {
    match map.get_mut(&key) {
        Some(value) => value,
        None => {
            map.insert(key, String::new()); //~ E0499
            map.get_mut(&key).unwrap() //~ E0499
        }
    }
}

pub fn case_3_with_two_questions(map: &mut HashMap<u32, String>, key: u32) -> &mut String {
    if map.contains_key(&key) {
        return map.get_mut(&key).unwrap();
    }
    map.insert(key, String::new());
    map.get_mut(&key).unwrap()
}

pub struct List<T> {
    value: T,
    next: Option<Box<List<T>>>,
}

/// Case 4: the list is walked while references to what lies behind are kept.
pub fn case_4_references_to_all_values<T>(mut list: &mut List<T>) -> Vec<&mut T> {
    let mut found = vec![];
    loop {
        found.push(&mut list.value);
        if let Some(next) = &mut list.next {
            list = next;
        } else {
            return found;
        }
    }
}

pub fn case_4_the_value_is_borrowed_again<T>(list: &mut List<T>) -> (&mut T, &mut T) {
    let first = &mut list.value;
    let second = &mut list.value; //~ E0499
    (first, second)
}

/// A variable that is assigned again ends the loan that went through it.
pub fn an_assignment_ends_the_loan_through_it(mut list: &mut List<u32>) -> &mut u32 {
    while list.next.is_some() {
        let next = list.next.as_mut().unwrap();
        list = next;
    }
    &mut list.value
}

pub fn liveness_ends_the_loan(flag: bool) -> u32 {
    let mut first = 22;
    let second = 44;
    let mut shown = &first;
    if flag {
        shown = &second;
        first += 1;
    }
    *shown
}

pub fn liveness_keeps_the_loan(flag: bool) -> u32 {
    let mut first = 22;
    let second = 44;
    let mut shown = &first;
    if flag {
        first += 1; //~ E0506
    } else {
        shown = &second;
    }
    *shown
}

/// The loan is live in the loop's next turn.
pub fn a_loan_of_the_turn_before() {
    let mut value = 0;
    let mut kept = vec![];
    for _ in 0..3 {
        kept.push(&mut value); //~ E0499
    }
}

pub fn a_loan_of_the_turn_alone() {
    let mut value = 0;
    for _ in 0..3 {
        let kept = vec![&mut value];
        drop(kept);
    }
}

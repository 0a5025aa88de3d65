//! Slices and arrays.
pub fn some_element_and_another(values: &mut [u32], at: usize) -> u32 {
    let first = &mut values[0];
    let other = &values[at]; //~ E0502
    *first = 1;
    *other
}

pub fn two_shared_elements(values: &[u32], at: usize) -> u32 {
    let first = &values[0];
    let other = &values[at];
    *first + *other
}

pub fn two_parts_by_a_call(values: &mut [u32]) {
    let (left, right) = values.split_at_mut(2);
    left[0] = right[0];
    right[1] = left[1];
}

pub fn two_parts_by_ranges(values: &mut [u32]) {
    let left = &mut values[..2];
    let right = &mut values[2..]; //~ E0499
    left[0] = right[0];
}

pub fn a_pattern_of_two(values: &mut [u32; 2]) {
    let [first, second] = values;
    std::mem::swap(first, second);
}

pub fn a_pattern_of_the_ends(values: &mut [u32]) {
    if let [first, .., last] = values {
        std::mem::swap(first, last);
    }
}

pub fn a_pattern_of_the_first_and_the_rest(values: &mut [u32]) -> usize {
    match values {
        [first, rest @ ..] => {
            *first = 1;
            rest.len()
        }
        [] => 0,
    }
}

pub fn the_first_and_the_whole(values: &mut [u32]) -> usize {
    match values {
        [first, ..] => {
            let count = values.len(); //~ E0502
            *first = 1;
            count
        }
        [] => 0,
    }
}

pub fn chunks_that_are_changed(values: &mut [u32]) {
    for chunk in values.chunks_mut(2) {
        chunk[0] += 1;
    }
}

pub fn windows_while_it_is_changed(values: &mut Vec<u32>) {
    for pair in values.windows(2) {
        values[0] = pair[1]; //~ E0502
    }
}

pub fn the_rest_of_a_slice(values: &[u32]) -> &[u32] {
    &values[1..]
}

pub fn the_rest_of_a_local_array() -> &'static [u32] {
    let values = [String::new().len() as u32; 3];
    &values[1..] //~ E0515
}

pub fn walked_by_its_rest(mut values: &[u32]) -> u32 {
    let mut total = 0;
    while let [first, rest @ ..] = values {
        total += first;
        values = rest;
    }
    total
}

pub fn walked_by_its_mutable_rest(mut values: &mut [u32]) {
    while let [first, rest @ ..] = values {
        *first += 1;
        values = rest;
    }
}

pub fn taken_from_the_front<'a>(values: &mut &'a mut [u32]) -> Option<&'a mut u32> {
    let taken = std::mem::take(values);
    let (first, rest) = taken.split_first_mut()?;
    *values = rest;
    Some(first)
}

pub fn taken_from_the_front_without_a_take<'a>(values: &mut &'a mut [u32]) -> Option<&'a mut u32> {
    let (first, rest) = values.split_first_mut()?;
    *values = rest; //~ E0621
    Some(first)
}

pub fn an_array_of_arrays(rows: &mut [[u32; 2]; 2]) {
    let [first, second] = rows;
    first[0] = second[1];
    second[0] = first[1];
}

pub fn an_array_of_references(first: &u32, second: &u32) -> u32 {
    let both = [first, second];
    *both[0] + *both[1]
}

pub fn an_array_of_references_to_what_is_written() -> u32 {
    let mut value = 1;
    let other = 2;
    let both = [&value, &other];
    value = 3; //~ E0506
    *both[1]
}

pub fn sorted_while_it_is_shown(values: &mut [u32]) -> u32 {
    let first = &values[0];
    values.sort(); //~ E0502
    *first
}

pub fn swapped_elements(values: &mut [u32], at: usize) {
    let kept = values[at];
    values[at] = values[0];
    values[0] = kept;
}

pub fn bytes_of_a_text(text: &str) -> &[u8] {
    let bytes = text.as_bytes();
    &bytes[..1]
}

pub fn a_copied_element(values: &mut [(u32, u32)], at: usize) -> u32 {
    let (left, right) = values[at];
    values[at].0 = right;
    left
}

pub fn an_element_by_reference(values: &mut [(u32, u32)], at: usize) -> u32 {
    let (left, right) = &values[at];
    values[at].0 = *right; //~ E0506
    values[at].1 = *left;
    0
}

/// What is written is an element, and not the one that is lent, as far as anyone can tell.
pub fn a_written_element_ends_no_loan_of_another(at: usize) -> u32 {
    let (mut one, mut two, mut three) = (1, 2, 3);
    let mut both = [&mut one, &mut two];
    let first = &mut *both[at];
    both[1 - at] = &mut three;
    *both[at] += 1; //~ E0503
    *first
}

pub fn a_written_array_ends_the_loans_of_its_elements(at: usize) -> u32 {
    let (mut one, mut two, mut three, mut four) = (1, 2, 3, 4);
    let mut both = [&mut one, &mut two];
    let first = &mut *both[at];
    both = [&mut three, &mut four];
    *both[at] += 1;
    *first
}

pub fn an_array_of_many(value: u32) -> u32 {
    let many = [
        value, value, value, value, value, value, value, value, value, value, value, value, value,
        value, value, value, value, value,
    ];
    many[0]
}

pub fn an_array_of_many_references<'a>(value: &'a u32, other: &u32) -> [&'a u32; 18] {
    let many = [
        value, value, value, value, value, value, value, value, value, value, value, value, value,
        value, value, value, value, other,
    ];
    many //~ E0621
}

pub fn an_array_of_many_loans() -> u32 {
    let (mut one, two) = (1, 2);
    let many = [
        &two, &two, &two, &two, &two, &two, &two, &two, &two, &two, &two, &two, &two, &two, &two,
        &two, &two, &one,
    ];
    one = 3; //~ E0506
    *many[0]
}

//! Blocks, conditions and patterns: `let else`, `if let` chains, shadowing and `?`.
pub fn let_else(value: &mut Option<u32>) -> u32 {
    let Some(it) = value else {
        *value = Some(1);
        return 0;
    };
    *it += 1;
    *it
}

pub fn let_else_that_looks_back(value: &mut Option<u32>) -> u32 {
    let Some(it) = value else {
        return 0;
    };
    *value = None; //~ E0506
    *it
}

pub fn shadowed(value: &mut u32) -> u32 {
    let value = &mut *value;
    let value = &mut *value;
    *value += 1;
    *value
}

pub fn a_value_of_a_block(values: &mut Vec<u32>) -> usize {
    let count = {
        let held = &mut *values;
        held.push(1);
        held.len()
    };
    values.push(2);
    count
}

pub fn a_borrow_of_a_block(values: &mut Vec<u32>) -> usize {
    let held = {
        let held = &mut *values;
        held.push(1);
        held
    };
    values.push(2); //~ E0499
    held.len()
}

pub fn one_of_two_by_a_condition<'a>(
    first: &'a mut u32,
    second: &'a mut u32,
    flag: bool,
) -> &'a mut u32 {
    let picked = if flag { &mut *first } else { &mut *second };
    *picked += 1;
    picked
}

pub fn one_of_two_while_the_other_is_used(first: &mut u32, second: &mut u32, flag: bool) -> u32 {
    let picked = if flag { &mut *first } else { &mut *second };
    *first += 1; //~ E0503
    *picked
}

pub fn a_question_that_lends(values: &mut Vec<u32>) -> Option<&mut u32> {
    let first = values.first_mut()?;
    *first += 1;
    Some(first)
}

pub fn a_question_that_lends_and_another(values: &mut Vec<u32>) -> Option<u32> {
    let first = values.first_mut()?;
    let last = values.last_mut()?; //~ E0499
    Some(*first + *last)
}

pub fn a_pattern_with_ref(pair: (String, u32)) -> usize {
    let (ref text, mut count) = pair;
    count += 1;
    text.len() + count as usize
}

pub fn a_pattern_with_ref_mut(mut pair: (String, u32)) -> usize {
    let (ref mut text, count) = pair;
    text.push('a');
    pair.0.len() + count as usize
}

pub fn a_pattern_with_ref_mut_while_it_is_read(mut pair: (String, u32)) -> usize {
    let (ref mut text, _) = pair;
    let count = pair.0.len(); //~ E0502
    text.push('a');
    count
}

pub fn a_binding_at_a_pattern(value: &Option<u32>) -> Option<&u32> {
    match value {
        whole @ Some(_) => whole.as_ref(),
        None => None,
    }
}

pub fn a_destructuring_assignment(pair: (u32, u32)) -> u32 {
    let (first, second);
    (first, second) = pair;
    first + second
}

pub fn swapped_references<'a>(first: &'a u32, second: &'a u32) -> u32 {
    let (mut left, mut right) = (first, second);
    (left, right) = (right, left);
    *left - *right
}

pub fn an_early_return_in_a_block(values: &mut Vec<u32>, flag: bool) -> &u32 {
    let first = &values[0];
    if flag {
        return first;
    }
    &values[1]
}

pub fn an_early_return_and_a_push(values: &mut Vec<u32>, flag: bool) -> &u32 {
    let first = &values[0];
    if flag {
        return first;
    }
    values.push(1); //~ E0502
    &values[1]
}

pub fn an_early_return_of_a_copy(values: &mut Vec<u32>, flag: bool) -> u32 {
    let first = &values[0];
    if flag {
        return *first;
    }
    values.push(1);
    values[1]
}

pub fn casts_to_a_pointer(value: &mut u32) -> u32 {
    let pointer = value as *mut u32;
    *value += 1;
    unsafe { *pointer }
}

pub fn a_reference_of_a_pointer<'a>(pointer: *mut u32) -> (&'a mut u32, &'a mut u32) {
    unsafe { (&mut *pointer, &mut *pointer) }
}

pub fn a_short_circuit(values: &mut Vec<u32>) -> bool {
    values.first().is_some_and(|it| *it > 1) && values.pop().is_some() || values.is_empty()
}

pub fn a_comparison_with_an_operator(values: &mut Vec<u32>) -> bool {
    let first = &mut values[0];
    *first += 1;
    *first == 1 || values[0] == 2
}

pub fn a_conditional_end_of_a_loan(value: &mut u32, flag: bool) -> u32 {
    let mut local = 0;
    let mut held = &mut *value;
    if flag {
        held = &mut local;
    }
    *held += 1;
    *value
}

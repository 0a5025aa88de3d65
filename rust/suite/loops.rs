//! Loops: a loan that lives into the next turn, and one that does not.
pub fn a_loan_of_each_turn(values: &mut Vec<u32>) {
    for at in 0..values.len() {
        let it = &mut values[at];
        *it += 1;
    }
}

pub fn loans_of_all_turns(values: &mut Vec<u32>) -> Vec<&mut u32> {
    let mut kept = vec![];
    for at in 0..2 {
        kept.push(&mut values[at]); //~ E0499
    }
    kept
}

pub fn loans_of_all_turns_by_an_iterator(values: &mut Vec<u32>) -> Vec<&mut u32> {
    let mut kept = vec![];
    for it in values.iter_mut() {
        kept.push(it);
    }
    kept
}

pub fn shared_loans_of_all_turns(values: &Vec<u32>) -> Vec<&u32> {
    let mut kept = vec![];
    for at in 0..values.len() {
        kept.push(&values[at]);
    }
    kept
}

pub fn written_after_the_last_look_of_the_turn_before() -> u32 {
    let mut value = 0;
    let start = 0;
    let mut shown = &start;
    while *shown < 3 {
        value += 1;
        shown = &value;
    }
    *shown
}

pub fn written_in_the_next_turn() -> u32 {
    let mut value = 0;
    let start = 0;
    let mut shown = &start;
    while value < 3 {
        value += 1; //~ E0506
        if *shown == 0 {
            shown = &value;
        }
    }
    *shown
}

pub fn written_and_copied_in_each_turn() -> u32 {
    let mut value = 0;
    let mut seen = 0;
    while seen < 3 {
        value += 1;
        let shown = &value;
        seen = *shown;
    }
    seen
}

pub fn broken_out_with_a_loan(values: &mut Vec<u32>) -> Option<&mut u32> {
    for it in values.iter_mut() {
        if *it > 3 {
            return Some(it);
        }
    }
    None
}

pub fn broken_out_with_a_loan_and_grown(values: &mut Vec<u32>) -> &mut u32 {
    for it in values.iter_mut() {
        if *it > 3 {
            return it;
        }
    }
    values.push(3); //~ E0499
    values.last_mut().unwrap() //~ E0499
}

pub fn a_label_and_a_loan(rows: &mut Vec<Vec<u32>>) -> Option<&mut u32> {
    let mut found = None;
    'rows: for row in rows.iter_mut() {
        for it in row.iter_mut() {
            if *it == 0 {
                found = Some(it);
                break 'rows;
            }
        }
    }
    found
}

pub fn an_infinite_loop_with_a_loan(value: &mut u32) -> ! {
    let held = &mut *value;
    loop {
        *held += 1;
    }
}

pub fn an_infinite_loop_with_a_loan_of_each_turn() -> ! {
    let mut value = 0;
    loop {
        let held = &mut value;
        *held += 1;
    }
}

/// The loan is never used again, since the loop has no end.
pub fn a_loan_that_no_path_uses() {
    let mut value = 0;
    let shown = &value;
    loop {
        value += 1;
        if value > 3 {
            return;
        }
    }
}

pub fn a_loan_before_the_loop_is_used_behind_it() -> u32 {
    let mut value = 0;
    let shown = &value;
    while value < 3 {
        value += 1; //~ E0506
    }
    *shown
}

pub fn a_stack_of_references<'a>(tree: &'a Tree) -> u32 {
    let mut waiting = vec![tree];
    let mut total = 0;
    while let Some(it) = waiting.pop() {
        total += it.value;
        for child in &it.children {
            waiting.push(child);
        }
    }
    total
}

pub struct Tree {
    value: u32,
    children: Vec<Tree>,
}

pub fn a_stack_of_mutable_references(tree: &mut Tree) {
    let mut waiting = vec![tree];
    while let Some(it) = waiting.pop() {
        it.value += 1;
        for child in &mut it.children {
            waiting.push(child);
        }
    }
}

pub fn a_stack_of_mutable_references_that_looks_back(tree: &mut Tree) -> u32 {
    let mut waiting = vec![&mut *tree];
    while let Some(it) = waiting.pop() {
        it.value += tree.value; //~ E0503
        for child in &mut it.children {
            waiting.push(child);
        }
    }
    0
}

pub fn swapped_buffers(count: u32) -> u32 {
    let (mut first, mut second) = (vec![1], vec![2]);
    let (mut front, mut back) = (&mut first, &mut second);
    for _ in 0..count {
        front.push(back.len() as u32);
        std::mem::swap(&mut front, &mut back);
    }
    front[0]
}

pub fn a_window_of_two(values: &[u32]) -> u32 {
    let mut total = 0;
    let mut last: Option<&u32> = None;
    for it in values {
        if let Some(before) = last {
            total += before * it;
        }
        last = Some(it);
    }
    total
}

pub fn a_window_of_two_that_is_looked_at_before_it_grows(values: &mut Vec<u32>) {
    let mut last: Option<&u32> = None;
    for at in 0..3 {
        if let Some(before) = last {
            drop(*before);
        }
        values.push(at);
        last = values.last();
    }
}

pub fn a_window_of_two_over_what_grows(values: &mut Vec<u32>) {
    let mut last: Option<&u32> = None;
    for at in 0..3 {
        values.push(at); //~ E0502
        if let Some(before) = last {
            drop(*before);
        }
        last = values.last();
    }
}

pub fn lines_of_a_buffer(input: &mut dyn std::io::BufRead) -> usize {
    let mut line = String::new();
    let mut total = 0;
    while input.read_line(&mut line).unwrap_or(0) > 0 {
        total += line.trim().len();
        line.clear();
    }
    total
}

pub fn words_of_a_buffer(input: &mut dyn std::io::BufRead) -> usize {
    let mut line = String::new();
    let mut words: Vec<&str> = vec![];
    while input.read_line(&mut line).unwrap_or(0) > 0 {
        //~^ E0502
        words.extend(line.split(' '));
    }
    words.len()
}

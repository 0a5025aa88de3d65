//! E0499: a second mutable borrow while the first one is used.
pub struct Pair {
    left: u32,
    right: u32,
}

pub fn two_of_one_local() {
    let mut value = 1;
    let first = &mut value;
    let second = &mut value; //~ E0499
    *first += 1;
    *second += 1;
}

pub fn one_after_the_other() {
    let mut value = 1;
    let first = &mut value;
    *first += 1;
    let second = &mut value;
    *second += 1;
}

pub fn two_fields(pair: &mut Pair) {
    let left = &mut pair.left;
    let right = &mut pair.right;
    std::mem::swap(left, right);
}

pub fn one_field_twice(pair: &mut Pair) {
    let left = &mut pair.left;
    let again = &mut pair.left; //~ E0499
    std::mem::swap(left, again);
}

pub fn a_field_and_the_whole(pair: &mut Pair) {
    let left = &mut pair.left;
    let whole = &mut *pair; //~ E0499
    whole.right = *left;
}

pub fn two_elements(values: &mut Vec<u32>) {
    let first = &mut values[0];
    let second = &mut values[1]; //~ E0499
    std::mem::swap(first, second);
}

pub fn two_parts_of_a_slice(values: &mut [u32]) {
    let (first, second) = values.split_at_mut(1);
    std::mem::swap(&mut first[0], &mut second[0]);
}

pub fn one_call_with_both(value: &mut u32) {
    fn both(_: &mut u32, _: &mut u32) {}
    both(value, value); //~ E0499
}

pub fn two_calls_with_one_each(value: &mut u32) {
    fn one(_: &mut u32) {}
    one(value);
    one(value);
}

pub struct Store {
    items: Vec<String>,
}

impl Store {
    fn first(&mut self) -> &mut String {
        &mut self.items[0]
    }

    pub fn asked_twice(&mut self) {
        let first = self.first();
        let again = self.first(); //~ E0499
        first.push('a');
        again.push('b');
    }

    pub fn asked_in_turn(&mut self) {
        self.first().push('a');
        self.first().push('b');
    }

    pub fn returned_on_one_path(&mut self, flag: bool) -> &mut String {
        if flag {
            let first = self.first();
            return first;
        }
        self.first()
    }

    pub fn returned_where_it_is_empty(&mut self) -> &mut String {
        let first = self.first();
        if first.is_empty() {
            return first;
        }
        self.first() //~ E0499
    }
}

/// E0524: two closures that need unique access.
pub fn two_closures(values: &mut Vec<u32>) {
    let mut add = || values.push(1);
    let mut take = || values.pop(); //~ E0524
    add();
    take();
}

pub fn a_closure_after_another(values: &mut Vec<u32>) {
    let mut add = || values.push(1);
    add();
    let mut take = || values.pop();
    take();
}

pub fn in_a_loop_through_an_option(values: &mut Vec<u32>) {
    let mut last: Option<&mut u32> = None;
    for _ in 0..2 {
        if let Some(it) = last {
            *it += 1;
        }
        last = values.first_mut();
    }
}

pub fn in_a_loop_and_forgotten(values: &mut Vec<u32>) {
    let mut total = 0;
    for _ in 0..2 {
        if let Some(it) = values.first_mut() {
            *it += 1;
            total += *it;
        }
    }
    drop(total);
}

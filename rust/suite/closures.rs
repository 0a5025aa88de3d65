//! Closures: by reference, by move, returned, called and passed on.
pub fn reads_by_reference(value: u32) -> u32 {
    let read = || value + 1;
    read() + value
}

pub fn reads_while_it_is_written() -> u32 {
    let mut value = 1;
    let read = || value + 1;
    value = 2; //~ E0506
    read()
}

pub fn writes_by_reference() -> u32 {
    let mut value = 1;
    let mut write = || value += 1;
    write();
    write();
    value
}

pub fn writes_while_it_is_read() -> u32 {
    let mut value = 1;
    let mut write = || value += 1;
    let seen = &value; //~ E0502
    write();
    *seen
}

pub fn by_move_of_a_copy() -> u32 {
    let mut value = 1;
    let mut count = move || {
        value += 1;
        value
    };
    value = 5;
    count() + value
}

pub fn disjoint_fields() -> u32 {
    let mut pair = (1, 2);
    let mut write = || pair.0 += 1;
    let seen = &pair.1;
    write();
    *seen
}

pub fn the_same_field() -> u32 {
    let mut pair = (1, 2);
    let mut write = || pair.0 += 1;
    let seen = &pair.0; //~ E0502
    write();
    *seen
}

pub fn disjoint_fields_behind_a_reference(pair: &mut (u32, u32)) -> u32 {
    let mut write = || pair.0 += 1;
    let seen = &pair.1;
    write();
    *seen
}

pub fn unique_access_to_a_reference(value: &mut u32) -> u32 {
    let mut write = || *value += 1;
    let seen = *value; //~ E0503
    write();
    seen
}

/// E0500: a closure needs unique access to what is borrowed.
pub fn unique_access_to_what_is_borrowed(value: &mut u32) -> u32 {
    let seen = &mut *value;
    let mut write = || *value += 1; //~ E0500
    write();
    *seen
}

/// E0501: a borrow of what a closure has unique access to.
pub fn a_borrow_of_what_a_closure_has(value: &mut u32) -> u32 {
    let mut write = || *value += 1;
    let seen = &mut *value; //~ E0501
    write();
    *seen
}

pub fn returned_with_a_region<'a>(value: &'a u32) -> impl Fn() -> u32 + 'a {
    move || *value
}

pub fn returned_and_shows(values: &[u32]) -> impl Fn(usize) -> u32 + '_ {
    move |at| values[at]
}

pub fn returned_in_a_box<'a>(value: &'a mut u32) -> Box<dyn FnMut() + 'a> {
    Box::new(move || *value += 1)
}

pub fn returned_and_borrows_its_box<'a>(value: &'a mut u32) -> Box<dyn FnMut() + 'a> {
    Box::new(|| *value += 1)
}

pub fn returns_what_it_captures<'a>(value: &'a u32) -> &'a u32 {
    let show = || value;
    show()
}

pub fn returns_a_borrow_of_its_capture() -> u32 {
    let text = String::from("a");
    let show = || &text;
    show().len() as u32
}

pub fn a_capture_escapes_its_body() -> u32 {
    let mut value = 1;
    let mut show = || &mut value; //~ lifetime
    *show() += 1;
    0
}

pub fn passed_on(values: &mut Vec<u32>, by: u32) {
    values.iter_mut().for_each(|it| *it += by);
}

pub fn passed_on_and_grows_itself(values: &mut Vec<u32>) {
    values.iter().for_each(|it| values.push(*it)); //~ E0500
}

pub fn passed_on_and_fills_another(values: &[u32]) -> Vec<u32> {
    let mut kept = vec![];
    values.iter().for_each(|it| kept.push(*it));
    kept
}

pub fn passed_on_and_keeps_references(values: &[u32]) -> Vec<&u32> {
    let mut kept = vec![];
    values.iter().for_each(|it| kept.push(it));
    kept
}

pub fn one_region_for_argument_and_result() -> u32 {
    let show = |it: &u32| -> u32 { *it };
    show(&1)
}

pub fn no_region_from_argument_to_result() -> u32 {
    let show = |it: &u32| it; //~ lifetime
    *show(&1)
}

pub fn a_function_that_says_it<'a>(value: &'a u32) -> &'a u32 {
    fn says<F: Fn(&u32) -> &u32>(show: F) -> F {
        show
    }
    says(|it| it)(value)
}

pub fn a_requirement_that_the_creator_meets<'a, 'b: 'a>(
    first: &'a u32,
    second: &'b u32,
) -> &'a u32 {
    let pick = |flag: bool| -> &'a u32 {
        if flag {
            first
        } else {
            second
        }
    };
    pick(true)
}

pub fn a_requirement_that_the_creator_does_not_meet<'a, 'b>(
    first: &'a u32,
    second: &'b u32,
) -> &'a u32 {
    let pick = |flag: bool| -> &'a u32 {
        if flag {
            first
        } else {
            second //~ lifetime
        }
    };
    pick(true)
}

pub fn nested(values: &mut Vec<u32>) {
    let mut outer = |by: u32| {
        let mut inner = || values.push(by);
        inner();
        inner();
    };
    outer(1);
    outer(2);
}

pub fn nested_while_it_is_used(values: &mut Vec<u32>) {
    let mut outer = |by: u32| {
        let mut inner = || values.push(by);
        values.clear(); //~ E0499
        inner();
    };
    outer(1);
}

pub fn nested_by_move<'a>(value: &'a u32) -> impl Fn() -> Box<dyn Fn() -> u32 + 'a> {
    move || Box::new(move || *value)
}

pub fn in_a_struct() -> u32 {
    struct Holder<F> {
        call: F,
    }
    let mut value = 1;
    let mut holder = Holder {
        call: || value += 1,
    };
    (holder.call)();
    value
}

pub fn in_a_struct_that_is_used_later() -> u32 {
    struct Holder<F> {
        call: F,
    }
    let mut value = 1;
    let mut holder = Holder {
        call: || value += 1,
    };
    let seen = value; //~ E0503
    (holder.call)();
    seen
}

pub fn sorted_by_a_key_of_another(values: &mut Vec<usize>, keys: &[u32]) {
    values.sort_by_key(|at| keys[*at]);
}

pub fn sorted_by_a_key_of_itself(values: &mut Vec<usize>) {
    values.sort_by_key(|at| values[*at]); //~ E0502
}

pub fn no_function_of_any_region(text: &str) -> usize {
    let call: Option<&dyn for<'a> Fn(&'a str) -> &'a str> = None;
    call.map_or(0, |it| it(text).len())
}

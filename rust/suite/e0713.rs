//! E0713: a borrow has to live on after what its destructor may touch is dropped.
pub struct Guard<'a> {
    url: &'a mut u32,
}

impl<'a> Drop for Guard<'a> {
    fn drop(&mut self) {}
}

pub struct Plain<'a> {
    url: &'a mut u32,
}

pub fn out_of_a_guard<'a>(guard: Guard<'a>) -> &'a mut u32 {
    &mut *guard.url //~ E0713
}

pub fn out_of_a_plain_struct<'a>(plain: Plain<'a>) -> &'a mut u32 {
    &mut *plain.url
}

pub fn out_of_a_borrowed_guard<'a, 'b>(guard: &'b mut Guard<'a>) -> &'b mut u32 {
    &mut *guard.url
}

pub fn out_of_a_boxed_guard<'a>(guard: Box<Guard<'a>>) -> &'a mut u32 {
    &mut *guard.url //~ E0713
}

pub fn out_of_a_guard_in_a_pair<'a>(pair: (Guard<'a>, u32)) -> &'a mut u32 {
    &mut *pair.0.url //~ E0713
}

pub fn out_of_a_guard_that_is_forgotten<'a>(guard: Guard<'a>) -> u32 {
    let shown = &mut *guard.url;
    *shown += 1;
    *shown
}

pub fn out_of_a_guard_in_a_block(value: &mut u32) -> u32 {
    let shown = {
        let guard = Guard { url: value };
        &mut *guard.url //~ E0713
    };
    *shown
}

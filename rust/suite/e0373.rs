//! E0373: a closure may outlive what it borrows. Closures that own it may be returned.
pub fn borrows_a_parameter(value: u32) -> impl Fn() -> u32 {
    || value + 1 //~ E0373
}

pub fn owns_a_parameter(value: u32) -> impl Fn() -> u32 {
    move || value + 1
}

pub fn boxed_and_borrows(value: u32) -> Box<dyn Fn() -> u32> {
    Box::new(|| value + 1) //~ E0373
}

pub fn boxed_and_owns(value: u32) -> Box<dyn Fn() -> u32> {
    Box::new(move || value + 1)
}

pub fn to_a_thread_and_borrows(values: Vec<u32>) {
    std::thread::spawn(|| drop(values.len())); //~ E0373
}

pub fn to_a_thread_and_owns(values: Vec<u32>) {
    std::thread::spawn(move || drop(values.len()));
}

pub fn a_local_that_is_borrowed() -> impl FnMut() -> u32 {
    let mut count = 0;
    || {
        //~^ E0373
        count += 1;
        count
    }
}

pub fn a_local_that_is_owned() -> impl FnMut() -> u32 {
    let mut count = 0;
    move || {
        count += 1;
        count
    }
}

pub fn within_an_iterator(values: Vec<u32>, by: u32) -> impl Iterator<Item = u32> {
    values.into_iter().map(|it| it + by) //~ E0373
}

pub fn within_an_iterator_that_owns(values: Vec<u32>, by: u32) -> impl Iterator<Item = u32> {
    values.into_iter().map(move |it| it + by)
}

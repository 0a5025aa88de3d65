//! Drops: a destructor may look at what its value borrows, but for what it promises not to.
#![feature(dropck_eyepatch)]
use std::cell::{Cell, RefCell};
use std::rc::Rc;

/// Its destructor may look.
pub struct Loud<'a>(&'a u32);

impl Drop for Loud<'_> {
    fn drop(&mut self) {}
}

/// It has no destructor.
pub struct Quiet<'a>(&'a u32);

/// Its destructor promises not to look at the values.
pub struct Blind<T>(T);

unsafe impl<#[may_dangle] T> Drop for Blind<T> {
    fn drop(&mut self) {}
}

/// Its destructor may look at the values.
pub struct Seeing<T>(T);

impl<T> Drop for Seeing<T> {
    fn drop(&mut self) {}
}

pub fn loud_before_what_it_borrows() {
    let mut loud = None;
    let value = 1;
    loud = Some(Loud(&value)); //~ E0597
}

pub fn loud_after_what_it_borrows() {
    let value = 1;
    let loud = Loud(&value);
}

pub fn quiet_before_what_it_borrows() {
    let mut quiet = None;
    let value = 1;
    quiet = Some(Quiet(&value));
}

pub fn a_vector_of_references_before_what_it_borrows() {
    let mut values = vec![];
    let value = 1;
    values.push(&value);
}

pub fn a_vector_of_loud_ones_before_what_they_borrow() {
    let mut values = vec![];
    let value = 1;
    values.push(Loud(&value)); //~ E0597
}

pub fn a_vector_of_quiet_ones_before_what_they_borrow() {
    let mut values = vec![];
    let value = 1;
    values.push(Quiet(&value));
}

pub fn a_box_before_what_it_borrows() {
    let mut boxed = Box::new(None);
    let value = 1;
    *boxed = Some(&value);
}

pub fn a_box_of_a_loud_one_before_what_it_borrows() {
    let mut boxed = Box::new(None);
    let value = 1;
    *boxed = Some(Loud(&value)); //~ E0597
}

pub fn a_counted_one_before_what_it_borrows() {
    let counted = Rc::new(Cell::new(None));
    let value = 1;
    counted.set(Some(&value));
}

pub fn a_blind_one_before_what_it_borrows() {
    let mut blind = Blind(None);
    let value = 1;
    blind.0 = Some(&value);
}

pub fn a_blind_one_of_a_loud_one() {
    let mut blind = Blind(None);
    let value = 1;
    blind.0 = Some(Loud(&value)); //~ E0597
}

pub fn a_seeing_one_before_what_it_borrows() {
    let mut seeing = Seeing(None);
    let value = 1;
    seeing.0 = Some(&value); //~ E0597
}

pub fn a_seeing_one_after_what_it_borrows() {
    let value = 1;
    let mut seeing = Seeing(None);
    seeing.0 = Some(&value);
}

pub fn loud_is_dropped_by_hand() {
    let mut value = 1;
    let loud = Loud(&value);
    drop(loud);
    value = 2;
}

pub fn loud_is_dropped_at_the_end() {
    let mut value = 1;
    let loud = Loud(&value);
    value = 2; //~ E0506
}

pub fn quiet_is_dropped_at_the_end() {
    let mut value = 1;
    let quiet = Quiet(&value);
    value = 2;
}

pub fn a_vector_is_dropped_at_the_end() {
    let mut value = 1;
    let values = vec![&value];
    value = 2;
}

pub fn a_vector_of_loud_ones_is_dropped_at_the_end() {
    let mut value = 1;
    let values = vec![Loud(&value)];
    value = 2; //~ E0506
}

pub fn loud_in_a_block() {
    let mut value = 1;
    {
        let loud = Loud(&value);
    }
    value = 2;
}

pub fn loud_on_one_path(flag: bool) {
    let mut value = 1;
    if flag {
        let loud = Loud(&value);
        return;
    }
    value = 2;
}

pub fn loud_is_moved_on_one_path(flag: bool) {
    let mut value = 1;
    let loud = Loud(&value);
    if flag {
        drop(loud);
        value = 2;
    }
}

pub fn loud_is_moved_on_the_other_path(flag: bool) {
    let mut value = 1;
    let loud = Loud(&value);
    if flag {
        drop(loud);
    } else {
        value = 2; //~ E0506
    }
}

pub fn loud_is_overwritten() {
    let mut value = 1;
    let other = 2;
    let mut loud = Loud(&value);
    loud = Loud(&other);
    value = 3;
}

pub fn a_guard_of_a_cell(cell: &RefCell<Vec<u32>>) -> usize {
    let guard = cell.borrow();
    guard.len()
}

pub fn a_guard_of_a_local_cell() -> usize {
    let cell = RefCell::new(vec![1]);
    let count = cell.borrow().len();
    count
}

pub fn a_guard_of_a_local_cell_at_the_end() -> usize {
    let cell = RefCell::new(vec![1]);
    cell.borrow().len() //~ E0597
}

pub fn a_trait_object_before_what_it_borrows() {
    let mut boxed: Option<Box<dyn Fn() -> u32 + '_>> = None;
    let value = 1;
    boxed = Some(Box::new(|| value)); //~ E0597
}

pub fn a_trait_object_after_what_it_borrows() {
    let value = 1;
    let boxed: Box<dyn Fn() -> u32 + '_> = Box::new(|| value);
}

pub fn a_pair_of_a_loud_one_and_what_it_borrows() {
    let mut pair = (None, 1);
    pair.0 = Some(Quiet(&pair.1));
}

pub fn a_pair_of_a_loud_one_and_another() {
    let value = 1;
    let pair = (Loud(&value), 2);
    drop(pair.1);
}

pub fn forgotten() {
    let mut value = 1;
    let loud = std::mem::ManuallyDrop::new(Loud(&value));
    value = 2;
}

pub fn an_iterator_that_drains(values: &mut Vec<u32>) -> usize {
    let drained = values.drain(..);
    let count = values.len(); //~ E0502
    count
}

pub fn an_iterator_that_shows(values: &mut Vec<u32>) -> usize {
    let shown = values.iter();
    values.push(1);
    values.len()
}

pub fn loud_is_moved_into_another_on_one_path(flag: bool) {
    let mut value = 1;
    let loud = Loud(&value);
    if flag {
        let other = loud;
        drop(other);
        value = 2;
    }
}

pub fn loud_is_moved_into_another_that_lives(flag: bool) {
    let mut value = 1;
    let loud = Loud(&value);
    if flag {
        let other = loud;
        value = 2; //~ E0506
    }
}

pub fn loud_is_moved_in_a_loop(count: u32) {
    let mut value = 1;
    for at in 0..count {
        let loud = Loud(&value);
        if at == 1 {
            drop(loud);
            value += 1;
        }
    }
}

pub fn loud_is_moved_and_made_again(flag: bool) {
    let mut value = 1;
    let mut loud = Loud(&value);
    if flag {
        drop(loud);
        value = 2;
        loud = Loud(&value);
    }
}

pub fn loud_is_moved_and_made_again_before(flag: bool) {
    let mut value = 1;
    let mut loud = Loud(&value);
    if flag {
        drop(loud);
        loud = Loud(&value);
        value = 2; //~ E0506
    }
}

/// The loop never ends, so that `loud` is dropped only where a call panics.
pub fn loud_is_dropped_by_unwinding_alone(mut work: impl FnMut(&mut u32)) -> ! {
    let mut value = 1;
    let loud = Loud(&value);
    loop {
        work(&mut value); //~ E0502
    }
}

pub fn quiet_is_dropped_by_unwinding_alone(mut work: impl FnMut(&mut u32)) -> ! {
    let mut value = 1;
    let quiet = Quiet(&value);
    loop {
        work(&mut value);
    }
}

//! Structs with variance: what a type says of its regions.
use std::cell::Cell;
use std::marker::PhantomData;

/// Covariant: a longer one may stand for a shorter one.
pub struct Shows<'a> {
    held: &'a u32,
}

/// Invariant, since it can be written through.
pub struct Writes<'a> {
    held: Cell<&'a u32>,
}

/// Invariant, behind a mutable reference.
pub struct Lends<'a, 'b> {
    held: &'a mut &'b u32,
}

/// Contravariant, since it takes.
pub struct Takes<'a> {
    call: fn(&'a u32),
}

pub struct Marked<'a, T> {
    value: T,
    mark: PhantomData<&'a ()>,
}

pub fn shorter_of_a_covariant_one<'a, 'b: 'a>(value: Shows<'b>) -> Shows<'a> {
    value
}

pub fn longer_of_a_covariant_one<'a, 'b: 'a>(value: Shows<'a>) -> Shows<'b> {
    value //~ lifetime
}

pub fn shorter_of_an_invariant_one<'a, 'b: 'a>(value: Writes<'b>) -> Writes<'a> {
    value //~ lifetime
}

pub fn longer_of_an_invariant_one<'a, 'b: 'a>(value: Writes<'a>) -> Writes<'b> {
    value //~ lifetime
}

pub fn the_same_of_an_invariant_one<'a>(value: Writes<'a>) -> Writes<'a> {
    value
}

pub fn shorter_of_a_contravariant_one<'a, 'b: 'a>(value: Takes<'b>) -> Takes<'a> {
    value //~ lifetime
}

pub fn longer_of_a_contravariant_one<'a, 'b: 'a>(value: Takes<'a>) -> Takes<'b> {
    value
}

pub fn the_outer_region_of_a_lender<'a, 'b, 'c: 'a>(value: Lends<'c, 'b>) -> Lends<'a, 'b> {
    value
}

pub fn the_inner_region_of_a_lender<'a, 'b: 'c, 'c>(value: Lends<'a, 'b>) -> Lends<'a, 'c> {
    value //~ lifetime
}

pub fn a_marked_one<'a, 'b: 'a>(value: Marked<'b, u32>) -> Marked<'a, u32> {
    value
}

pub fn a_reference_in_a_marked_one<'a, 'b: 'a>(value: Marked<'b, &'b u32>) -> Marked<'a, &'a u32> {
    value
}

pub fn behind_a_shared_reference<'a, 'b: 'a>(value: &'a Shows<'b>) -> &'a Shows<'a> {
    value
}

pub fn behind_a_mutable_reference<'a, 'b: 'a>(value: &'a mut Shows<'b>) -> &'a mut Shows<'a> {
    value //~ lifetime
}

pub fn a_cell_that_keeps_a_local(cell: &Writes<'static>) {
    let value = 1;
    cell.held.set(&value); //~ E0597
}

pub fn a_local_cell_that_keeps_a_local() -> u32 {
    let value = 1;
    let cell = Writes {
        held: Cell::new(&0),
    };
    cell.held.set(&value);
    *cell.held.get()
}

pub fn a_local_cell_before_what_it_keeps() -> u32 {
    let cell = Writes {
        held: Cell::new(&0),
    };
    let value = 1;
    cell.held.set(&value);
    *cell.held.get()
}

pub fn a_vector_of_longer_ones<'a, 'b: 'a>(values: Vec<&'b u32>) -> Vec<&'a u32> {
    values
}

pub fn a_vector_of_longer_ones_to_change<'a, 'b: 'a>(values: &mut Vec<&'b u32>, value: &'a u32) {
    values.push(value); //~ lifetime
}

pub fn a_function_of_any_region(call: fn(&u32) -> &u32) -> fn(&'static u32) -> &'static u32 {
    call
}

pub fn a_function_as_a_parameter<'a>(call: fn(&'a u32), value: &'a u32) {
    call(value);
}

pub fn a_function_of_a_longer_region<'a>(call: fn(&'static u32), value: &'a u32) {
    call(value); //~ E0521
}

pub fn a_shorter_one_in_a_local<'b>(value: Shows<'b>) -> u32 {
    let local = 1;
    let mut shown = value;
    shown = Shows { held: &local };
    *shown.held
}

pub fn a_shorter_one_behind_a_reference<'b>(value: &mut Shows<'b>) {
    let local = 1;
    *value = Shows { held: &local }; //~ E0597
}

pub fn nested_structs<'a, 'b: 'a>(
    value: (Shows<'b>, Option<Shows<'b>>),
) -> (Shows<'a>, Option<Shows<'a>>) {
    value
}

pub fn a_trait_object_of_a_region<'a, 'b: 'a>(
    value: Box<dyn Fn() -> u32 + 'b>,
) -> Box<dyn Fn() -> u32 + 'a> {
    value
}

pub fn a_trait_object_of_a_longer_region<'a, 'b: 'a>(
    value: Box<dyn Fn() -> u32 + 'a>,
) -> Box<dyn Fn() -> u32 + 'b> {
    value //~ lifetime
}

pub fn a_function_behind_a_reference<'a, 'b: 'a>(call: &'a fn(&'a u32)) -> &'a fn(&'b u32) {
    call
}

pub fn a_function_in_a_pair<'a, 'b: 'a>(pair: (fn(&'a u32), u32)) -> (fn(&'b u32), u32) {
    pair
}

pub fn a_function_put_into_a_struct<'a, 'b: 'a>(call: fn(&'a u32)) -> Takes<'b> {
    Takes { call }
}

pub fn a_shorter_function_put_into_a_struct<'a, 'b: 'a>(call: fn(&'b u32)) -> Takes<'a> {
    Takes { call } //~ lifetime
}

pub fn a_function_borrowed<'a, 'b: 'a>(takes: &Takes<'a>) -> usize {
    let local: &Takes<'b> = &*takes;
    local.call as usize
}

pub fn a_shorter_function_borrowed<'a, 'b: 'a>(takes: &Takes<'b>) -> usize {
    let local: &Takes<'a> = &*takes; //~ lifetime
    local.call as usize
}

//! Boxes: what they own is reached like a field.
pub struct Pair {
    left: u32,
    right: String,
}

pub fn two_fields_of_a_box(mut pair: Box<Pair>) -> Box<Pair> {
    let left = &mut pair.left;
    let right = &mut pair.right;
    *left = right.len() as u32;
    pair
}

pub fn a_field_of_a_box_twice(mut pair: Box<Pair>) -> Box<Pair> {
    let left = &mut pair.left;
    let again = &mut pair.left; //~ E0499
    *left = *again;
    pair
}

pub fn two_fields_of_a_borrowed_box(pair: &mut Box<Pair>) -> u32 {
    let pair = &mut **pair;
    let left = &mut pair.left;
    let right = &mut pair.right;
    *left = right.len() as u32;
    *left
}

pub fn the_box_is_moved_while_it_is_shown(pair: Box<Pair>) -> u32 {
    let left = &pair.left;
    let moved = pair; //~ E0505
    *left + moved.left
}

pub fn the_box_shows_a_longer_reference<'a>(boxed: Box<&'a u32>) -> &'a u32 {
    let shown = &**boxed;
    drop(boxed);
    shown
}

pub fn the_box_shows_what_it_owns() -> u32 {
    let shown = {
        let boxed = Box::new(1);
        &*boxed //~ E0597
    };
    *shown
}

pub fn a_box_is_replaced(mut boxed: Box<u32>) -> u32 {
    let seen = *boxed;
    *boxed = 2;
    boxed = Box::new(seen);
    *boxed
}

pub fn a_boxed_list_is_walked(mut list: Box<List>) -> u32 {
    let mut total = 0;
    while let Some(next) = list.next {
        total += list.value;
        list = next;
    }
    total
}

pub struct List {
    value: u32,
    next: Option<Box<List>>,
}

pub fn a_boxed_list_is_turned(mut list: Option<Box<List>>) -> Option<Box<List>> {
    let mut turned = None;
    while let Some(mut node) = list {
        list = node.next.take();
        node.next = turned;
        turned = Some(node);
    }
    turned
}

pub fn a_node_and_its_next(list: &mut List) -> Option<(&mut u32, &mut u32)> {
    let next = list.next.as_mut()?;
    Some((&mut list.value, &mut next.value))
}

pub fn a_node_and_itself(list: &mut List) -> (&mut u32, &mut List) {
    (&mut list.value, list) //~ E0499
}

pub fn a_box_of_a_slice(mut values: Box<[u32]>) -> u32 {
    let first = &mut values[0];
    *first = 1;
    values[1]
}

pub fn a_box_of_a_trait(mut shown: Box<dyn Iterator<Item = u32>>) -> Option<u32> {
    let first = shown.next();
    shown.next().or(first)
}

pub fn a_box_in_a_box(mut boxed: Box<Box<u32>>) -> u32 {
    let inner = &mut *boxed;
    **inner = 1;
    **boxed
}

pub fn a_box_in_a_box_while_it_is_held(mut boxed: Box<Box<u32>>) -> u32 {
    let inner = &mut **boxed;
    **boxed = 2; //~ E0506
    *inner
}

pub fn a_box_lent_to_a_call(boxed: &mut Box<u32>) {
    fn both(_: &mut u32, _: &u32) {}
    both(boxed, &3);
    let seen = **boxed;
    both(boxed, &seen);
}

pub fn a_box_lent_twice_to_a_call(boxed: &mut Box<u32>) {
    fn both(_: &mut u32, _: &u32) {}
    both(boxed, boxed); //~ E0502
}

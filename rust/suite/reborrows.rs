//! Reborrows: a borrow of what a reference shows.
pub fn of_a_mutable_reference(value: &mut u32) {
    let again = &mut *value;
    *again += 1;
    *value += 1;
}

pub fn of_a_mutable_reference_while_it_is_used(value: &mut u32) {
    let again = &mut *value;
    *value += 1; //~ E0503
    *again += 1;
}

pub fn shared_of_a_mutable_reference(value: &mut u32) -> u32 {
    let shown = &*value;
    let seen = *value;
    *shown + seen
}

pub fn shared_of_a_mutable_reference_and_a_write(value: &mut u32) -> u32 {
    let shown = &*value;
    *value = 1; //~ E0506
    *shown
}

pub fn handed_out_of_the_function<'a>(value: &'a mut u32) -> &'a mut u32 {
    let again = &mut *value;
    again
}

pub fn two_levels<'a>(value: &'a mut &'a mut u32) -> &'a mut u32 {
    &mut **value
}

pub fn two_levels_through_a_short_one<'a, 'b>(value: &'a mut &'b mut u32) -> &'b mut u32 {
    let again = &mut **value;
    again //~ lifetime
}

pub fn two_levels_through_a_shared_one<'a, 'b>(value: &'a mut &'b u32) -> &'b u32 {
    &**value
}

pub fn of_a_field(pair: &mut (u32, String)) -> &mut String {
    let text = &mut pair.1;
    text
}

pub fn of_two_fields(pair: &mut (u32, String)) -> (&mut u32, &mut String) {
    (&mut pair.0, &mut pair.1)
}

pub fn of_a_field_twice(pair: &mut (u32, String)) -> (&mut u32, &mut u32) {
    let first = &mut pair.0;
    let second = &mut pair.0; //~ E0499
    (first, second)
}

pub fn implicit_at_a_call(value: &mut u32) {
    fn add(value: &mut u32) {
        *value += 1;
    }
    add(value);
    add(value);
}

pub fn implicit_at_an_assignment(value: &mut u32) {
    let again: &mut u32 = value;
    *again += 1;
    *value += 1;
}

pub fn the_variable_is_assigned_after_a_reborrow<'a>(
    mut value: &'a mut u32,
    other: &'a mut u32,
) -> (&'a mut u32, &'a mut u32) {
    let again = &mut *value;
    value = other;
    (again, value)
}

pub fn the_variable_is_borrowed_itself<'a>(mut value: &'a mut u32, other: &'a mut u32) -> u32 {
    let again = &mut value;
    value = other; //~ E0506
    **again
}

pub fn the_local_ends_but_not_what_it_shows<'a>(value: &'a u32) -> &'a u32 {
    let shown = {
        let local = value;
        &*local
    };
    shown
}

pub fn the_local_ends_but_not_what_it_changes<'a>(value: &'a mut u32) -> &'a mut u32 {
    let shown = {
        let local = value;
        &mut *local
    };
    shown
}

pub struct Node {
    value: u32,
    next: Option<Box<Node>>,
}

pub fn the_last_node(mut node: &mut Node) -> &mut u32 {
    while let Some(ref mut next) = node.next {
        node = next;
    }
    &mut node.value
}

pub fn the_last_node_by_a_question(mut node: &mut Node) -> &mut u32 {
    while node.next.is_some() {
        node = node.next.as_mut().unwrap();
    }
    &mut node.value
}

pub fn the_nodes_counted(mut node: &Node) -> u32 {
    let mut count = 0;
    while let Some(next) = &node.next {
        node = next;
        count += 1;
    }
    count + node.value
}

pub fn a_place_to_append(mut place: &mut Option<Box<Node>>) -> &mut Option<Box<Node>> {
    while let Some(node) = place {
        place = &mut node.next;
    }
    place
}

pub fn a_chain_of_three(value: &mut u32) -> u32 {
    let first = &mut *value;
    let second = &mut *first;
    let third = &mut *second;
    *third += 1;
    *second += 1;
    *first += 1;
    *value
}

pub fn a_chain_of_three_out_of_order(value: &mut u32) -> u32 {
    let first = &mut *value;
    let second = &mut *first;
    let third = &mut *second;
    *first += 1; //~ E0503
    *third += 1;
    *value
}

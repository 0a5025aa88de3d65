//! Matches with guards.
pub enum Shape {
    Dot,
    Line(u32),
    Box(u32, u32),
    Named(String),
}

pub fn a_guard_that_looks(shape: &Shape) -> u32 {
    match shape {
        Shape::Line(length) if *length > 3 => 1,
        Shape::Box(width, height) if width == height => 2,
        _ => 0,
    }
}

pub fn a_guard_that_looks_at_what_is_bound_mutably(shape: &mut Shape) {
    match shape {
        Shape::Line(length) if *length > 3 => *length = 3,
        Shape::Box(width, height) if width == height => std::mem::swap(width, height),
        _ => {}
    }
}

/// E0510: the guard changes what is matched.
pub fn a_guard_that_assigns_what_is_matched(mut shape: Shape) -> u32 {
    match shape {
        Shape::Dot => 0,
        _ if {
            shape = Shape::Dot; //~ E0510
            false
        } =>
        {
            1
        }
        Shape::Line(_) => 2,
        _ => 3,
    }
}

pub fn a_guard_that_borrows_what_is_matched(mut shape: Shape) -> u32 {
    fn change(shape: &mut Shape) -> bool {
        *shape = Shape::Dot;
        false
    }
    match shape {
        Shape::Dot => 0,
        _ if change(&mut shape) => 1, //~ E0510
        Shape::Line(_) => 2,
        _ => 3,
    }
}

pub fn an_arm_that_changes_what_is_matched(mut shape: Shape) -> Shape {
    match shape {
        Shape::Dot => shape = Shape::Line(1),
        Shape::Line(_) => shape = Shape::Dot,
        _ => {}
    }
    shape
}

pub fn an_arm_that_changes_what_it_shows(mut shape: Shape) -> usize {
    match &shape {
        Shape::Named(name) => {
            shape = Shape::Dot; //~ E0506
            name.len()
        }
        _ => 0,
    }
}

pub fn an_arm_that_changes_after_it_has_looked(mut shape: Shape) -> usize {
    match &shape {
        Shape::Named(name) => {
            let count = name.len();
            shape = Shape::Dot;
            drop(shape);
            count
        }
        _ => 0,
    }
}

pub fn a_guard_with_a_shared_binding(name: &Option<String>) -> Option<&String> {
    match name {
        Some(it) if it.is_empty() => None,
        Some(it) => Some(it),
        None => None,
    }
}

pub fn a_guard_with_a_moved_binding(name: Option<String>) -> String {
    match name {
        Some(it) if it.is_empty() => it,
        Some(it) => it,
        None => String::new(),
    }
}

pub fn a_guard_that_changes_something_else(shape: &Shape, count: &mut u32) -> u32 {
    match shape {
        Shape::Dot => 0,
        _ if {
            *count += 1;
            *count > 3
        } =>
        {
            1
        }
        _ => 2,
    }
}

pub fn a_guard_that_changes_what_is_borrowed(shape: &Shape, count: &mut u32) -> u32 {
    let shown = &*count;
    match shape {
        _ if {
            *count += 1; //~ E0506
            true
        } =>
        {
            *shown
        }
        _ => 2,
    }
}

pub fn an_integer_that_the_guard_assigns(mut value: u32) -> u32 {
    match value {
        1 => 1,
        _ if {
            value = 2; //~ E0510
            true
        } =>
        {
            value
        }
        _ => 0,
    }
}

pub fn a_let_in_a_condition(shape: &mut Option<u32>) {
    if let Some(it) = shape {
        *it += 1;
    } else {
        *shape = Some(1);
    }
}

pub fn a_guard_after_a_mutable_question(values: &mut Vec<u32>) -> u32 {
    match values.first_mut() {
        Some(it) if *it > 3 => *it,
        Some(it) => {
            *it = 3;
            3
        }
        None => {
            values.push(3);
            3
        }
    }
}

pub fn a_guard_that_asks_the_vector(values: &mut Vec<u32>) -> u32 {
    match values.first_mut() {
        Some(it) if values.len() > 3 => *it, //~ E0502
        _ => 0,
    }
}

pub fn an_if_let_guard_by_hand(values: &[Option<u32>]) -> u32 {
    match values {
        [Some(first), ..] if *first > 3 => *first,
        [_, Some(second)] => *second,
        _ => 0,
    }
}

pub fn a_guard_that_changes_where_it_looked(values: [u32; 3], at: usize) -> u32 {
    let mut index = at;
    match values[index] {
        1 => 1,
        _ if {
            index = 0;
            false
        } =>
        {
            2
        }
        _ => 3,
    }
}

pub fn a_guard_that_changes_the_reference_it_looked_through<'a>(
    mut value: &'a u32,
    other: &'a u32,
) -> u32 {
    match *value {
        1 => 1,
        _ if {
            value = other; //~ E0510
            false
        } =>
        {
            2
        }
        _ => 3,
    }
}

pub fn a_guard_that_changes_the_box_it_looked_into(mut value: Box<Option<u32>>) -> u32 {
    match *value {
        None => 1,
        _ if {
            value = Box::new(None); //~ E0510
            false
        } =>
        {
            2
        }
        Some(it) => it,
    }
}

pub fn a_guard_that_changes_a_field(mut value: (Option<u32>, u32)) -> u32 {
    match value {
        (None, _) => 1,
        _ if {
            value.0 = None; //~ E0510
            false
        } =>
        {
            2
        }
        (Some(it), _) => it,
    }
}

pub fn a_guard_that_changes_another_field(mut value: (Option<u32>, u32)) -> u32 {
    match value.0 {
        None => 1,
        _ if {
            value.1 = 2;
            false
        } =>
        {
            2
        }
        Some(it) => it + value.1,
    }
}

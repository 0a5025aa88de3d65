//! Structs: fields, fields of fields, and updates.
#[derive(Clone, Default)]
pub struct Point {
    x: u32,
    y: u32,
}

#[derive(Default)]
pub struct Line {
    from: Point,
    to: Point,
    name: String,
}

pub fn fields_of_fields(line: &mut Line) {
    let x = &mut line.from.x;
    let y = &mut line.from.y;
    let to = &mut line.to;
    std::mem::swap(x, y);
    to.x = *x;
}

pub fn a_field_and_a_field_of_it(line: &mut Line) -> u32 {
    let from = &mut line.from;
    let x = &mut line.from.x; //~ E0499
    from.y = 1;
    *x
}

pub fn a_field_of_it_and_then_the_field(line: &mut Line) -> u32 {
    let x = &mut line.from.x;
    *x += 1;
    let from = &mut line.from;
    from.y = 1;
    from.x
}

pub fn a_field_is_written_while_its_parent_is_shown(line: &mut Line) -> u32 {
    let from = &line.from;
    line.from.x = 1; //~ E0506
    from.x
}

pub fn a_sibling_is_written_while_a_field_is_shown(line: &mut Line) -> u32 {
    let from = &line.from;
    line.to = from.clone();
    line.name.clear();
    from.x
}

pub fn a_method_of_the_whole_while_a_field_is_shown(line: &mut Line) -> usize {
    fn reset(line: &mut Line) {
        line.name.clear();
    }
    let name = &line.name;
    reset(line); //~ E0502
    name.len()
}

pub fn a_method_of_a_field_while_another_is_shown(line: &mut Line) -> usize {
    let from = &line.from;
    line.name.push('a');
    line.name.len() + from.x as usize
}

pub fn updated_from_another(line: Line, name: String) -> Line {
    Line { name, ..line }
}

pub fn taken_apart(line: Line) -> u32 {
    let Line { from, to, .. } = line;
    from.x + to.y
}

pub fn taken_apart_by_reference(line: &mut Line) -> u32 {
    let Line { from, to, name } = line;
    std::mem::swap(from, to);
    name.clear();
    line.from.x
}

pub fn taken_apart_by_reference_while_the_whole_is_used(line: &mut Line) -> u32 {
    let Line { from, .. } = line;
    let seen = line.from.x; //~ E0503
    from.x = 1;
    seen
}

pub fn a_tuple_of_tuples(pair: &mut ((u32, u32), u32)) -> u32 {
    let left = &mut (pair.0).0;
    let right = &mut (pair.0).1;
    let last = &mut pair.1;
    *left + *right + *last
}

pub fn shown_by_two_structs() -> u32 {
    struct Shows<'a> {
        point: &'a Point,
    }
    let point = Point { x: 1, y: 2 };
    let first = Shows { point: &point };
    let second = Shows { point: first.point };
    drop(first);
    second.point.x
}

pub fn a_struct_that_is_copied() -> u32 {
    #[derive(Clone, Copy)]
    struct Shows<'a> {
        point: &'a Point,
    }
    let mut point = Point { x: 1, y: 2 };
    let first = Shows { point: &point };
    let second = first;
    point.x = 2; //~ E0506
    second.point.x
}

pub fn a_struct_that_is_copied_and_forgotten() -> u32 {
    #[derive(Clone, Copy)]
    struct Shows<'a> {
        point: &'a Point,
    }
    let mut point = Point { x: 1, y: 2 };
    let first = Shows { point: &point };
    let second = first;
    let seen = second.point.x;
    point.x = 2;
    seen
}

pub fn a_field_that_is_assigned_does_not_end_the_loan<'a>(
    pair: &mut (&'a u32, u32),
    other: &'a u32,
) -> u32 {
    let mut value = 1;
    let mut shows = (&value, 0);
    shows.0 = other;
    value = 2; //~ E0506
    *shows.0 + value
}

pub fn a_field_that_is_not_assigned_keeps_its_loan<'a>(other: &'a u32) -> u32 {
    let mut value = 1;
    let mut shows = (&value, other);
    shows.1 = other;
    value = 2; //~ E0506
    *shows.0
}

//! E0505: a value is moved while it is borrowed.
fn take<T>(_: T) {}

pub fn moved_while_it_is_shown() -> usize {
    let text = String::from("a");
    let shown = &text;
    take(text); //~ E0505
    shown.len()
}

pub fn moved_after_it_was_shown() -> usize {
    let text = String::from("a");
    let shown = &text;
    let count = shown.len();
    take(text);
    count
}

pub fn moved_into_another_local() -> usize {
    let text = String::from("a");
    let shown = &text;
    let moved = text; //~ E0505
    shown.len() + moved.len()
}

pub fn moved_on_a_path_that_does_not_look(flag: bool) -> usize {
    let text = String::from("a");
    let shown = &text;
    if flag {
        take(text);
        0
    } else {
        shown.len()
    }
}

pub fn moved_into_a_closure() -> usize {
    let text = String::from("a");
    let shown = &text;
    let count = move || text.len(); //~ E0505
    shown.len() + count()
}

pub fn a_box_moved_while_it_is_shown() -> u32 {
    let boxed = Box::new(1);
    let shown = &*boxed;
    take(boxed); //~ E0505
    *shown
}

pub fn a_vector_moved_while_it_is_iterated() {
    let values = vec![String::new()];
    for it in &values {
        take(it.len());
    }
    take(values);
}

pub fn a_vector_moved_while_an_element_is_kept() {
    let values = vec![String::new()];
    let mut kept = None;
    for it in &values {
        kept = Some(it);
    }
    take(values); //~ E0505
    take(kept);
}

pub struct Holder<'a> {
    held: &'a String,
}

pub fn moved_while_a_struct_shows_it() -> usize {
    let text = String::from("a");
    let holder = Holder { held: &text };
    take(text); //~ E0505
    holder.held.len()
}

pub fn the_struct_is_moved_instead() -> usize {
    let text = String::from("a");
    let holder = Holder { held: &text };
    take(holder);
    take(text);
    0
}

pub fn a_field_moved_while_the_other_is_shown() -> usize {
    let pair = (String::new(), String::new());
    let shown = &pair.0;
    take(pair.1);
    shown.len()
}

pub fn a_field_moved_while_it_is_shown() -> usize {
    let pair = (String::new(), String::new());
    let shown = &pair.1;
    take(pair.1); //~ E0505
    shown.len()
}

pub fn the_whole_moved_while_a_field_is_shown() -> usize {
    let pair = (String::new(), String::new());
    let shown = &pair.1;
    take(pair); //~ E0505
    shown.len()
}

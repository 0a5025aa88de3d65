//! E0716: a temporary is dropped while it is borrowed.
pub fn make() -> String {
    String::from(" a ")
}

pub fn a_slice_of_a_temporary() -> usize {
    let word = make().trim(); //~ E0716
    word.len()
}

pub fn a_slice_of_a_local() -> usize {
    let text = make();
    let word = text.trim();
    word.len()
}

pub fn used_within_the_statement() -> usize {
    make().trim().len()
}

pub fn a_temporary_that_is_extended() -> usize {
    let text = &make();
    text.len()
}

pub fn a_temporary_in_a_struct_that_is_extended() -> usize {
    struct Holder<'a> {
        held: &'a String,
    }
    let holder = Holder { held: &make() };
    holder.held.len()
}

pub fn a_temporary_in_a_call() -> usize {
    fn same(text: &String) -> &String {
        text
    }
    let text = same(&make()); //~ E0716
    text.len()
}

pub fn a_temporary_in_an_option() -> usize {
    let text = Some(&make());
    text.map_or(0, |it| it.len())
}

pub fn a_temporary_through_a_method() -> usize {
    let mut kept = vec![];
    kept.push(&make()); //~ E0716
    kept.len()
}

pub fn a_promoted_constant() -> u32 {
    let mut kept = vec![];
    kept.push(&1);
    *kept[0]
}

pub fn a_mutable_temporary_in_a_call() -> u32 {
    fn same(value: &mut u32) -> &mut u32 {
        value
    }
    let value = same(&mut 1); //~ E0716
    *value
}

pub fn a_lock_that_is_matched(lock: &std::sync::Mutex<Vec<u32>>) -> u32 {
    match lock.lock().unwrap().first() {
        Some(it) => *it,
        None => 0,
    }
}

pub fn a_lock_that_is_kept(lock: &std::sync::Mutex<Vec<u32>>) -> u32 {
    let first = lock.lock().unwrap().first(); //~ E0716
    first.copied().unwrap_or(0)
}

pub fn assigned_to_a_longer_local() -> usize {
    let outer = String::new();
    let mut shown: &str = &outer;
    if outer.is_empty() {
        shown = &make(); //~ E0716
    }
    shown.len()
}

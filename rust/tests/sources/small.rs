//! Small bodies, one for each thing that the writer does in its own way.

pub struct Pair<'a> {
    pub left: &'a str,
    pub right: &'a str,
}

/// A borrow of an element that is in use while the vector is changed.
pub fn conflict(numbers: &mut Vec<i32>) -> i32 {
    let first = &numbers[0];
    numbers.push(1);
    *first
}

/// A two-phase borrow: the length is read while the vector is reserved.
pub fn two_phase(numbers: &mut Vec<usize>) {
    numbers.push(numbers.len());
}

/// A struct is made natively, and a field of it is read.
pub fn pair<'a>(left: &'a str, right: &'a str) -> &'a str {
    let both = Pair { left, right };
    both.right
}

/// An enum with a guard, and a branch to several blocks.
pub fn guard(value: &mut Option<i32>) -> i32 {
    match value {
        Some(number) if *number > 3 => *number,
        Some(_) => 0,
        None => 1,
    }
}

/// A lifetime that nothing promises.
pub fn lifetime<'a, 'b>(_one: &'a str, other: &'b str) -> &'a str {
    other
}

/// A guard whose drop uses what it borrows.
pub fn dropped() -> usize {
    let mut names = vec![String::new()];
    let rest = names.drain(..);
    let count = names.len();
    drop(rest);
    count
}

/// The storage of a local ends while it is borrowed.
pub fn storage() -> i32 {
    let kept;
    {
        let number = 3;
        kept = &number;
    }
    *kept
}

/// A closure that captures by reference, and is called once.
pub fn closure(numbers: &[i32], more: i32) -> i32 {
    let add = |number: &i32| *number + more;
    add(&numbers[0])
}

/// A closure whose result has a lifetime of its creator that it does not capture. It is written as a function.
pub fn requires<'a, 'b>(kept: &'a str, _other: &'b str) -> &'b str {
    let give = || -> &'b str { kept };
    give()
}

/// A closure that assigns one captured variable to another, and so requires that the one lives as long as the other.
pub fn assigns<'a, 'b>(kept: &'a str, mut slot: &'b str) -> &'b str {
    let mut set = || slot = kept;
    set();
    slot
}

/// A closure that is passed on, and so is written as a function.
pub fn passed_on(numbers: &[i32], more: i32) -> Vec<i32> {
    numbers.iter().map(|number| *number + more).collect()
}

/// An array and its elements by constant indices.
pub fn elements() -> i32 {
    let mut row = [1, 2, 3];
    let [first, second, _] = &mut row;
    *first += 1;
    *second += *first;
    row.len() as i32
}

/// A list that owns itself.
pub struct List {
    pub head: i32,
    pub rest: Option<Box<List>>,
}

pub fn last(mut list: &mut List) -> &mut i32 {
    while let Some(ref mut rest) = list.rest {
        list = rest;
    }
    &mut list.head
}

pub static WORDS: [&str; 2] = ["one", "two"];

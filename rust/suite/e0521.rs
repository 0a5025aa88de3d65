//! E0521: borrowed data escapes outside of the function.
use std::cell::RefCell;

fn forever(_: &'static u32) {}

pub fn an_argument_that_has_to_be_static(value: &u32) {
    forever(value); //~ E0521
}

pub fn an_argument_that_is_static(value: &'static u32) {
    forever(value);
}

pub fn a_named_argument_that_has_to_be_static<'a>(value: &'a u32) {
    forever(value); //~ E0521
}

pub fn to_a_thread(values: &Vec<u32>) {
    std::thread::spawn(move || values.len()); //~ E0521
}

pub fn owned_by_a_thread(values: Vec<u32>) {
    std::thread::spawn(move || values.len());
}

pub fn to_a_scoped_thread(values: &Vec<u32>) {
    std::thread::scope(|scope| {
        scope.spawn(|| values.len());
    });
}

pub fn out_of_a_closure(values: &[u32]) -> usize {
    let mut kept: Vec<&u32> = vec![];
    let mut keep = |it| kept.push(it);
    for it in values {
        keep(it);
    }
    kept.len()
}

pub fn out_of_a_closure_with_a_type() -> usize {
    let mut kept: Vec<&u32> = vec![];
    let mut keep = |it: &u32| kept.push(it); //~ E0521
    keep(&1);
    kept.len()
}

pub fn into_a_cell<'a>(cell: &RefCell<Vec<&'a u32>>, value: &'a u32) {
    cell.borrow_mut().push(value);
}

pub fn into_a_cell_of_others(cell: &RefCell<Vec<&u32>>, value: &u32) {
    cell.borrow_mut().push(value); //~ lifetime
}

pub struct Queue<'a> {
    waiting: Vec<&'a str>,
}

impl<'a> Queue<'a> {
    pub fn adds_what_it_may(&mut self, name: &'a str) {
        self.waiting.push(name);
    }

    pub fn adds_what_it_may_not(&mut self, name: &str) {
        self.waiting.push(name); //~ E0621
    }

    pub fn shows_itself_for_ever(&self) {
        fn needs(_: &'static Queue<'static>) {}
        needs(self); //~ E0521
    }
}

pub fn a_boxed_trait_object(value: &u32) -> usize {
    fn needs(_: Box<dyn Fn() -> u32>) -> usize {
        0
    }
    needs(Box::new(move || *value)) //~ lifetime
}

pub fn a_boxed_trait_object_with_a_region(value: &u32) -> usize {
    fn needs<'a>(_: Box<dyn Fn() -> u32 + 'a>) -> usize {
        0
    }
    needs(Box::new(move || *value))
}

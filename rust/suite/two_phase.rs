//! Two-phase borrows: the mutable borrow of a receiver begins when the call does, and shows until then.
pub struct Counter {
    count: usize,
    names: Vec<String>,
}

impl Counter {
    fn add(&mut self, by: usize) -> usize {
        self.count += by;
        self.count
    }

    fn count(&self) -> usize {
        self.count
    }

    pub fn added_by_its_own_count(&mut self) {
        self.add(self.count());
    }

    pub fn added_twice_in_one_line(&mut self) {
        self.add(self.add(1)); //~ E0499
    }

    pub fn named_by_its_own_length(&mut self) {
        self.names.push(self.names.len().to_string());
    }

    pub fn named_by_another_field(&mut self) {
        self.names.push(self.count.to_string());
    }
}

pub fn pushes_its_length(values: &mut Vec<usize>) {
    values.push(values.len());
}

pub fn pushes_its_length_by_hand(values: &mut Vec<usize>) {
    let held = &mut *values;
    Vec::push(held, values.len()); //~ E0502
}

pub fn pushes_by_a_path(values: &mut Vec<usize>) {
    Vec::push(values, values.len());
}

pub fn pushes_its_first(values: &mut Vec<usize>) {
    values.push(values[0]);
}

pub fn pushes_what_it_pops(values: &mut Vec<usize>) {
    values.push(values.pop().unwrap_or(0)); //~ E0499
}

pub fn pushes_and_shows(values: &mut Vec<usize>) -> usize {
    let shown = &values[0];
    values.push(*shown);
    values.len()
}

pub fn pushes_while_it_shows(values: &mut Vec<usize>) -> usize {
    let shown = &values[0];
    values.push(values.len()); //~ E0502
    *shown
}

pub fn of_a_local(count: usize) -> Vec<usize> {
    let mut values = vec![count];
    values.push(values.len());
    values.insert(values.len(), values[0]);
    values
}

pub fn swaps_by_its_length(values: &mut Vec<usize>) {
    values.swap(0, values.len() - 1); //~ E0502
}

pub fn adds_to_an_element(values: &mut Vec<usize>, at: usize) {
    values[at] += values.len();
}

pub fn adds_one_element_to_another(values: &mut Vec<usize>) {
    values[0] += values[1];
}

pub fn writes_an_element_by_its_length(values: &mut Vec<usize>) {
    values[0] = values.len();
}

pub fn an_operator_on_a_string(text: &mut String) {
    *text += &text.clone();
}

pub fn an_operator_on_a_string_it_shows(text: &mut String) {
    *text += text.as_str(); //~ E0502
}

pub fn an_argument_that_changes_the_receiver(mut values: Vec<usize>) -> Vec<usize> {
    values.push({
        values.clear(); //~ E0499
        1
    });
    values
}

pub fn an_argument_that_assigns_the_receiver(mut values: Vec<usize>) -> Vec<usize> {
    values.push({
        let count = values.len();
        count + 1
    });
    values
}

pub fn through_a_box(values: &mut Box<Vec<usize>>) {
    values.push(values.len());
}

pub fn in_a_closure(values: &mut Vec<usize>) {
    let mut push = || values.push(values.len());
    push();
}

pub fn in_a_loop(values: &mut Vec<usize>) {
    for _ in 0..3 {
        values.push(values.len());
    }
}

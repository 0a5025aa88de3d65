//! Enums: variants, their fields, and what is written to them.
pub enum Tree {
    Leaf(u32),
    Node(Box<Tree>, Box<Tree>),
}

impl Tree {
    pub fn leftmost(&self) -> &u32 {
        match self {
            Tree::Leaf(value) => value,
            Tree::Node(left, _) => left.leftmost(),
        }
    }

    pub fn leftmost_to_change(&mut self) -> &mut u32 {
        match self {
            Tree::Leaf(value) => value,
            Tree::Node(left, _) => left.leftmost_to_change(),
        }
    }

    pub fn both_ends(&mut self) -> (&mut u32, Option<&mut u32>) {
        match self {
            Tree::Leaf(value) => (value, None),
            Tree::Node(left, right) => {
                (left.leftmost_to_change(), Some(right.leftmost_to_change()))
            }
        }
    }

    pub fn one_end_twice(&mut self) -> u32 {
        match self {
            Tree::Leaf(value) => *value,
            Tree::Node(left, _) => {
                let first = left.leftmost_to_change();
                let second = left.leftmost_to_change(); //~ E0499
                *first + *second
            }
        }
    }

    pub fn becomes_a_leaf_while_it_is_shown(&mut self) -> u32 {
        let value = self.leftmost();
        *self = Tree::Leaf(0); //~ E0506
        *value
    }

    pub fn becomes_a_leaf_after_it_was_shown(&mut self) -> u32 {
        let value = *self.leftmost();
        *self = Tree::Leaf(0);
        value
    }

    pub fn walks_down(&self) -> u32 {
        let mut at = self;
        loop {
            match at {
                Tree::Leaf(value) => return *value,
                Tree::Node(left, _) => at = left,
            }
        }
    }

    pub fn walks_down_to_change(&mut self) -> &mut u32 {
        let mut at = self;
        loop {
            match at {
                Tree::Leaf(value) => return value,
                Tree::Node(left, _) => at = left,
            }
        }
    }
}

pub fn a_variant_is_written(choice: &mut Option<u32>) {
    if let Some(it) = choice {
        *it += 1;
        *choice = None;
    }
}

pub fn a_variant_is_written_while_it_is_bound(choice: &mut Option<u32>) -> u32 {
    if let Some(it) = choice {
        *choice = None; //~ E0506
        return *it;
    }
    0
}

pub enum Either<'a, 'b> {
    Left(&'a u32),
    Right(&'b u32),
}

pub fn the_left_one<'a, 'b>(either: Either<'a, 'b>) -> Option<&'a u32> {
    match either {
        Either::Left(it) => Some(it),
        Either::Right(_) => None,
    }
}

pub fn any_one_as_the_left<'a, 'b>(either: Either<'a, 'b>) -> &'a u32 {
    match either {
        //~^ lifetime
        Either::Left(it) => it,
        Either::Right(it) => it,
    }
}

pub fn any_one_by_a_clause<'a, 'b: 'a>(either: Either<'a, 'b>) -> &'a u32 {
    match either {
        Either::Left(it) => it,
        Either::Right(it) => it,
    }
}

pub fn made_and_matched() -> u32 {
    let value = 1;
    let either = Either::Left(&value);
    match either {
        Either::Left(it) | Either::Right(it) => *it,
    }
}

pub fn made_and_written_under(mut value: u32) -> u32 {
    let either = Either::Right(&value);
    value = 2; //~ E0506
    match either {
        Either::Left(it) => *it,
        Either::Right(it) => *it,
    }
}

pub fn taken_out(choice: &mut Option<String>) -> Option<String> {
    let taken = choice.take();
    *choice = Some(String::new());
    taken
}

pub fn the_two_fields_of_a_variant(pair: &mut Result<(u32, u32), u32>) -> u32 {
    match pair {
        Ok((first, second)) => {
            std::mem::swap(first, second);
            *first
        }
        Err(it) => *it,
    }
}

pub fn nested_options<'a>(choice: &'a mut Option<Option<u32>>) -> Option<&'a mut u32> {
    match choice {
        Some(Some(it)) => Some(it),
        Some(inner) => {
            *inner = Some(1);
            inner.as_mut()
        }
        None => None,
    }
}

pub fn replaced_where_it_is_none(choice: &mut Option<u32>) -> &mut u32 {
    if choice.is_none() {
        *choice = Some(1);
    }
    choice.as_mut().unwrap()
}

pub fn the_discriminant_while_a_field_is_changed(choice: &mut Option<u32>) -> bool {
    if let Some(it) = choice {
        let some = choice.is_some(); //~ E0502
        *it = 1;
        return some;
    }
    false
}

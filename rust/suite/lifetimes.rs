//! Lifetime errors: a region of the signature has to outlive another one, and nothing says so.
pub fn returns_the_other<'a, 'b>(first: &'a u32, second: &'b u32) -> &'a u32 {
    drop(*first);
    second //~ lifetime
}

pub fn returns_the_other_by_a_clause<'a, 'b: 'a>(first: &'a u32, second: &'b u32) -> &'a u32 {
    drop(*first);
    second
}

pub fn the_clause_the_other_way_round<'a: 'b, 'b>(first: &'a u32, second: &'b u32) -> &'a u32 {
    drop(*first);
    second //~ lifetime
}

pub fn through_three_regions<'a, 'b, 'c>(value: &'c u32) -> &'a u32
where
    'c: 'b,
    'b: 'a,
{
    value
}

pub fn through_three_regions_with_a_gap<'a, 'b, 'c>(value: &'c u32) -> &'a u32
where
    'c: 'b,
{
    value //~ lifetime
}

pub fn an_elided_result(_: &u32, _: &u32) -> u32 {
    0
}

pub struct Parser<'a> {
    text: &'a str,
}

impl<'a> Parser<'a> {
    pub fn rest(&self) -> &'a str {
        self.text
    }

    pub fn rest_of_self(&self) -> &str {
        self.text
    }

    pub fn replaced<'b>(&mut self, text: &'b str) -> &'a str {
        let rest = self.text;
        self.text = text; //~ lifetime
        rest
    }

    pub fn replaced_by_a_clause<'b: 'a>(&mut self, text: &'b str) -> &'a str {
        let rest = self.text;
        self.text = text;
        rest
    }

    pub fn shows_self_for_its_text(&self) -> &'a Parser<'a> {
        self //~ lifetime
    }

    pub fn both(&self, other: &Parser<'a>) -> &'a str {
        if self.text.is_empty() {
            other.text
        } else {
            self.text
        }
    }
}

pub fn a_mutable_reference_is_invariant<'a, 'b: 'a>(kept: &mut &'a u32, value: &mut &'b u32) {
    std::mem::swap(kept, value); //~ lifetime
}

pub fn a_mutable_reference_of_one_region<'a>(kept: &mut &'a u32, value: &mut &'a u32) {
    std::mem::swap(kept, value);
}

pub fn a_reborrow_through_a_shared_one<'a, 'b>(value: &'a &'b mut u32) -> &'a u32 {
    &**value
}

pub fn a_reborrow_through_a_mutable_one<'a, 'b>(value: &'a mut &'b mut u32) -> &'b mut u32 {
    &mut **value //~ lifetime
}

pub fn the_long_one_through_a_shared_one<'a, 'b>(value: &'a &'b u32) -> &'b u32 {
    &**value
}

/// The type of the parameter implies that 'b outlives 'a.
pub fn implied_by_a_parameter<'a, 'b>(_: &'a &'b u32, value: &'b u32) -> &'a u32 {
    value
}

pub fn implied_the_other_way<'a, 'b>(_: &'a &'b u32, value: &'a u32) -> &'b u32 {
    value //~ lifetime
}

pub fn a_call_with_a_clause<'a, 'b>(first: &'a u32, second: &'b u32) {
    fn needs<'x: 'y, 'y>(_: &'x u32, _: &'y u32) {}
    needs(first, second);
}

pub fn a_call_with_a_clause_and_names<'a, 'b>(first: &'a u32, second: &'b u32) {
    fn needs<'x, 'y>(_: &'x u32, _: &'y u32)
    where
        'x: 'x,
        'x: 'y,
        'y: 'y,
    {
    }
    needs::<'a, 'b>(first, second); //~ lifetime
}

pub fn a_static_result<'a>(value: &'a u32) -> &'static u32 {
    value //~ lifetime
}

pub fn two_errors<'a, 'b>(first: &'a u32, second: &'b u32) -> (&'b u32, &'a u32) {
    (first, second) //~ lifetime
}

pub fn an_iterator_of_the_text<'a>(text: &'a str) -> impl Iterator<Item = &'a str> {
    text.split(' ')
}

pub fn a_boxed_iterator<'a>(values: &'a [u32]) -> Box<dyn Iterator<Item = u32> + 'a> {
    Box::new(values.iter().map(|it| it + 1))
}

pub fn a_boxed_iterator_without_a_region(values: &[u32]) -> Box<dyn Iterator<Item = u32>> {
    Box::new(values.iter().map(|it| it + 1)) //~ lifetime
}

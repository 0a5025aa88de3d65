//! Traits, generic functions and their regions.
pub trait Source {
    fn first(&self) -> &u32;
    fn first_to_change(&mut self) -> &mut u32;
}

pub fn asked_through_a_trait<S: Source>(source: &S) -> u32 {
    *source.first()
}

pub fn asked_twice_through_a_trait<S: Source>(source: &mut S) -> u32 {
    let first = source.first_to_change();
    let second = source.first_to_change(); //~ E0499
    *first + *second
}

pub fn asked_in_turn_through_a_trait<S: Source>(source: &mut S) -> u32 {
    *source.first_to_change() += 1;
    *source.first()
}

pub fn asked_through_an_object(source: &mut dyn Source) -> u32 {
    let first = source.first();
    let seen = *first;
    *source.first_to_change() = seen + 1;
    seen
}

pub fn asked_through_an_object_while_it_is_shown(source: &mut dyn Source) -> u32 {
    let first = source.first();
    *source.first_to_change() = 1; //~ E0502
    *first
}

/// A trait whose parameter is a region.
pub trait Reads<'a> {
    fn read(&self, text: &'a str) -> &'a str;
}

pub fn read_by_a_region<'a, R: Reads<'a>>(reader: &R, text: &'a str) -> &'a str {
    reader.read(text)
}

pub fn read_of_a_local_by_a_region<'a, R: Reads<'a>>(reader: &R) -> usize {
    let text = String::from("a");
    reader.read(&text).len() //~ E0597
}

pub fn read_of_a_local_by_any_region<R: for<'a> Reads<'a>>(reader: &R) -> usize {
    let text = String::from("a");
    reader.read(&text).len()
}

/// A trait whose item lends from the value itself.
pub trait Lending {
    type Item<'a>
    where
        Self: 'a;
    fn next(&mut self) -> Option<Self::Item<'_>>;
}

pub fn lent_in_turn<L: Lending>(lending: &mut L) -> u32 {
    let mut count = 0;
    while let Some(_) = lending.next() {
        count += 1;
    }
    count
}

pub fn lent_twice<L: Lending>(lending: &mut L) -> u32 {
    let first = lending.next();
    let second = lending.next(); //~ E0499
    drop(first);
    drop(second);
    0
}

pub fn the_same_region_for_two<'a, T: ?Sized>(first: &'a T, second: &'a T, flag: bool) -> &'a T {
    if flag {
        first
    } else {
        second
    }
}

pub fn locals_of_one_region() -> u32 {
    let first = 1;
    let shown;
    {
        let second = 2;
        shown = *the_same_region_for_two(&first, &second, true);
    }
    shown
}

pub fn locals_of_one_region_and_a_longer_use() -> u32 {
    let first = 1;
    let shown;
    {
        let second = 2;
        shown = the_same_region_for_two(&first, &second, true); //~ E0597
    }
    *shown
}

pub struct Wrapper<'a, T> {
    inner: &'a mut T,
}

impl<'a, T> Wrapper<'a, T> {
    pub fn lent(&mut self) -> &mut T {
        self.inner
    }

    pub fn given(self) -> &'a mut T {
        self.inner
    }

    pub fn lent_for_the_long_region(&mut self) -> &'a mut T {
        self.inner //~ lifetime
    }

    pub fn shown(&self) -> &T {
        self.inner
    }

    pub fn shown_for_the_long_region(&self) -> &'a T {
        self.inner //~ lifetime
    }
}

impl<'a> IntoIterator for Wrapper<'a, Vec<u32>> {
    type Item = &'a mut u32;
    type IntoIter = std::slice::IterMut<'a, u32>;

    fn into_iter(self) -> Self::IntoIter {
        self.inner.iter_mut()
    }
}

pub fn a_wrapper_over_a_local() -> u32 {
    let mut value = 1;
    let mut wrapper = Wrapper { inner: &mut value };
    *wrapper.lent() += 1;
    *wrapper.given() += 1;
    value
}

pub fn a_wrapper_while_its_local_is_read() -> u32 {
    let mut value = 1;
    let mut wrapper = Wrapper { inner: &mut value };
    let seen = value; //~ E0503
    *wrapper.lent() += 1;
    seen
}

/// The self-borrow: one region for the value and for what it shows.
pub fn borrowed_for_its_own_region<'a>(holder: &'a mut Holder<'a>) -> u32 {
    holder.kept = Some(&holder.value);
    holder.value
}

pub struct Holder<'a> {
    value: u32,
    kept: Option<&'a u32>,
}

pub fn borrowed_for_its_own_region_and_used() -> u32 {
    let mut holder = Holder {
        value: 1,
        kept: None,
    };
    borrowed_for_its_own_region(&mut holder);
    holder.value //~ E0503
}

pub fn compared<T: PartialOrd>(values: &[T]) -> Option<&T> {
    let mut greatest = values.first()?;
    for it in values {
        if it > greatest {
            greatest = it;
        }
    }
    Some(greatest)
}

pub fn collected<'a>(text: &'a str) -> Vec<&'a str> {
    text.split(',')
        .map(|it| it.trim())
        .filter(|it| !it.is_empty())
        .collect()
}

pub fn collected_of_a_local() -> Vec<&'static str> {
    let text = String::from("a,b");
    text.split(',').collect() //~ E0515
}

//! Regions of calls: `where` clauses, bounds for all regions, and results that carry several.
pub struct Two<'a, 'b> {
    first: &'a u32,
    second: &'b u32,
}

pub fn two_of<'a, 'b>(first: &'a u32, second: &'b u32) -> Two<'a, 'b> {
    Two { first, second }
}

pub fn the_first_of_two_outlives_the_second(outer: &u32) -> &u32 {
    let value = 1;
    let two = two_of(outer, &value);
    two.first
}

pub fn the_second_of_two_does_not(outer: &u32) -> &u32 {
    let value = 1;
    let two = two_of(outer, &value);
    two.second //~ E0515
}

pub fn one_region_for_both<'a>(first: &'a u32, second: &'a u32) -> Two<'a, 'a> {
    Two { first, second }
}

pub fn one_region_joins_both(outer: &u32) -> &u32 {
    let value = 1;
    let two = one_region_for_both(outer, &value);
    two.first //~ E0515
}

pub fn written_under_the_first_of_two() -> u32 {
    let (mut value, other) = (1, 2);
    let two = two_of(&value, &other);
    value = 3; //~ E0506
    *two.first
}

pub fn written_under_the_part_that_is_not_used() -> u32 {
    let (mut value, other) = (1, 2);
    let second = two_of(&value, &other).second;
    value = 3;
    *second + value
}

pub fn called_for_all_regions(call: impl for<'a> Fn(&'a u32) -> &'a u32) -> u32 {
    let value = 1;
    *call(&value)
}

pub fn called_for_one_region<'a>(call: impl Fn(&'a u32) -> &'a u32) -> u32 {
    let value = 1;
    *call(&value) //~ E0597
}

pub fn a_pointer_to_a_function(value: &u32) -> &u32 {
    fn same(value: &u32) -> &u32 {
        value
    }
    let call: fn(&u32) -> &u32 = same;
    call(value)
}

pub fn a_result_that_carries_the_argument(text: &mut String) -> Result<&mut String, u32> {
    if text.is_empty() {
        Err(1)
    } else {
        Ok(text)
    }
}

pub fn the_error_does_not_carry_it(text: &mut String) -> usize {
    match a_result_that_carries_the_argument(text) {
        Ok(it) => it.len(),
        Err(_) => {
            text.push('a');
            text.len()
        }
    }
}

pub fn the_value_carries_it(text: &mut String) -> usize {
    match a_result_that_carries_the_argument(text) {
        Ok(it) => {
            text.push('a'); //~ E0499
            it.len()
        }
        Err(_) => 0,
    }
}

pub fn a_clause_of_an_inner_function<'a, 'b>(first: &'a mut &'b u32, second: &'b u32) {
    fn set<'x, 'y: 'x>(place: &mut &'x u32, value: &'y u32) {
        *place = value;
    }
    set(first, second);
}

pub fn a_clause_that_fails<'a, 'b>(first: &mut &'a u32, second: &'b u32) {
    fn set<'x, 'y: 'x>(place: &mut &'x u32, value: &'y u32) {
        *place = value;
    }
    set(first, second); //~ lifetime
}

pub fn many_regions<'a, 'b, 'c, 'd>(
    first: &'a u32,
    second: &'b u32,
    third: &'c u32,
    _: &'d u32,
) -> (&'a u32, &'b u32, &'c u32) {
    (first, second, third)
}

pub fn many_regions_of_locals(outer: &u32) -> &u32 {
    let (one, two, three) = (1, 2, 3);
    let (kept, other, _) = many_regions(outer, &one, &two, &three);
    drop(*other);
    kept
}

pub fn regions_that_go_round<'a>(value: &'a mut u32, other: &'a mut u32) -> &'a mut u32 {
    let mut first = value;
    let mut second = other;
    for _ in 0..3 {
        let kept = first;
        first = second;
        second = kept;
    }
    *second += 1;
    first
}

pub fn a_recursive_call<'a>(values: &'a [u32], at: usize) -> &'a u32 {
    if values[at] == 0 || at == 0 {
        &values[at]
    } else {
        a_recursive_call(values, at - 1)
    }
}

pub fn a_recursive_call_that_lends(values: &mut Vec<u32>, depth: u32) -> &mut u32 {
    if depth == 0 {
        return &mut values[0];
    }
    values.push(depth);
    a_recursive_call_that_lends(values, depth - 1)
}

pub fn a_type_annotation<'a>(value: &'a u32) -> u32 {
    let shown: &'a u32 = value;
    let shorter: &u32 = shown;
    *shorter
}

pub fn a_type_annotation_that_fails<'a, 'b>(value: &'b u32, _: &'a u32) -> u32 {
    let shown: &'a u32 = value; //~ lifetime
    *shown
}

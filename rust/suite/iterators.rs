//! Iterators, maps and strings of the standard library.
use std::collections::{BTreeMap, HashMap, VecDeque};

pub fn counted_words(text: &str) -> HashMap<&str, usize> {
    let mut counts = HashMap::new();
    for word in text.split(' ') {
        *counts.entry(word).or_insert(0) += 1;
    }
    counts
}

pub fn counted_words_of_a_local() -> HashMap<&'static str, usize> {
    let text = String::from("a b");
    let mut counts = HashMap::new();
    for word in text.split(' ') {
        *counts.entry(word).or_insert(0) += 1;
    }
    counts //~ E0515
}

pub fn an_entry_that_is_kept(map: &mut HashMap<u32, u32>) -> u32 {
    let entry = map.entry(1).or_insert(2);
    map.insert(3, 4); //~ E0499
    *entry
}

pub fn an_entry_that_is_used_up(map: &mut HashMap<u32, u32>) -> u32 {
    *map.entry(1).or_insert(2) += 1;
    map.insert(3, 4);
    map[&1]
}

pub fn two_values_of_a_map(map: &BTreeMap<u32, String>) -> Option<(&String, &String)> {
    Some((map.get(&1)?, map.get(&2)?))
}

pub fn two_values_of_a_map_to_change(map: &mut BTreeMap<u32, String>) -> Option<usize> {
    let first = map.get_mut(&1)?;
    let second = map.get_mut(&2)?; //~ E0499
    first.push_str(second);
    Some(first.len())
}

pub fn values_that_are_retained(map: &mut BTreeMap<u32, String>, names: &mut Vec<String>) {
    map.retain(|_, name| {
        names.push(name.clone());
        !name.is_empty()
    });
}

pub fn zipped(first: &mut [u32], second: &[u32]) {
    for (left, right) in first.iter_mut().zip(second) {
        *left += *right;
    }
}

pub fn zipped_with_itself(values: &mut Vec<u32>) {
    for (left, right) in values.iter_mut().zip(values.iter()) {
        //~^ E0502
        *left += *right;
    }
}

pub fn peeked(text: &str) -> usize {
    let mut left = text.chars().peekable();
    let mut count = 0;
    while let Some(it) = left.next() {
        if left.peek() == Some(&it) {
            count += 1;
        }
    }
    count
}

pub fn a_peek_that_is_kept(text: &str) -> Option<char> {
    let mut left = text.chars().peekable();
    let kept = left.peek();
    left.next(); //~ E0499
    kept.copied()
}

pub fn a_queue_that_is_filled(queue: &mut VecDeque<u32>) -> u32 {
    while let Some(it) = queue.pop_front() {
        if it > 3 {
            return it;
        }
        queue.push_back(it + 1);
    }
    0
}

pub fn a_queue_whose_front_is_kept(queue: &mut VecDeque<u32>) -> u32 {
    let front = queue.front();
    queue.push_back(1); //~ E0502
    front.copied().unwrap_or(0)
}

pub fn the_longest<'a>(first: &'a str, second: &'a str) -> &'a str {
    if first.len() > second.len() {
        first
    } else {
        second
    }
}

pub fn the_longest_of_a_local(first: &str) -> usize {
    let second = String::from("b");
    let longest = the_longest(first, &second);
    longest.len()
}

pub fn the_longest_after_a_local_is_gone(first: &str) -> usize {
    let longest;
    {
        let second = String::from("b");
        longest = the_longest(first, &second); //~ E0597
    }
    longest.len()
}

pub struct Cursor<'a> {
    text: &'a str,
    at: usize,
}

impl<'a> Iterator for Cursor<'a> {
    type Item = &'a str;

    fn next(&mut self) -> Option<&'a str> {
        let rest = self.text.get(self.at..)?;
        let end = rest.find(' ').unwrap_or(rest.len());
        self.at += end + 1;
        Some(&rest[..end])
    }
}

pub fn words_outlive_the_cursor(text: &str) -> Vec<&str> {
    let mut words = vec![];
    let mut cursor = Cursor { text, at: 0 };
    while let Some(word) = cursor.next() {
        words.push(word);
    }
    words
}

pub fn words_of_a_local(text: String) -> Vec<&'static str> {
    let cursor = Cursor { text: &text, at: 0 };
    cursor.collect() //~ E0515
}

pub fn grouped<'a>(names: &[&'a str]) -> BTreeMap<usize, Vec<&'a str>> {
    let mut groups: BTreeMap<usize, Vec<&'a str>> = BTreeMap::new();
    for name in names {
        groups.entry(name.len()).or_default().push(name);
    }
    groups
}

pub fn grouped_for_too_long<'a>(names: &[String]) -> BTreeMap<usize, Vec<&'a str>> {
    let mut groups: BTreeMap<usize, Vec<&'a str>> = BTreeMap::new(); //~ E0621
    for name in names {
        groups.entry(name.len()).or_default().push(name);
    }
    groups
}

pub fn a_result_with_a_question(text: &str) -> Result<u32, std::num::ParseIntError> {
    let mut total = 0;
    for it in text.split(',') {
        total += it.parse::<u32>()?;
    }
    Ok(total)
}

pub fn the_parts_of_a_path(path: &str) -> Option<(&str, &str)> {
    let (folder, file) = path.rsplit_once('/')?;
    let (name, _) = file.split_once('.')?;
    Some((folder, name))
}

pub fn formatted_while_it_is_changed(text: &mut String) {
    let shown = format!("{text}!");
    text.push_str(&shown);
}

pub fn formatted_later(text: &mut String) -> String {
    let shown = text.as_str();
    text.push('a'); //~ E0502
    format!("{shown}!")
}

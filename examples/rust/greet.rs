/// The longer of two words.
fn longer<'a>(one: &'a str, other: &'a str) -> &'a str {
    if one.len() > other.len() { one } else { other }
}

/// How long the name is, or the word that stands for a short one. The name is changed before that is read.
pub fn greet(name: &mut String) -> usize {
    let shown = longer(name, "you");
    name.push('!');
    shown.len()
}

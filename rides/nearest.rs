//! The form that is nearest to a line that has none.

use crate::text::is_blank;

/// What a word too many or too few costs, and what a word costs that has nothing in common with the one of the form. The first
/// is lower than half of the second, so that `data 0` is `data P arrives` with a word left out.
const WORD: usize = 30;
const OTHER: usize = 120;

/// The fewest single changes (one letter put in, taken out or replaced) that turn one list into the other, where `replace` gives
/// the cost of a replacement and `one` that of the others.
fn changes<T>(from: &[T], to: &[T], one: usize, replace: impl Fn(&T, &T) -> usize) -> usize {
    let mut costs: Vec<usize> = (0..=to.len()).map(|n| n * one).collect();
    for (at, a) in from.iter().enumerate() {
        let mut corner = costs[0];
        costs[0] = (at + 1) * one;
        for (n, b) in to.iter().enumerate() {
            let cost = (corner + replace(a, b)).min(costs[n] + one).min(costs[n + 1] + one);
            corner = costs[n + 1];
            costs[n + 1] = cost;
        }
    }
    costs[to.len()]
}

/// The letters that differ, and the length of the longer word.
fn difference(a: &str, b: &str) -> (usize, usize) {
    let (a, b): (Vec<char>, Vec<char>) = (a.chars().collect(), b.chars().collect());
    (changes(&a, &b, 1, |x, y| usize::from(x != y)), a.len().max(b.len()))
}

/// Numbers, and the letters that stand for them, become `0`; other words get small letters.
fn plain(word: &str) -> String {
    let number = is_blank(word) && word.len() == 1 || word.bytes().all(|b| b.is_ascii_digit());
    if number {
        "0".to_string()
    } else {
        word.to_lowercase()
    }
}

/// The nearest form, if at least one word of the line is like a word of it: half of its letters or more.
pub fn form<'a>(words: &[&str], forms: &[&'a str]) -> Option<&'a str> {
    let said: Vec<String> = words.iter().map(|word| plain(word)).collect();
    let parts = |form: &str| -> Vec<String> { form.split(' ').map(plain).collect() };
    let like = |a: &String, b: &String| a != "0" && 2 * difference(a, b).0 <= difference(a, b).1;
    let replace = |a: &String, b: &String| OTHER * difference(a, b).0 / difference(a, b).1;
    let alike = |form: &&&str| parts(form).iter().any(|part| said.iter().any(|word| like(word, part)));
    forms.iter().filter(alike).min_by_key(|form| changes(&said, &parts(form), WORD, replace)).copied()
}

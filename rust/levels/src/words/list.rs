//! Lists in words.

use std::fmt::Display;

/// `1`, `1 and 2`, `1, 2 and 3`.
pub fn list(items: &[impl Display]) -> String {
    match items {
        [] => "nothing".to_string(),
        [one] => one.to_string(),
        [first @ .., last] => {
            let first: Vec<String> = first.iter().map(|item| item.to_string()).collect();
            format!("{} and {last}", first.join(", "))
        }
    }
}

/// `site 1`, `sites 1 and 2`: a name before a list.
pub fn named(name: &str, items: &[impl Display]) -> String {
    let end = if items.len() == 1 { "" } else { "s" };
    format!("{name}{end} {}", list(items))
}

/// `1 event`, `2 events`: a number before a name.
pub fn counted(number: u64, name: &str) -> String {
    let end = if number == 1 { "" } else { "s" };
    format!("{number} {name}{end}")
}

//! A failing list is made short.

use compare::shrink::shrink;

#[test]
fn what_is_not_needed_goes() {
    let list: Vec<u32> = (0..1000).collect();
    let fails = |list: &[u32]| list.contains(&17) && list.contains(&901);
    assert_eq!(shrink(&list, fails), [17, 901]);
}

#[test]
fn nothing_may_be_left() {
    assert_eq!(shrink(&[1, 2, 3], |_| true), []);
}

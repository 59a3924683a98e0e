//! Makes a failing list of events short, so that it can be read.

/// The list without what can be left out, one stretch after the other and ever
/// shorter ones, while it still fails.
pub fn shrink<T: Clone>(list: &[T], fails: impl Fn(&[T]) -> bool) -> Vec<T> {
    let mut list = list.to_vec();
    let mut size = list.len().div_ceil(2);
    while size > 0 {
        let before = list.len();
        let mut from = 0;
        while from < list.len() {
            let to = (from + size).min(list.len());
            let fewer = [&list[..from], &list[to..]].concat();
            if fails(&fewer) {
                list = fewer;
            } else {
                from = to;
            }
        }
        // Single events are tried again until none can go.
        size = if size > 1 { size / 2 } else { usize::from(list.len() < before) };
    }
    list
}

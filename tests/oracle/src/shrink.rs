//! Shortening what fails.

/// Drops parts of a failing list, first large ones and then ever smaller ones, for as long as the rest still fails.
/// What comes back fails too, and no longer does when any single item is taken out of it.
pub fn shorten<T: Clone>(list: &[T], mut fails: impl FnMut(&[T]) -> bool) -> Vec<T> {
    let mut short = list.to_vec();
    let mut part = short.len().next_power_of_two();
    while part > 0 {
        let mut start = 0;
        let mut dropped = false;
        while start < short.len() {
            let end = short.len().min(start + part);
            let rest = [&short[..start], &short[end..]].concat();
            if fails(&rest) {
                short = rest;
                dropped = true;
            } else {
                start = end;
            }
        }
        // An item may have become needless through the loss of a later one, so single items are tried until all stay.
        if part > 1 || !dropped {
            part /= 2;
        }
    }
    short
}

//! The room: how many different functions that are not constant are got by fixing first levels.

use std::collections::HashSet;

use crate::table::{Shape, Table};

/// The room of these functions.
///
/// A function that does not depend on its first level stays itself when that level is fixed. So each one that is
/// not constant is met again with the first level on which it depends as its first, and is counted there alone.
pub fn room(shape: &Shape, tables: &[&Table]) -> u32 {
    let mut met: HashSet<&[u8]> = tables.iter().map(|table| &table.0[..]).collect();
    let mut count = 0;
    for _ in 0..shape.bits() {
        let mut next: HashSet<&[u8]> = HashSet::new();
        for function in met {
            let (low, high) = function.split_at(function.len() / 2);
            if low != high {
                count += 1;
            }
            next.insert(low);
            next.insert(high);
        }
        met = next;
    }
    count
}

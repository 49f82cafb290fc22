//! The sizes of the rows: how many nodes the diagram of each has. A node that several rows share counts in each.

use std::collections::HashSet;

use crate::room::room;
use crate::rows::MOST_ROWS;
use crate::table::{Shape, Table};

/// The sizes of rows with these functions, 0 past the rows. A diagram has one node for each function that fixing the first levels
/// gives and that asks its own first level, so its size is the room of its function alone.
pub fn sizes(shape: &Shape, tables: &[Table]) -> [u32; MOST_ROWS] {
    let mut sizes = [0; MOST_ROWS];
    for (size, table) in sizes.iter_mut().zip(tables) {
        *size = room(shape, &[table]);
    }
    sizes
}

/// How many different nodes a reference leads to, where every reference leads to an earlier node or a leaf.
pub fn led_to(nodes: &[u32], reference: u32) -> u32 {
    let mut met: HashSet<u32> = HashSet::new();
    let mut left = vec![reference];
    while let Some(reference) = left.pop() {
        if reference > 1 && met.insert(reference) {
            let place = 3 * (reference as usize - 2);
            left.extend(&nodes[place + 1..place + 3]);
        }
    }
    met.len() as u32
}

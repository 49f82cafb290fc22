//! The node slice: rows in order, each diagram low side first, children before parents, each node once.

use std::collections::HashMap;

use crate::table::{Shape, Table};

/// The nodes and the rows' references that show these functions.
pub fn lay_out(shape: &Shape, tables: &[Table]) -> (Vec<u32>, Vec<u32>) {
    let mut layout = Layout {
        shape,
        nodes: Vec::new(),
        places: HashMap::new(),
    };
    let references = tables.iter().map(|table| layout.reference(0, &table.0));
    let references = references.collect();
    (layout.nodes, references)
}

struct Layout<'a> {
    shape: &'a Shape,
    nodes: Vec<u32>,
    /// The references of the functions laid out so far. Functions of different levels differ in length.
    places: HashMap<&'a [u8], u32>,
}

impl<'a> Layout<'a> {
    /// The reference of a function over all levels from a bit on.
    fn reference(&mut self, bit: usize, function: &'a [u8]) -> u32 {
        if function.len() == 1 {
            return u32::from(function[0]);
        }
        let (low, high) = function.split_at(function.len() / 2);
        if low == high {
            return self.reference(bit + 1, low);
        }
        if let Some(&reference) = self.places.get(function) {
            return reference;
        }
        let low = self.reference(bit + 1, low);
        let high = self.reference(bit + 1, high);
        let reference = self.nodes.len() as u32 / 3 + 2;
        self.nodes.extend([self.shape.level(bit), low, high]);
        self.places.insert(function, reference);
        reference
    }
}

/// The function that a reference into well-formed nodes shows.
pub fn shown(shape: &Shape, nodes: &[u32], reference: u32) -> Table {
    let at = |index: usize| {
        let mut reference = reference;
        while reference > 1 {
            let node = &nodes[3 * (reference as usize - 2)..];
            let (variable, b) = ((node[0] / shape.k) as usize, node[0] % shape.k);
            reference = node[1 + (index >> shape.place(variable, b) & 1)];
        }
        reference as u8
    };
    Table((0..shape.size()).map(at).collect())
}

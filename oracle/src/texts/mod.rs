//! Rules typed as text, read from request A1 of document 02 and not from the product: a chart over words says where a text can go on, a
//! descent builds its tree, and the rows are those of the unfolded tree.

pub mod chart;
pub mod compare;
pub mod generate;
pub mod reader;
pub mod rows;
pub mod tree;

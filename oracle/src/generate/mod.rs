//! Cases made from a seed.

pub mod bases;
pub mod calls;
pub mod disguise;
pub mod disturb;
pub mod events;
pub mod inputs;
pub mod laws;
pub mod moments;
pub mod refused;
pub mod rules;
pub mod small;
pub mod smear;
pub mod states;

//! An implementation of SCOPE that is independent of the proved one, the proved library behind safe functions, and what
//! tests and benchmarks share.

pub mod both;
pub mod cards;
pub mod desks;
pub mod inputs;
pub mod lists;
pub mod met;
pub mod mixed;
pub mod numbers;
pub mod pairs;
pub mod reference;
pub mod scratched;
pub mod sets;
pub mod unit;

//! Libraries to compare implementations on: made from a seed, and of known shape for the figures.
pub mod damage;
pub mod generate;
pub mod inputs;
pub mod program;
pub mod random;

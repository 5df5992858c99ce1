//! The benchmark: inputs, contenders, the comparison of their answers, timing, and what is written about it.
pub mod agree;
mod bars;
mod boundaries;
mod clock;
pub mod closed;
pub mod contenders;
pub mod inputs;
pub mod machine;
mod numbers;
mod ours;
pub mod page;
pub mod parts;
pub mod picture;
pub mod results;
mod rows;
mod tables;
pub mod timing;
pub mod turns;

//! The job of `settle` in plain Rust: reads a text with a model, runs and
//! closed tables, and answers a line for each object. It shares no code with
//! the proved program, so that the two can be compared.

pub mod abstraction;
pub mod case;
pub mod fault;
pub mod interval;
pub mod judge;
pub mod model;
pub mod record;
pub mod regions;
pub mod settle;
pub mod table;
pub mod token;

//! Runs atat 0.25.0 on cases that the Rattle program `compare` reads, and compares the two programs' answers.

pub mod generate;
pub mod judge;
pub mod lines;
pub mod longer;
pub mod notation;
pub mod oracle;
pub mod origin;
pub mod queue;
pub mod script;
pub mod table;
pub mod tokens;

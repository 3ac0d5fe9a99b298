//! Differential runs: histories of events, drawn at random and aimed at the state, go through the proved server and
//! through the independent one (`twin`), and every number, length and octet is compared.

pub mod compare;
pub mod draw;
pub mod functions;
pub mod generate;
pub mod history;
pub mod library;
pub mod shrink;
pub mod tally;
pub mod write;

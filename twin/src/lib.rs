//! An independent key server: a BSF (TS 33.220) for AKA-based GBA with the keys in the handset.
//!
//! It is written from document 01 alone, as plain Rust, and answers every event with the same octets as the proved
//! server. It serves to compare the two, in what they answer and in how fast.

mod base64;
mod event;
mod kdf;
mod line;
mod program;
mod server;
mod sha256;
mod text;

pub use kdf::kdf_string;
pub use program::serve;
pub use server::{Row, State, SHORTEST_BUFFER};
pub use sha256::{hash, hmac};

pub const NOT_OPEN: u32 = 1;
pub const SHORT: u32 = 2;
pub const FORM: u32 = 3;
pub const CLOCK: u32 = 4;
pub const SPENT: u32 = 5;
pub const NO_RUN: u32 = 6;
pub const STALE: u32 = 7;
pub const TWICE: u32 = 8;
pub const OTHER: u32 = 9;
pub const NO_COPY: u32 = 10;
pub const RAND_SEEN: u32 = 11;
pub const EARLY: u32 = 12;
pub const NO_SESSION: u32 = 13;
pub const NOT_YOURS: u32 = 14;
pub const NO_BTID: u32 = 15;
pub const POLICY: u32 = 16;

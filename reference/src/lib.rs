//! A plain reference of the phone monitor, written from the specification ("01") and the landed
//! requests for changes ("02") alone.
//!
//! Nothing here is proved and nothing is shared with the proved side: the value of this
//! crate is that it was written apart, so that a difference between the two means something.

pub mod asked;
pub mod bench;
pub mod chain;
pub mod check;
pub mod events;
pub mod fuzz;
pub mod generate;
pub mod image_rules;
pub mod own;
pub mod phone;
pub mod played;
pub mod random;
pub mod refusal;
pub mod shown;
pub mod stored_questions;
pub mod text;
pub mod timeline;
pub mod vectors;
pub mod why;

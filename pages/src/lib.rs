//! Lessons in words: from a lesson's text to the answers of the proved programs, told so that a trainee
//! can read them.
//!
//! Nothing here is proved and nothing here decides: codes, domains, links and reasons are what the
//! programs `bench`, `play` and `why` print, and a picture is shown only where `vectors` agrees with it.

pub mod asking;
pub mod held;
pub mod lesson;
pub mod page;
pub mod picture;
pub mod programs;
pub mod reading;
pub mod told;
pub mod trouble;
pub mod trust;
pub mod words;

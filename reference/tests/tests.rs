//! All tests in one program, which is compiled and linked once.

mod boundaries;
mod chains;
mod codes;
mod common;
mod dates;
mod dates_reach;
mod generator;
mod own;
mod owners;
mod owners_reach;
mod recovery;
mod refusals;
mod text_form;
mod text_places;
mod timelines;
mod timelines_reach;
mod timelines_text;
mod timelines_usage;
mod traps;
mod why;
mod why_reach;
mod why_usage;
mod worked_run;

//! The proved library held against the reference: every question on generated feed sets, each case from a seed.
//!
//! A [`case::Case`] makes a set; [`ask`] asks both about it and about a respelling of it; a difference names the case, so that it can be
//! run again alone. [`lines`] asks either of them by lines of text.

#![forbid(unsafe_code)]

pub mod answer;
pub mod ask;
pub mod case;
pub mod lines;
pub mod question;
pub mod tally;

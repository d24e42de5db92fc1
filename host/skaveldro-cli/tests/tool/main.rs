//! The tool as it is run.

#![forbid(unsafe_code)]

mod check;
mod explain;
mod feeds;
mod help;
mod json;
mod odd;
mod questions;
mod schema;
mod usage;

//! The oracle: the crate dlt-core itself, asked by lines of text.
//!
//! The three modules at the end are dlt-core's own files, unchanged, read through
//! the link that `setup` makes. All else here turns request lines into calls of
//! that crate and its answers into answer lines.

#![allow(unexpected_cfgs)]

#[macro_use]
extern crate log;

pub mod answer;
mod arguments;
pub mod check;
pub mod compare;
pub mod confined;
mod filter;
pub mod index;
pub mod list;
mod message;
pub mod request;
pub mod requests;
mod retire;
mod text;

#[allow(dead_code)]
#[path = "../dlt-core/src/dlt.rs"]
mod dlt;
#[allow(dead_code)]
#[path = "../dlt-core/src/filtering.rs"]
mod filtering;
#[allow(dead_code)]
#[path = "../dlt-core/src/parse.rs"]
mod parse;

//! The Rust twice more, for times: the same sources over other float functions.

#![allow(dead_code)]

pub mod library;
pub mod whole;

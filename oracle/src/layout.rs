//! The Rust's layout.

#![allow(dead_code)]

include!(concat!(env!("OUT_DIR"), "/layout.rs"));

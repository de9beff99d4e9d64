//! The Rust's graph.

#![allow(dead_code)]

include!(concat!(env!("OUT_DIR"), "/graph.rs"));

//! The Rust's routing.

#![allow(dead_code)]

include!(concat!(env!("OUT_DIR"), "/route.rs"));

#[path = "route/probe.rs"]
pub mod probe;

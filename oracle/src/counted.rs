//! The routing again, with its turns counted.

#![allow(dead_code)]

include!(concat!(env!("OUT_DIR"), "/counted.rs"));

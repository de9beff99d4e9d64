//! The Rust over the stand-ins, with the root by whole numbers, as document 01 words it.

#[path = "../calls.rs"]
pub mod calls;
#[path = "../counted.rs"]
mod counted;
#[path = "../graph.rs"]
mod graph;
#[path = "../layout.rs"]
mod layout;
#[path = "../route.rs"]
mod route;
#[path = "../sheet.rs"]
mod sheet;
#[path = "../standin.rs"]
mod standin;
#[path = "../svg.rs"]
mod svg;

mod root {
    pub use crate::root::whole_root as root;
}

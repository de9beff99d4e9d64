//! The Rust over the hardware's square root and the library's functions. `hypot` is the square root of the sum, as document 01 has it: the library's own,
//! which guards against overflow, is slower.

#[path = "../calls.rs"]
pub mod calls;
#[path = "../counted.rs"]
mod counted;
#[path = "../graph.rs"]
mod graph;
#[path = "../layout.rs"]
mod layout;
#[path = "../route.rs"]
mod route;
#[path = "../sheet.rs"]
mod sheet;
#[path = "../svg.rs"]
mod svg;

/// The library's functions under the stand-ins' names.
mod standin {
    pub fn hypot(a: f64, b: f64) -> f64 {
        (a * a + b * b).sqrt()
    }

    pub fn midpoint(a: f64, b: f64) -> f64 {
        f64::midpoint(a, b)
    }

    pub fn rem_euclid(a: f64) -> f64 {
        a.rem_euclid(std::f64::consts::TAU)
    }

    pub fn sin(a: f64) -> f64 {
        a.sin()
    }

    pub fn cos(a: f64) -> f64 {
        a.cos()
    }

    pub fn atan2(y: f64, x: f64) -> f64 {
        y.atan2(x)
    }

    pub fn min(a: f64, b: f64) -> f64 {
        a.min(b)
    }

    pub fn max(a: f64, b: f64) -> f64 {
        a.max(b)
    }

    pub fn round(v: f64) -> f64 {
        v.round()
    }
}

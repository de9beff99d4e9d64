//! The Rust's arrowhead.

#![allow(dead_code)]

include!(concat!(env!("OUT_DIR"), "/svg.rs"));

/// The six numbers that an arrowhead writes.
pub fn head_points(tip: (f64, f64), angle: f64) -> [f64; 6] {
    let (dx, dy) = (super::standin::cos(angle), super::standin::sin(angle));
    let (bx, by) = (tip.0 - dx * ARROW_LENGTH, tip.1 - dy * ARROW_LENGTH);
    let (nx, ny) = (-dy * ARROW_HALF_WIDTH, dx * ARROW_HALF_WIDTH);
    [tip.0, tip.1, bx + nx, by + ny, bx - nx, by - ny]
}

pub fn head(tip: (f64, f64), angle: f64) -> String {
    let mut out = String::new();
    arrowhead(&mut out, tip, angle);
    out
}

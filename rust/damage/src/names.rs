//! The two C names, on slices.

pub use stewsatchel::lent::c::{raw_write, run};

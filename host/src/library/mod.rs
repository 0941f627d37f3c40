//! The proved library: its calls made safe, and the parts of a bundle that it has read.

mod answer;
pub mod calls;
mod ffi;
pub mod parts;

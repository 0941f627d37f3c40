//! Makers of cases: bundles, tables of both editions, drawings, logs, searches and lists from a seed for the tests, and the bundles
//! that are measured.

pub mod bundles;
pub mod cases;
pub mod growth;
pub mod lists;
pub mod logs;
pub mod searches;
pub mod shelf;
pub mod sketches;

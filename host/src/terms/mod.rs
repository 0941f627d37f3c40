//! The outline's terms, which all share: forms, refusals, rules, sizes and the echo table.

pub mod echo;
pub mod form;
pub mod refusals;
pub mod rules;
pub mod sizes;

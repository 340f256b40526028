//! SHIM: the module file. sum/ holds published files; count.rs and pairs.rs are added aggregates.
pub mod count;
pub mod pairs;
pub mod sum;

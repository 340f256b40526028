//! A stand-in for vortex-array 0.89.0: eight published files are linked in unchanged (see mount.sh), all other modules
//! are shims. A shim has the meaning that docs/DIFFERENCES.md settles under "Meanings supplied".
#![allow(dead_code, unused_imports, unfulfilled_lint_expectations)]

pub mod aggregate_fn;
mod array;
pub mod arrays;
pub mod builtins;
pub mod columnar;
pub mod dtype;
pub mod executor;
pub mod expr;
pub mod proto;
pub mod scalar;
pub mod validity;

pub use array::ArrayRef;
pub use columnar::Canonical;
pub use columnar::Columnar;
pub use executor::ExecutionCtx;

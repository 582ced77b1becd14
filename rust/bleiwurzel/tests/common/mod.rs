//! What the tests share: the samples, the check with all that is looked at beside its number, and policy files with their descriptions.
#![allow(dead_code, unused_imports)]

mod asked;
mod described;

pub use asked::*;
pub use described::*;
pub use samples::*;

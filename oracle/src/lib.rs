//! Oracle over the unmodified slatedb 0.16.0 block modules (Apache-2.0).
#![allow(explicit_builtin_cfgs_in_flags)] // build.rs sets cfg(test), see there
#![allow(dead_code, unused_imports)]
include!(concat!(env!("OUT_DIR"), "/slatedb.rs"));
pub mod rng;
pub use format::{direct, driver, older, timing};

//! The root under which the given modules stand at their own paths. The build copies them here
//! from the given folder; what they name and isn't given is a stand-in in this tree.
#![allow(warnings)]

#[macro_use]
extern crate outside;
extern crate lent;

/// One crate is built for each block size: the Rust has it as a constant.
pub const LOG_BLOCK_BYTES: usize = if cfg!(block12) {
    12
} else if cfg!(block13) {
    13
} else if cfg!(block14) {
    14
} else if cfg!(block15) {
    15
} else {
    16
};

pub mod binding;
pub mod lists;
pub mod machine;

pub mod mmtk;
pub mod plan;
pub mod policy;
pub mod scheduler;
pub mod util;
pub mod vm;

pub use crate::mmtk::{MMAPPER, MMTK};
pub use crate::plan::Plan;

pub mod global_state {
    use std::sync::atomic::AtomicBool;

    #[derive(Default)]
    pub struct GlobalState {
        pub allocation_success: AtomicBool,
    }

    impl GlobalState {
        pub fn is_initialized(&self) -> bool {
            true
        }
        pub fn is_emergency_collection(&self) -> bool {
            false
        }
        pub fn increase_allocation_bytes_by(&self, size: usize) -> usize {
            size
        }
    }
}

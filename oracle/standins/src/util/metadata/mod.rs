//! The given metadata modules, over tables that a script lends.
mod global;
pub mod metadata_val_traits;
pub mod side_metadata;
pub mod vo_bit;

pub use global::*;

pub mod header_metadata {
    #[derive(Clone, Copy, Debug)]
    pub struct HeaderMetadataSpec;
}

pub mod log_bit {
    pub const LOGGED_VALUE: u8 = 0;
}

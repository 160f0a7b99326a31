//! Stand-in: where side metadata begins, in the Rust's eyes.
use super::SideMetadataSpec;
use crate::util::Address;

pub fn global_side_metadata_base_address() -> Address {
    unsafe { Address::from_usize(lent::META) }
}
pub fn side_metadata_reserved_bytes() -> usize {
    unimplemented!()
}
pub const fn metadata_address_range_size(_: &SideMetadataSpec) -> usize {
    1 << lent::TABLE_SHIFT
}

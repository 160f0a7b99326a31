//! Stand-in: the way from a data address to its metadata. The searches are never called.
use super::layout::*;
use super::SideMetadataSpec;
use crate::util::constants::{BITS_IN_BYTE, LOG_BITS_IN_BYTE};
use crate::util::os::{MmapAnnotation, MmapResult};
use crate::util::Address;

pub(crate) fn address_to_meta_address(spec: &SideMetadataSpec, data: Address) -> Address {
    let (region, bits) = (spec.log_bytes_in_region, spec.log_num_of_bits);
    spec.get_starting_address() + lent::table_offset(region, bits, data.as_usize())
}

/// The lowest bit of an entry that is smaller than a byte, lowest bit first.
pub(crate) fn meta_byte_lshift(spec: &SideMetadataSpec, data: Address) -> u8 {
    if spec.log_num_of_bits >= LOG_BITS_IN_BYTE as usize {
        return 0;
    }
    let entry = data.as_usize() >> spec.log_bytes_in_region;
    ((entry << spec.log_num_of_bits) % BITS_IN_BYTE) as u8
}

pub(crate) fn meta_byte_mask(spec: &SideMetadataSpec) -> u8 {
    ((1usize << (1usize << spec.log_num_of_bits)) - 1) as u8
}

pub(crate) fn address_to_contiguous_meta_address(_: &SideMetadataSpec, _: Address) -> Address {
    unimplemented!()
}
pub(crate) fn contiguous_meta_address_to_address(
    _: &SideMetadataSpec,
    _: Address,
    _: u8,
) -> Address {
    unimplemented!()
}
pub(crate) fn align_metadata_address(_: &SideMetadataSpec, _: Address, _: u8) -> (Address, u8) {
    unimplemented!()
}
pub(crate) fn data_to_meta_size_round_up(_: &SideMetadataSpec, _: usize) -> usize {
    unimplemented!()
}
pub(crate) fn try_mmap_contiguous_metadata_space(
    _: Address,
    _: usize,
    _: &SideMetadataSpec,
    _: bool,
    _: &MmapAnnotation,
) -> MmapResult<()> {
    unimplemented!()
}

pub(crate) enum FindMetaBitResult {
    Found { addr: Address, bit: u8 },
    NotFound,
    UnmappedMetadata,
}
pub(crate) fn find_last_non_zero_bit_in_metadata_bytes(
    _: Address,
    _: Address,
) -> FindMetaBitResult {
    unimplemented!()
}
pub(crate) fn find_last_non_zero_bit_in_metadata_bits(
    _: Address,
    _: u8,
    _: u8,
) -> FindMetaBitResult {
    unimplemented!()
}
pub(crate) fn find_first_non_zero_bit_in_metadata_bytes(
    _: Address,
    _: Address,
) -> FindMetaBitResult {
    unimplemented!()
}
pub(crate) fn find_first_non_zero_bit_in_metadata_bits(
    _: Address,
    _: u8,
    _: u8,
) -> FindMetaBitResult {
    unimplemented!()
}
pub(crate) fn scan_non_zero_bits_in_metadata_bytes(
    _: Address,
    _: Address,
    _: &mut impl FnMut(Address, u8),
) {
    unimplemented!()
}
pub(crate) fn scan_non_zero_bits_in_metadata_bits(
    _: Address,
    _: u8,
    _: u8,
    _: &mut impl FnMut(Address, u8),
) {
    unimplemented!()
}

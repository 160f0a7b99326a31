//! Stand-in: a range of metadata in whole bytes. The one bulk clear that runs here is over the
//! whole mark table, so ranges never begin or end inside a byte.
use crate::util::Address;

pub enum BitByteRange {
    Bytes { start: Address, end: Address },
    BitsInByte { addr: Address, bit_start: u8, bit_end: u8 },
}

pub fn break_bit_range(
    start_addr: Address,
    start_bit: u8,
    end_addr: Address,
    end_bit: u8,
    _forwards: bool,
    visitor: &mut impl FnMut(BitByteRange) -> bool,
) -> bool {
    assert!(start_bit == 0 && end_bit == 0, "a range inside a byte");
    visitor(BitByteRange::Bytes { start: start_addr, end: end_addr })
}

//! Stand-ins that tell the given side metadata where its tables are: table t of what is lent.
mod global;
pub mod helpers;
pub mod layout;
pub mod ranges;

pub use global::*;
pub(crate) use helpers::*;

pub mod spec_defs {
    use super::SideMetadataSpec;
    use crate::LOG_BLOCK_BYTES;

    const fn spec(
        name: &'static str,
        table: usize,
        log_num_of_bits: usize,
        log_bytes_in_region: usize,
    ) -> SideMetadataSpec {
        let offset = table << lent::TABLE_SHIFT;
        SideMetadataSpec { name, is_global: false, offset, log_num_of_bits, log_bytes_in_region }
    }

    pub const MS_BLOCK_MARK: SideMetadataSpec = spec("state", lent::STATE, 3, LOG_BLOCK_BYTES);
    pub const MS_BLOCK_NEXT: SideMetadataSpec = spec("next", lent::NEXT, 6, LOG_BLOCK_BYTES);
    pub const MS_BLOCK_PREV: SideMetadataSpec = spec("prev", lent::PREV, 6, LOG_BLOCK_BYTES);
    pub const MS_FREE: SideMetadataSpec = spec("free", lent::FREE, 6, LOG_BLOCK_BYTES);
    pub const MS_BLOCK_SIZE: SideMetadataSpec = spec("size", lent::SIZE, 6, LOG_BLOCK_BYTES);
    pub const MS_BLOCK_LIST: SideMetadataSpec = spec("list", lent::LIST, 6, LOG_BLOCK_BYTES);
    pub const MS_BLOCK_TLS: SideMetadataSpec = spec("tls", lent::TLS, 6, LOG_BLOCK_BYTES);
    pub const MARK_BIT: SideMetadataSpec = spec("mark", lent::MARKS, 0, 3);

    /// Named by the text and left out by document 01: no table is lent, an access panics.
    pub const VO_BIT: SideMetadataSpec = spec("vo", 64, 0, 3);
    pub const LOG_BIT: SideMetadataSpec = spec("log", 65, 0, 3);
    pub const CHUNK_MARK: SideMetadataSpec = spec("chunk", 66, 3, 22);
}

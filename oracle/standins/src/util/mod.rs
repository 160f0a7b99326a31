//! The given utilities at their paths, and stand-ins for those that aren't given.
pub mod address;
pub mod constants;
pub mod linear_scan;
pub mod memory;

pub mod heap;
pub mod metadata;
pub mod object_reference;

pub use address::Address;
pub use object_reference::ObjectReference;
pub use opaque_pointer::*;

pub mod alloc {
    pub mod allocator;
    pub mod free_list_allocator;
    pub use allocator::Allocator;

    pub mod embedded_meta_data {
        pub const LOG_BYTES_IN_REGION: usize = 22;
    }
}

pub mod opaque_pointer {
    use crate::util::Address;

    #[derive(Clone, Copy, Debug, PartialEq, Eq)]
    pub struct OpaquePointer(usize);

    impl OpaquePointer {
        pub fn from_address(addr: Address) -> Self {
            OpaquePointer(addr.as_usize())
        }
        pub fn to_address(self) -> Address {
            unsafe { Address::from_usize(self.0) }
        }
        pub fn is_null(self) -> bool {
            self.0 == 0
        }
    }

    #[derive(Clone, Copy, Debug, PartialEq, Eq)]
    pub struct VMThread(pub OpaquePointer);
    #[derive(Clone, Copy, Debug, PartialEq, Eq)]
    pub struct VMWorkerThread(pub VMThread);
}

pub mod conversions {
    use crate::util::Address;

    pub const fn raw_align_up(val: usize, align: usize) -> usize {
        (val + align - 1) & !(align - 1)
    }
    pub const fn raw_align_down(val: usize, align: usize) -> usize {
        val & !(align - 1)
    }
    pub const fn raw_is_aligned(val: usize, align: usize) -> bool {
        val & (align - 1) == 0
    }
    pub fn address_to_chunk_index(_: Address) -> usize {
        unimplemented!()
    }
}

pub mod rust_util {
    pub const fn min_of_usize(a: usize, b: usize) -> usize {
        if a < b {
            a
        } else {
            b
        }
    }
}

pub mod copy {
    pub struct CopySemantics;
}

pub mod epilogue {
    use std::sync::atomic::{AtomicUsize, Ordering};

    /// Not while a panic unwinds: a second one would end the process.
    pub fn debug_assert_counter_zero(counter: &AtomicUsize, what: &str) {
        if !std::thread::panicking() {
            debug_assert_eq!(counter.load(Ordering::SeqCst), 0, "{what} isn't 0");
        }
    }
}

pub mod object_enum {
    use crate::util::heap::chunk_map::ChunkMap;
    use crate::util::linear_scan::Region;

    pub trait BlockMayHaveObjects: Region {
        fn may_have_objects(&self) -> bool;
    }
    pub trait ObjectEnumerator {}

    pub fn enumerate_blocks_from_chunk_map<B: BlockMayHaveObjects>(
        _: &mut dyn ObjectEnumerator,
        _: &ChunkMap,
    ) {
        unimplemented!()
    }
}

pub mod options {
    /// Options are read through a `*`, as the wrapper of the original.
    #[derive(Default)]
    pub struct Wrapper(bool);

    impl std::ops::Deref for Wrapper {
        type Target = bool;
        fn deref(&self) -> &bool {
            &self.0
        }
    }

    #[derive(Default)]
    pub struct Options {
        pub precise_stress: Wrapper,
    }

    impl Options {
        pub fn is_stress_test_gc_enabled(&self) -> bool {
            false
        }
    }
}

pub mod os {
    use crate::util::Address;

    pub trait OSMemory {
        const LOG_BYTES_IN_PAGE: u8;
        fn panic_if_unmapped(start: Address, bytes: usize);
    }

    pub struct OS;

    impl OSMemory for OS {
        const LOG_BYTES_IN_PAGE: u8 = 12;
        fn panic_if_unmapped(_: Address, _: usize) {
            unimplemented!()
        }
    }

    pub type MmapResult<T> = Result<T, ()>;
    pub enum MmapAnnotation<'a> {
        SideMeta { space: &'a str, meta: &'a str },
    }
}

//! Stand-ins: the page resource only notes what is given back to it.
pub mod chunk_map;

use crate::util::heap::layout::VMMap;
use crate::util::linear_scan::Region;
use crate::util::Address;
use crate::vm::VMBinding;
use std::marker::PhantomData;

pub mod layout {
    pub struct VMMap;

    pub mod vm_layout {
        pub const BYTES_IN_CHUNK: usize = crate::util::heap::chunk_map::Chunk::BYTES;
    }
}

pub mod gc_trigger {
    use std::marker::PhantomData;

    pub struct GCTrigger<VM>(pub PhantomData<VM>);

    impl<VM> GCTrigger<VM> {
        pub fn should_do_stress_gc(&self) -> bool {
            false
        }
        pub fn will_oom_on_alloc(&self, _: usize) -> bool {
            false
        }
    }
}

pub trait PageResource<VM: VMBinding> {}

pub struct BlockPageResource<VM: VMBinding, B: Region>(PhantomData<(VM, B)>);

impl<VM: VMBinding, B: Region> PageResource<VM> for BlockPageResource<VM, B> {}

impl<VM: VMBinding, B: Region> BlockPageResource<VM, B> {
    pub fn new_contiguous(_: usize, _: Address, _: usize, _: &'static VMMap, _: usize) -> Self {
        BlockPageResource(PhantomData)
    }
    pub fn new_discontiguous(_: usize, _: &'static VMMap, _: usize) -> Self {
        BlockPageResource(PhantomData)
    }
    /// The space's last step for a block it made Unallocated: the released count.
    pub fn release_block(&self, _: B) {
        lent::count_release();
    }
    /// The space's last step after it merged in-gc into abandoned: the end of a collection.
    pub fn flush_all(&self) {
        lent::note_merge();
    }
}

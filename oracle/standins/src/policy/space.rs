//! Stand-in for the space trait. `acquire` gives what the call was offered, once, or nothing.
use crate::policy::sft::SFT;
use crate::policy::sft_map::SFTMap;
use crate::scheduler::GCWorkScheduler;
use crate::util::alloc::allocator::AllocationOptions;
use crate::util::heap::layout::VMMap;
use crate::util::heap::PageResource;
use crate::util::metadata::side_metadata::SideMetadataSpec;
use crate::util::object_enum::ObjectEnumerator;
use crate::util::{Address, ObjectReference, VMThread};
use crate::vm::VMBinding;
use std::marker::PhantomData;
use std::sync::Arc;

pub trait Space<VM: VMBinding>: 'static + SFT + Sync {
    fn as_space(&self) -> &dyn Space<VM>;
    fn as_sft(&self) -> &(dyn SFT + Sync + 'static);
    fn get_page_resource(&self) -> &dyn PageResource<VM>;
    fn maybe_get_page_resource_mut(&mut self) -> Option<&mut dyn PageResource<VM>>;
    fn initialize_sft(&self, sft_map: &mut dyn SFTMap);
    fn common(&self) -> &CommonSpace<VM>;
    fn release_multiple_pages(&mut self, start: Address);
    fn enumerate_objects(&self, enumerator: &mut dyn ObjectEnumerator);
    fn clear_side_log_bits(&self);
    fn set_side_log_bits(&self);

    fn acquire(&self, _: VMThread, _pages: usize, _: AllocationOptions) -> Address {
        unsafe { Address::from_usize(lent::take_offer()) }
    }

    fn in_space(&self, object: ObjectReference) -> bool {
        let common = self.common();
        let place = object.to_raw_address();
        place >= common.start && place < common.start + common.extent
    }
}

pub struct Descriptor;

impl Descriptor {
    pub fn get_index(&self) -> usize {
        0
    }
}

pub struct CommonSpace<VM: VMBinding> {
    pub name: &'static str,
    pub descriptor: Descriptor,
    pub start: Address,
    pub extent: usize,
    p: PhantomData<VM>,
}

impl<VM: VMBinding> CommonSpace<VM> {
    pub fn new(_: PolicyArgs) -> Self {
        let params = lent::params();
        CommonSpace {
            name: "ms",
            descriptor: Descriptor,
            start: unsafe { Address::from_usize(params.base) },
            extent: params.heap_bytes(),
            p: PhantomData,
        }
    }
    pub fn initialize_sft(&self, _: &(dyn SFT + Sync + 'static), _: &mut dyn SFTMap) {}
}

pub struct PolicyArgs;

pub struct Contiguous;

impl Contiguous {
    pub fn is_discontiguous(&self) -> bool {
        false
    }
}

pub struct PlanCreateSpaceArgs<VM: VMBinding> {
    pub scheduler: Arc<GCWorkScheduler<VM>>,
    pub vm_map: &'static VMMap,
    pub vmrequest: Contiguous,
}

impl<VM: VMBinding> PlanCreateSpaceArgs<VM> {
    pub fn into_policy_args(self, _: bool, _: bool, _: Vec<SideMetadataSpec>) -> PolicyArgs {
        PolicyArgs
    }
}

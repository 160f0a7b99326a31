//! Stand-in: the instance, as far as an allocator's context reads it.
use crate::global_state::GlobalState;
use crate::plan::Plan;
use crate::policy::sft_map::NoMap;
use crate::util::heap::gc_trigger::GCTrigger;
use crate::util::options::Options;
use crate::util::Address;
use crate::vm::VMBinding;
use std::sync::Arc;

pub static SFT_MAP: NoMap = NoMap;
pub static MMAPPER: Mapper = Mapper;

/// Nothing is mapped: the searches that ask are never called.
pub struct Mapper;

impl Mapper {
    pub fn is_mapped_address(&self, _: Address) -> bool {
        false
    }
    pub fn granularity(&self) -> usize {
        crate::util::constants::BYTES_IN_PAGE
    }
}

pub struct MMTK<VM: VMBinding> {
    pub state: Arc<GlobalState>,
    pub options: Arc<Options>,
    pub gc_trigger: Arc<GCTrigger<VM>>,
}

impl<VM: VMBinding> MMTK<VM> {
    pub fn new() -> Self {
        MMTK {
            state: Default::default(),
            options: Default::default(),
            gc_trigger: Arc::new(GCTrigger(Default::default())),
        }
    }
    pub fn get_plan(&self) -> &dyn Plan<VM = VM> {
        unimplemented!()
    }
}

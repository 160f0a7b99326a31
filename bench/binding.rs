//! The VMs that are measured: MIN = MAX = 8 and no allocation offsets. Whether references are unified, and L, are constants, as
//! the Rust has them.
use crate::util::ObjectReference;
use crate::vm::slot::{MemorySlice, Slot};
use crate::vm::{ActivePlan, Collection, ObjectModel, ReferenceGlue, Scanning, VMBinding};

#[derive(Default)]
pub struct Vm<const UNIFIED: bool, const L: isize>;

impl<const U: bool, const L: isize> VMBinding for Vm<U, L> {
    type VMObjectModel = Self;
    type VMScanning = Self;
    type VMCollection = Self;
    type VMActivePlan = Self;
    type VMReferenceGlue = Self;
    type VMSlot = NoSlot;
    type VMMemorySlice = NoSlot;

    const ALIGNMENT_VALUE: u8 = 0;
    const MIN_ALIGNMENT: usize = 8;
    const MAX_ALIGNMENT: usize = 8;
    const USE_ALLOCATION_OFFSET: bool = false;
    const ALLOC_END_ALIGNMENT: usize = 1;
}

impl<const U: bool, const L: isize> ObjectModel<Self> for Vm<U, L> {
    const UNIFIED_OBJECT_REFERENCE_ADDRESS: bool = U;
    const OBJECT_REF_OFFSET_LOWER_BOUND: isize = L;
}
impl<const U: bool, const L: isize> Scanning<Self> for Vm<U, L> {
    const UNIQUE_OBJECT_ENQUEUING: bool = false;
}
impl<const U: bool, const L: isize> Collection<Self> for Vm<U, L> {}
impl<const U: bool, const L: isize> ActivePlan<Self> for Vm<U, L> {}
impl<const U: bool, const L: isize> ReferenceGlue<Self> for Vm<U, L> {}

pub struct NoSlot;
impl Slot for NoSlot {}
impl MemorySlice for NoSlot {
    type SlotType = NoSlot;
}

/// `$make::<Vm<..>>::new()` for the parameters `$p`, boxed.
#[macro_export]
macro_rules! choose {
    ($p:expr, $make:ident) => {
        match ($p.unified, $p.lower_bound) {
            (true, 0) => Box::new($make::<Vm<true, 0>>::new()),
            (false, -64) => Box::new($make::<Vm<false, -64>>::new()),
            (false, -8) => Box::new($make::<Vm<false, -8>>::new()),
            (false, 0) => Box::new($make::<Vm<false, 0>>::new()),
            (false, 8) => Box::new($make::<Vm<false, 8>>::new()),
            (false, 64) => Box::new($make::<Vm<false, 64>>::new()),
            _ => unreachable!("the bench has no such VM"),
        }
    };
}

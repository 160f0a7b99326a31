//! The VM that a set-up describes. MIN, MAX and the flags are constants in the Rust, so each
//! choice of them is a type; `choose!` picks the type for the parameters of a set-up.
use crate::policy::marksweepspace::native_ms::Block;
use crate::util::linear_scan::{Region, UnstraddlableRegion};
use crate::util::{Address, ObjectReference};
use crate::vm::slot::{MemorySlice, Slot};
use crate::vm::{ActivePlan, Collection, ObjectModel, ReferenceGlue, Scanning, VMBinding};

#[derive(Default)]
pub struct Vm<const MIN: usize, const MAX: usize, const OFFSETS: bool, const UNIFIED: bool>;

impl<const MIN: usize, const MAX: usize, const O: bool, const U: bool> VMBinding
    for Vm<MIN, MAX, O, U>
{
    type VMObjectModel = Self;
    type VMScanning = Self;
    type VMCollection = Self;
    type VMActivePlan = Self;
    type VMReferenceGlue = Self;
    type VMSlot = NoSlot;
    type VMMemorySlice = NoSlot;

    const ALIGNMENT_VALUE: u8 = 0;
    const MIN_ALIGNMENT: usize = MIN;
    const MAX_ALIGNMENT: usize = MAX;
    const USE_ALLOCATION_OFFSET: bool = O;
    const ALLOC_END_ALIGNMENT: usize = 1;
}

impl<const MIN: usize, const MAX: usize, const O: bool, const U: bool> ObjectModel<Self>
    for Vm<MIN, MAX, O, U>
{
    const UNIFIED_OBJECT_REFERENCE_ADDRESS: bool = U;
}

macro_rules! plain {
    ($($t:ident)*) => { $(
        impl<const MIN: usize, const MAX: usize, const O: bool, const U: bool> $t<Self>
            for Vm<MIN, MAX, O, U> {}
    )* };
}
plain! { Collection ActivePlan ReferenceGlue }

impl<const MIN: usize, const MAX: usize, const O: bool, const U: bool> Scanning<Self>
    for Vm<MIN, MAX, O, U>
{
    /// The Rust marks in two ways. Both should answer alike, so a flag that has nothing to do
    /// with marks picks one, and scripts meet both.
    const UNIQUE_OBJECT_ENQUEUING: bool = O;
}

pub struct NoSlot;
impl Slot for NoSlot {}
impl MemorySlice for NoSlot {
    type SlotType = NoSlot;
}

impl Block {
    /// Document 01: a mark carries its block. An associated function of the type goes before the
    /// one that the given linear_scan.rs has for all regions; the driver can ask for that one.
    pub fn containing(object: ObjectReference) -> Block {
        if lent::own_containing() {
            return <Block as UnstraddlableRegion>::containing(object);
        }
        Block::from_aligned_address(unsafe { Address::from_usize(lent::named_block()) })
    }
}

/// `$make::<Vm<..>>($($arg)*)` for the parameters `$p`, boxed.
#[macro_export]
macro_rules! choose {
    ($p:expr, $make:ident) => {{
        macro_rules! flags {
            ($min:literal, $max:literal) => {
                match ($p.use_offset, $p.unified) {
                    (false, false) => Box::new($make::<Vm<$min, $max, false, false>>::new()),
                    (false, true) => Box::new($make::<Vm<$min, $max, false, true>>::new()),
                    (true, false) => Box::new($make::<Vm<$min, $max, true, false>>::new()),
                    (true, true) => Box::new($make::<Vm<$min, $max, true, true>>::new()),
                }
            };
        }
        match ($p.min, $p.max) {
            (4, 4) => flags!(4, 4),
            (4, 8) => flags!(4, 8),
            (4, 16) => flags!(4, 16),
            (4, 32) => flags!(4, 32),
            (4, 64) => flags!(4, 64),
            (8, 8) => flags!(8, 8),
            (8, 16) => flags!(8, 16),
            (8, 32) => flags!(8, 32),
            (8, 64) => flags!(8, 64),
            _ => unreachable!("the driver tests MIN and MAX"),
        }
    }};
}

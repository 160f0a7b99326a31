//! Stand-in: no slots are visited.
pub trait Slot {}
pub trait MemorySlice {
    type SlotType: Slot;
}

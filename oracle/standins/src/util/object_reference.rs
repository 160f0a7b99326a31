//! Stand-in: the given address.rs ends before its object references.
use crate::util::Address;
use crate::vm::VMBinding;
use std::fmt;
use std::num::NonZeroUsize;

#[derive(Clone, Copy, PartialEq, Eq)]
pub struct ObjectReference(NonZeroUsize);

impl ObjectReference {
    pub const ALIGNMENT: usize = crate::util::constants::BYTES_IN_ADDRESS;

    pub unsafe fn from_raw_address_unchecked(addr: Address) -> ObjectReference {
        debug_assert!(!addr.is_zero());
        debug_assert!(addr.is_aligned_to(Self::ALIGNMENT), "{addr} is no object's place");
        ObjectReference(NonZeroUsize::new_unchecked(addr.as_usize()))
    }
    pub fn to_raw_address(self) -> Address {
        unsafe { Address::from_usize(self.0.get()) }
    }
    pub fn to_object_start<VM: VMBinding>(self) -> Address {
        unimplemented!()
    }
}

impl fmt::Display for ObjectReference {
    fn fmt(&self, f: &mut fmt::Formatter) -> fmt::Result {
        write!(f, "{:#x}", self.0)
    }
}
impl fmt::Debug for ObjectReference {
    fn fmt(&self, f: &mut fmt::Formatter) -> fmt::Result {
        write!(f, "{:#x}", self.0)
    }
}
impl fmt::LowerHex for ObjectReference {
    fn fmt(&self, f: &mut fmt::Formatter) -> fmt::Result {
        write!(f, "{:x}", self.0)
    }
}

//! Stand-in: allocs are made away from safepoints, so this is never reached.
use crate::util::alloc::allocator::AllocationError;
use crate::util::VMThread;
use crate::vm::VMBinding;

pub trait Collection<VM: VMBinding> {
    fn out_of_memory(_: VMThread, _: AllocationError) {
        unimplemented!()
    }
}

pub struct GCThreadContext;

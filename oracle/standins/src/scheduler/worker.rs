//! Stand-in: a worker with a thread that isn't null, as the given text asserts.
use crate::util::{Address, OpaquePointer, VMThread, VMWorkerThread};
use crate::vm::VMBinding;
use std::marker::PhantomData;

pub struct GCWorker<VM: VMBinding> {
    pub tls: VMWorkerThread,
    pub ordinal: usize,
    p: PhantomData<VM>,
}

impl<VM: VMBinding> GCWorker<VM> {
    pub fn new() -> Self {
        let thread = OpaquePointer::from_address(unsafe { Address::from_usize(1) });
        GCWorker { tls: VMWorkerThread(VMThread(thread)), ordinal: 0, p: PhantomData }
    }
}

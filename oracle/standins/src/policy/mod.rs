//! Stand-ins around the given space: the traits it implements and what it is made from.
pub mod space;

pub mod marksweepspace {
    pub mod native_ms {
        mod block;
        mod block_list;
        mod global;
        pub use block::*;
        pub use block_list::*;
        pub use global::*;
    }
}

pub mod gc_work {
    use crate::plan::tracing::ObjectQueue;
    use crate::scheduler::GCWorker;
    use crate::util::copy::CopySemantics;
    use crate::util::ObjectReference;
    use crate::vm::VMBinding;

    pub type TraceKind = u8;

    pub trait PolicyTraceObject<VM: VMBinding> {
        fn trace_object<Q: ObjectQueue, const KIND: TraceKind>(
            &self,
            queue: &mut Q,
            object: ObjectReference,
            copy: Option<CopySemantics>,
            worker: &mut GCWorker<VM>,
        ) -> ObjectReference;
        fn may_move_objects<const KIND: TraceKind>() -> bool;
    }
}

pub mod sft {
    use crate::plan::tracing::OptionObjectQueue;
    use crate::scheduler::GCWorker;
    use crate::util::ObjectReference;
    use crate::vm::VMBinding;
    use std::marker::PhantomData;

    pub struct GCWorkerMutRef<'w>(PhantomData<&'w mut ()>);

    impl<'w> GCWorkerMutRef<'w> {
        pub fn new<VM: VMBinding>(_: &'w mut GCWorker<VM>) -> Self {
            GCWorkerMutRef(PhantomData)
        }
    }

    pub trait SFT {
        fn name(&self) -> &'static str;
        fn is_live(&self, object: ObjectReference) -> bool;
        fn is_movable(&self) -> bool;
        fn initialize_object_metadata(&self, object: ObjectReference, bytes: usize);
        fn sft_trace_object(
            &self,
            queue: &mut OptionObjectQueue,
            object: ObjectReference,
            worker: GCWorkerMutRef,
        ) -> ObjectReference;
    }
}

pub mod sft_map {
    use super::sft::SFT;
    use crate::util::metadata::side_metadata::SideMetadataSpec;
    use crate::util::Address;

    pub trait SFTMap {}

    /// Marks go to the space directly, so the map is never asked.
    pub struct NoMap;

    impl NoMap {
        pub unsafe fn get_unchecked(&self, _: Address) -> &dyn SFT {
            unimplemented!()
        }
        pub fn get_side_metadata(&self) -> Option<&SideMetadataSpec> {
            None
        }
    }
}

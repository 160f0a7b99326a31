//! Stand-in around the given tracing module.
use crate::policy::gc_work::TraceKind;
use crate::scheduler::GCWorker;
use crate::util::ObjectReference;
use crate::vm::VMBinding;

pub mod tracing;

pub trait Plan: 'static + Sync {
    type VM: VMBinding;
}

impl<VM: VMBinding> dyn Plan<VM = VM> {
    pub fn downcast_ref<P>(&self) -> Option<&P> {
        unimplemented!()
    }
}

pub trait PlanTraceObject<VM: VMBinding> {
    fn trace_object<Q: tracing::ObjectQueue, const KIND: TraceKind>(
        &self,
        queue: &mut Q,
        object: ObjectReference,
        worker: &mut GCWorker<VM>,
    ) -> ObjectReference;
    fn post_scan_object(&self, object: ObjectReference);
    fn may_move_objects<const KIND: TraceKind>() -> bool;
}

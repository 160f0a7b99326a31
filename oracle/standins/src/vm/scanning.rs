//! Stand-in: no roots are scanned; marks come from the script.
pub trait ObjectTracer {}
pub trait ObjectTracerContext {}
pub trait RootsWorkFactory<S> {}
pub trait SlotVisitor<S> {}
pub(crate) enum RootsKind {}

pub trait Scanning<VM> {
    const UNIQUE_OBJECT_ENQUEUING: bool;
}

//! Stand-in: no references are processed.
pub trait Finalizable {}
pub trait ReferenceGlue<VM> {}

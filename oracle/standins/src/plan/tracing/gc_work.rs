//! Stand-in: the given scheduler text names a default factory of root work; none is made.
pub mod root {
    use crate::mmtk::MMTK;
    use crate::vm::{RootsWorkFactory, VMBinding};
    use std::marker::PhantomData;

    pub struct DefaultRootsWorkFactory<VM, D, P>(PhantomData<(VM, D, P)>);

    impl<VM: VMBinding, D, P> DefaultRootsWorkFactory<VM, D, P> {
        pub fn new(_: &'static MMTK<VM>) -> Self {
            unimplemented!()
        }
    }

    impl<VM: VMBinding, D, P> RootsWorkFactory<VM::VMSlot> for DefaultRootsWorkFactory<VM, D, P> {}
}

//! Stand-in for the object model: mark bits on the side, and L read when a sweep runs.
use crate::util::metadata::header_metadata::HeaderMetadataSpec;
use crate::util::metadata::metadata_val_traits::MetadataValue;
use crate::util::{Address, ObjectReference};
use crate::vm::VMBinding;
use std::sync::atomic::Ordering;

/// Stands for the constant L: added to an address, it adds the L of the set-up.
#[derive(Clone, Copy)]
pub struct LowerBound;

impl std::ops::Add<LowerBound> for Address {
    type Output = Address;
    fn add(self, _: LowerBound) -> Address {
        self + lent::params().lower_bound
    }
}

pub mod specs {
    use crate::util::metadata::side_metadata::{spec_defs, SideMetadataSpec};
    use crate::util::metadata::MetadataSpec;
    use crate::util::ObjectReference;
    use crate::vm::VMBinding;
    use std::sync::atomic::Ordering;

    #[derive(Clone, Copy)]
    pub struct SideSpec(MetadataSpec);

    impl std::ops::Deref for SideSpec {
        type Target = MetadataSpec;
        fn deref(&self) -> &MetadataSpec {
            &self.0
        }
    }

    impl SideSpec {
        pub const MARK: SideSpec = SideSpec(MetadataSpec::OnSide(spec_defs::MARK_BIT));
        pub const LOG: SideSpec = SideSpec(MetadataSpec::OnSide(spec_defs::LOG_BIT));

        pub fn mark<VM: VMBinding>(&self, object: ObjectReference, ordering: Ordering) {
            self.store_atomic::<VM, u8>(object, 1, None, ordering);
        }
        pub fn is_marked<VM: VMBinding>(&self, object: ObjectReference, order: Ordering) -> bool {
            self.load_atomic::<VM, u8>(object, None, order) == 1
        }
        pub fn as_spec(&self) -> &MetadataSpec {
            &self.0
        }
        pub fn heap_bytes_per_unlog_byte(&self) -> usize {
            unimplemented!()
        }
    }
}
use specs::SideSpec;

/// Metadata in headers is named by the text and never used here.
pub trait ObjectModel<VM: VMBinding> {
    const LOCAL_MARK_BIT_SPEC: SideSpec = SideSpec::MARK;
    const GLOBAL_LOG_BIT_SPEC: SideSpec = SideSpec::LOG;
    const GLOBAL_FIELD_UNLOG_BIT_SPEC: SideSpec = SideSpec::LOG;
    const UNIFIED_OBJECT_REFERENCE_ADDRESS: bool;
    const OBJECT_REF_OFFSET_LOWER_BOUND: LowerBound = LowerBound;

    fn get_current_size(_: ObjectReference) -> usize {
        unimplemented!()
    }
    unsafe fn load_metadata<T: MetadataValue>(
        _: &HeaderMetadataSpec,
        _: ObjectReference,
        _: Option<T>,
    ) -> T {
        unimplemented!()
    }
    fn load_metadata_atomic<T: MetadataValue>(
        _: &HeaderMetadataSpec,
        _: ObjectReference,
        _: Option<T>,
        _: Ordering,
    ) -> T {
        unimplemented!()
    }
    unsafe fn store_metadata<T: MetadataValue>(
        _: &HeaderMetadataSpec,
        _: ObjectReference,
        _: T,
        _: Option<T>,
    ) {
        unimplemented!()
    }
    fn store_metadata_atomic<T: MetadataValue>(
        _: &HeaderMetadataSpec,
        _: ObjectReference,
        _: T,
        _: Option<T>,
        _: Ordering,
    ) {
        unimplemented!()
    }
    fn compare_exchange_metadata<T: MetadataValue>(
        _: &HeaderMetadataSpec,
        _: ObjectReference,
        _: T,
        _: T,
        _: Option<T>,
        _: Ordering,
        _: Ordering,
    ) -> Result<T, T> {
        unimplemented!()
    }
    fn fetch_add_metadata<T: MetadataValue>(
        _: &HeaderMetadataSpec,
        _: ObjectReference,
        _: T,
        _: Ordering,
    ) -> T {
        unimplemented!()
    }
    fn fetch_sub_metadata<T: MetadataValue>(
        _: &HeaderMetadataSpec,
        _: ObjectReference,
        _: T,
        _: Ordering,
    ) -> T {
        unimplemented!()
    }
    fn fetch_and_metadata<T: MetadataValue>(
        _: &HeaderMetadataSpec,
        _: ObjectReference,
        _: T,
        _: Ordering,
    ) -> T {
        unimplemented!()
    }
    fn fetch_or_metadata<T: MetadataValue>(
        _: &HeaderMetadataSpec,
        _: ObjectReference,
        _: T,
        _: Ordering,
    ) -> T {
        unimplemented!()
    }
    fn fetch_update_metadata<T: MetadataValue, F: FnMut(T) -> Option<T> + Copy>(
        _: &HeaderMetadataSpec,
        _: ObjectReference,
        _: Ordering,
        _: Ordering,
        _: F,
    ) -> Result<T, T> {
        unimplemented!()
    }
}

//! Stand-in: packets wait in their bucket until the driver runs them, one by one.
pub mod work;
pub mod worker;
pub use work::{GCWork, GCWorkContext};
pub use worker::GCWorker;

use crate::vm::VMBinding;
use std::cell::RefCell;

pub const EDGES_WORK_BUFFER_SIZE: usize = 4096;

#[derive(Clone, Copy)]
pub enum WorkBucketStage {
    Prepare,
    Release,
}

pub struct WorkBucket<VM: VMBinding>(RefCell<Vec<Box<dyn GCWork<VM>>>>);

impl<VM: VMBinding> WorkBucket<VM> {
    pub fn add(&self, packet: impl GCWork<VM>) {
        self.0.borrow_mut().push(Box::new(packet));
    }
    pub fn bulk_add(&self, packets: Vec<Box<dyn GCWork<VM>>>) {
        self.0.borrow_mut().extend(packets);
    }
    pub fn take(&self) -> Vec<Box<dyn GCWork<VM>>> {
        self.0.take()
    }
}

pub struct WorkBuckets<VM: VMBinding>([WorkBucket<VM>; 2]);

impl<VM: VMBinding> std::ops::Index<WorkBucketStage> for WorkBuckets<VM> {
    type Output = WorkBucket<VM>;
    fn index(&self, stage: WorkBucketStage) -> &WorkBucket<VM> {
        &self.0[stage as usize]
    }
}

pub struct GCWorkScheduler<VM: VMBinding> {
    pub work_buckets: WorkBuckets<VM>,
}

impl<VM: VMBinding> GCWorkScheduler<VM> {
    pub fn new() -> Self {
        let bucket = || WorkBucket(RefCell::default());
        GCWorkScheduler { work_buckets: WorkBuckets([bucket(), bucket()]) }
    }
    pub fn num_workers(&self) -> usize {
        1
    }
}

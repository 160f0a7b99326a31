//! Stand-in: the driver says how many mutators there are.
use crate::util::VMThread;
use crate::vm::VMBinding;

pub trait ActivePlan<VM: VMBinding> {
    fn is_mutator(_: VMThread) -> bool {
        true
    }
    fn number_of_mutators() -> usize {
        lent::mutators()
    }
}

//! Stand-in: numbers that metadata can hold, read and written where their address says.
use crate::util::Address;
pub use num_traits::{FromPrimitive, ToPrimitive, Zero};
use std::fmt::Debug;
use std::sync::atomic::*;

pub trait MetadataValue: Copy + Debug + Zero + ToPrimitive + FromPrimitive {
    const LOG2: u32;
    unsafe fn load_atomic(addr: Address, order: Ordering) -> Self;
    unsafe fn store_atomic(addr: Address, val: Self, order: Ordering);
    unsafe fn compare_exchange(
        addr: Address,
        old: Self,
        new: Self,
        success: Ordering,
        failure: Ordering,
    ) -> Result<Self, Self>;
    unsafe fn fetch_add(addr: Address, val: Self, order: Ordering) -> Self;
    unsafe fn fetch_sub(addr: Address, val: Self, order: Ordering) -> Self;
    unsafe fn fetch_and(addr: Address, val: Self, order: Ordering) -> Self;
    unsafe fn fetch_or(addr: Address, val: Self, order: Ordering) -> Self;
    unsafe fn fetch_update<F: FnMut(Self) -> Option<Self>>(
        addr: Address,
        set: Ordering,
        fetch: Ordering,
        f: F,
    ) -> Result<Self, Self>;
}

macro_rules! values {
    ($($n:ty, $a:ty, $log:expr;)*) => { $(
        impl MetadataValue for $n {
            const LOG2: u32 = $log;
            unsafe fn load_atomic(addr: Address, order: Ordering) -> Self {
                addr.as_ref::<$a>().load(order)
            }
            unsafe fn store_atomic(addr: Address, val: Self, order: Ordering) {
                addr.as_ref::<$a>().store(val, order)
            }
            unsafe fn compare_exchange(
                addr: Address, old: Self, new: Self, success: Ordering, failure: Ordering,
            ) -> Result<Self, Self> {
                addr.as_ref::<$a>().compare_exchange(old, new, success, failure)
            }
            unsafe fn fetch_add(addr: Address, val: Self, order: Ordering) -> Self {
                addr.as_ref::<$a>().fetch_add(val, order)
            }
            unsafe fn fetch_sub(addr: Address, val: Self, order: Ordering) -> Self {
                addr.as_ref::<$a>().fetch_sub(val, order)
            }
            unsafe fn fetch_and(addr: Address, val: Self, order: Ordering) -> Self {
                addr.as_ref::<$a>().fetch_and(val, order)
            }
            unsafe fn fetch_or(addr: Address, val: Self, order: Ordering) -> Self {
                addr.as_ref::<$a>().fetch_or(val, order)
            }
            unsafe fn fetch_update<F: FnMut(Self) -> Option<Self>>(
                addr: Address, set: Ordering, fetch: Ordering, f: F,
            ) -> Result<Self, Self> {
                addr.as_ref::<$a>().fetch_update(set, fetch, f)
            }
        }
    )* };
}
values! {
    u8, AtomicU8, 3;
    u16, AtomicU16, 4;
    u32, AtomicU32, 5;
    u64, AtomicU64, 6;
    usize, AtomicUsize, 6;
}

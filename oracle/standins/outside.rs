//! Stand-ins for the registry crates that the given text names: atomic, atomic_traits,
//! num_traits, downcast_rs, cfg_if, log and probe. The build links this crate under those names.

pub use std::sync::atomic::Ordering;
use std::sync::atomic::{AtomicU16, AtomicU32, AtomicU64, AtomicU8, AtomicUsize};

#[macro_export]
macro_rules! debug { ($($t:tt)*) => {{}}; }
#[macro_export]
macro_rules! trace { ($($t:tt)*) => {{}}; }
#[macro_export]
macro_rules! warn { ($($t:tt)*) => {{}}; }
#[macro_export]
macro_rules! probe { ($($t:tt)*) => {{}}; }
#[macro_export]
macro_rules! impl_downcast { ($($t:tt)*) => {}; }

/// Two arms are all that the text uses.
#[macro_export]
macro_rules! cfg_if {
    (if #[cfg($m:meta)] { $($a:tt)* } else { $($b:tt)* }) => {
        #[cfg($m)] $crate::same! { $($a)* }
        #[cfg(not($m))] $crate::same! { $($b)* }
    };
}
#[macro_export]
macro_rules! same { ($($t:tt)*) => { $($t)* }; }

pub trait Downcast: 'static {}
impl<T: 'static> Downcast for T {}

/// An atomic cell and the number in it (atomic_traits).
pub trait Atomic {
    type Type;
    fn load(&self, order: Ordering) -> Self::Type;
    fn store(&self, val: Self::Type, order: Ordering);
    fn compare_exchange(
        &self,
        old: Self::Type,
        new: Self::Type,
        success: Ordering,
        failure: Ordering,
    ) -> Result<Self::Type, Self::Type>;
}

pub trait Zero {
    fn zero() -> Self;
    fn is_zero(&self) -> bool;
}
pub trait FromPrimitive: Sized {
    fn from_u8(n: u8) -> Option<Self>;
}
pub trait ToPrimitive {
    fn to_u8(&self) -> Option<u8>;
}

macro_rules! numbers {
    ($($n:ty, $a:ty;)*) => { $(
        impl Atomic for $a {
            type Type = $n;
            fn load(&self, order: Ordering) -> $n { <$a>::load(self, order) }
            fn store(&self, val: $n, order: Ordering) { <$a>::store(self, val, order) }
            fn compare_exchange(
                &self, old: $n, new: $n, success: Ordering, failure: Ordering,
            ) -> Result<$n, $n> {
                <$a>::compare_exchange(self, old, new, success, failure)
            }
        }
        impl Zero for $n {
            fn zero() -> $n { 0 }
            fn is_zero(&self) -> bool { *self == 0 }
        }
        impl FromPrimitive for $n {
            fn from_u8(n: u8) -> Option<$n> { Some(n as $n) }
        }
        impl ToPrimitive for $n {
            fn to_u8(&self) -> Option<u8> { u8::try_from(*self).ok() }
        }
    )* };
}
numbers! {
    u8, AtomicU8;
    u16, AtomicU16;
    u32, AtomicU32;
    u64, AtomicU64;
    usize, AtomicUsize;
}

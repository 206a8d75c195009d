// Ours, not blart's: stands for src/rust_nightly_apis.rs. The hints say nothing here, because they change speed alone.

use core::mem::MaybeUninit;

macro_rules! likely {
    ($condition:expr) => {
        $condition
    };
}
pub(crate) use likely;

macro_rules! unlikely {
    ($condition:expr) => {
        $condition
    };
}
pub(crate) use unlikely;

/// Read a slice whose elements are all known to be written.
///
/// # Safety
///  - Every element must be initialised.
pub unsafe fn maybe_uninit_slice_assume_init_ref<T>(slice: &[MaybeUninit<T>]) -> &[T] {
    // SAFETY: `MaybeUninit<T>` has the layout of `T`, and the caller vouches for the elements
    unsafe { &*(slice as *const [MaybeUninit<T>] as *const [T]) }
}

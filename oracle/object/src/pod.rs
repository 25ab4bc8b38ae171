//! Records seen as their bytes.

/// A record whose bytes all belong to its fields.
///
/// # Safety
///
/// The type has no padding, so that every byte of it may be read.
pub unsafe trait Pod {}

// SAFETY: an array has no bytes between its elements.
unsafe impl<T: Pod, const N: usize> Pod for [T; N] {}

/// The bytes of a record, in the order of its fields.
pub fn bytes_of<T: Pod>(value: &T) -> &[u8] {
    // SAFETY: the range is exactly the value, and `Pod` says that all of it is set.
    unsafe { std::slice::from_raw_parts(std::ptr::from_ref(value).cast(), size_of::<T>()) }
}

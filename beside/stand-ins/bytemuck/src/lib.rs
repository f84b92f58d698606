//! Stand-in for `bytemuck`: the marker traits and the two casts to bytes that `tapes` uses.

/// # Safety
///
/// All bytes zero must be a value of the type.
pub unsafe trait Zeroable: Sized {
    fn zeroed() -> Self {
        // SAFETY: the trait's promise.
        unsafe { core::mem::zeroed() }
    }
}

/// # Safety
///
/// No byte of a value may be uninitialised (no padding).
pub unsafe trait NoUninit: Copy + 'static {}

/// # Safety
///
/// All bytes whatever must be a value of the type, and none of a value uninitialised.
pub unsafe trait Pod: Zeroable + NoUninit {}

macro_rules! plain {
    ($($number:ty)*) => {$(
        // SAFETY: whole numbers have no padding and take all bytes.
        unsafe impl Zeroable for $number {}
        unsafe impl NoUninit for $number {}
        unsafe impl Pod for $number {}
    )*};
}

plain! { u8 u16 u32 u64 u128 }

// SAFETY: arrays have no padding between their elements.
unsafe impl<T: Zeroable, const N: usize> Zeroable for [T; N] {}
unsafe impl<T: NoUninit, const N: usize> NoUninit for [T; N] {}
unsafe impl<T: Pod, const N: usize> Pod for [T; N] {}

pub fn cast_slice<T: NoUninit>(values: &[T]) -> &[u8] {
    // SAFETY: every byte is initialised, and bytes need no alignment.
    unsafe { core::slice::from_raw_parts(values.as_ptr().cast(), size_of_val(values)) }
}

pub fn cast_slice_mut<T: Pod>(values: &mut [T]) -> &mut [u8] {
    // SAFETY: as above, and every byte that may be written leaves a value of the type.
    unsafe { core::slice::from_raw_parts_mut(values.as_mut_ptr().cast(), size_of_val(values)) }
}

#[test]
fn casts() {
    assert_eq!(cast_slice(&[[1u8, 2], [3, 4]]), [1, 2, 3, 4]);
    let mut values = [u16::zeroed(); 2];
    cast_slice_mut(&mut values).fill(1);
    assert_eq!(values, [0x0101; 2]);
}

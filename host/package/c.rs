//! The calls under their names of C, as include/rainbow.h declares them. Each makes slices of the pointers and lengths
//! that it is given and hands them on. No other file has unsafe code.
// USES
use core::slice;

/// Says to the compiler that what calls it is rare, so that the way of the other calls is straight.
#[cold]
#[inline(never)]
fn rare() {}

/// The bytes that C lends. NULL is no bytes, whatever the length said, and so is a length that no buffer can have:
/// every call refuses them by 1.
#[inline(always)]
unsafe fn lent<'a>(bytes: *const u8, length: usize) -> &'a [u8] {
    if bytes.is_null() || length > isize::MAX as usize {
        rare();
        return &[];
    }
    unsafe { slice::from_raw_parts(bytes, length) }
}

/// The same, of bytes that may change.
#[inline(always)]
unsafe fn lent_mut<'a>(bytes: *mut u8, length: usize) -> &'a mut [u8] {
    if bytes.is_null() || length > isize::MAX as usize {
        rare();
        return &mut [];
    }
    unsafe { slice::from_raw_parts_mut(bytes, length) }
}

#[link(name = "c")]
extern "C" {
    fn abort() -> !;
}

/// What a place outside of a slice or a sum that wraps would come to. It is proved that there is none.
#[panic_handler]
fn fault(_: &core::panic::PanicInfo) -> ! {
    unsafe { abort() }
}

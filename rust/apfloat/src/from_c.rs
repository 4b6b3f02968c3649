//! The functions that C calls. All unsafe code of the crate is here: it makes slices of the pointers and lengths that C
//! passes. `include/apfloat.h` says what the caller has to ensure of pointers.
//!
//! C need not have initialized the answers and the bytes for results that it lends. A library that is compiled apart
//! from its callers cannot tell, and no function reads any of them before it has written it.
#![allow(unsafe_code)]

use core::slice;

/// `export! { fn name(parameter: type, ..) -> u32 }` makes the function of that name in the module one that C calls by
/// it. `&[u8]` and `&mut [u8]` are a pointer and a length in C. All else is passed as it is: `&mut Type` is a pointer.
macro_rules! export {
    // What made the library is the one answer that is not of the text.
    (fn apfloat_made_by() -> u32) => {
        #[allow(unsafe_code)]
        const _: () = {
            #[unsafe(no_mangle)]
            extern "C" fn apfloat_made_by() -> u32 {
                $crate::from_c::RUSTC
            }
        };
    };
    (fn $name:ident($($parameters:tt)*) -> $returned:ty) => {
        $crate::from_c::export! { $name $returned [] [] $($parameters)*, }
    };
    // The next parameter adds to what C passes, and to the arguments.
    ($name:ident $returned:ty [$($passed:tt)*] [$($arguments:tt)*] $of:ident: &[u8], $($rest:tt)*) => {
        $crate::from_c::export! {
            $name $returned [$($passed)* $of: *const u8, length: usize,]
            [$($arguments)* unsafe { $crate::from_c::bytes($of, length) },] $($rest)*
        }
    };
    ($name:ident $returned:ty [$($passed:tt)*] [$($arguments:tt)*] $of:ident: &mut [u8], $($rest:tt)*) => {
        $crate::from_c::export! {
            $name $returned [$($passed)* $of: *mut u8, length: usize,]
            [$($arguments)* unsafe { $crate::from_c::bytes_for_results($of, length) },] $($rest)*
        }
    };
    ($name:ident $returned:ty [$($passed:tt)*] [$($arguments:tt)*] $of:ident: $type:ty, $($rest:tt)*) => {
        $crate::from_c::export! { $name $returned [$($passed)* $of: $type,] [$($arguments)* $of,] $($rest)* }
    };
    ($name:ident $returned:ty [$($passed:tt)*] [$($arguments:tt)*] $(,)?) => {
        #[allow(unsafe_code)]
        const _: () = {
            #[unsafe(no_mangle)]
            unsafe extern "C" fn $name($($passed)*) -> $returned {
                self::$name($($arguments)*)
            }
        };
    };
}
pub(crate) use export;

/// `APFLOAT_MADE_BY_RUSTC` of `include/apfloat.h`.
pub(crate) const RUSTC: u32 = 2;

/// The bytes that C lends.
///
/// # Safety
///
/// `first` is not null, so many bytes begin there, and nothing writes to them during the call.
#[inline(always)]
pub(crate) unsafe fn bytes<'a>(first: *const u8, length: usize) -> &'a [u8] {
    unsafe { slice::from_raw_parts(first, length) }
}

/// The bytes that C lends for results.
///
/// # Safety
///
/// `first` is not null, so many bytes begin there, and nothing else reads or writes them during the call.
#[inline(always)]
pub(crate) unsafe fn bytes_for_results<'a>(first: *mut u8, length: usize) -> &'a mut [u8] {
    unsafe { slice::from_raw_parts_mut(first, length) }
}

/// What rustc wants for an index out of range and the like, none of which happens: that was proved with the contracts.
/// In a debug build, the standard library prints what it was.
#[cfg(not(debug_assertions))]
mod panics {
    unsafe extern "C" {
        safe fn abort() -> !;
    }

    #[panic_handler]
    fn panic(_: &core::panic::PanicInfo<'_>) -> ! {
        abort()
    }
}

//! The proved library: each call of the table as a C function of include/gawherino.h. The only unsafe code but for the clock of bench.rs.

use crate::calls::{every_call, Calls};

/// The library. "A pointer that goes with the length 0 may be anything": `null_if_empty` lends null there, and else Rust's own.
pub struct Library {
    pub null_if_empty: bool,
}

impl Library {
    fn at<T>(&self, slice: &[T]) -> *const T {
        if self.null_if_empty && slice.is_empty() {
            return std::ptr::null();
        }
        slice.as_ptr()
    }

    fn at_mut<T>(&self, slice: &mut [T]) -> *mut T {
        if self.null_if_empty && slice.is_empty() {
            return std::ptr::null_mut();
        }
        slice.as_mut_ptr()
    }
}

/// Declares and calls the C function: parameter by parameter, a slice becomes a pointer and how many elements are lent.
macro_rules! in_c {
    ($self:ident $name:ident ($x:ident: &[$type:ty], $($left:tt)*) ($($declared:tt)*) ($($passed:tt)*)) => {
        in_c!($self $name ($($left)*) ($($declared)* $x: *const $type, _: usize,) ($($passed)* $self.at($x), $x.len(),))
    };
    ($self:ident $name:ident ($x:ident: &mut [$type:ty], $($left:tt)*) ($($declared:tt)*) ($($passed:tt)*)) => {
        in_c!($self $name ($($left)*) ($($declared)* $x: *mut $type, _: usize,) ($($passed)* $self.at_mut($x), $x.len(),))
    };
    ($self:ident $name:ident ($x:ident: $number:ty, $($left:tt)*) ($($declared:tt)*) ($($passed:tt)*)) => {
        in_c!($self $name ($($left)*) ($($declared)* $x: $number,) ($($passed)* $x,))
    };
    ($self:ident $name:ident () ($($declared:tt)*) ($($passed:tt)*)) => {{
        extern "C" {
            #[link_name = concat!("gawherino_", stringify!($name))]
            fn foreign($($declared)*) -> u32;
        }
        // SAFETY: each pointer goes with the length of the slice it was taken from, and Rust's rules for slices see to it that no two of
        // them overlap if one is written. That is all that the header asks of a caller; tests/documents.rs compares its declarations.
        unsafe { foreign($($passed)*) }
    }};
}

macro_rules! library {
    ($(fn $name:ident($($parameters:tt)*);)*) => {
        impl Calls for Library {
            fn name(&self) -> &'static str {
                "library"
            }

            $(fn $name(&self, $($parameters)*) -> u32 {
                in_c!(self $name ($($parameters)*,) () ())
            })*
        }
    };
}
every_call!(library);

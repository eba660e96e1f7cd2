//! Types whose values are their bytes.

use std::marker::PhantomData;
use std::mem::{align_of, size_of};

/// A type whose values are their bytes: numbers, `bool`, arrays of such types, and the structs without padding and the enums without fields that
/// [`pod!`](crate::pod) declares. A value of it can lie in a chunk, and a restore brings it back.
///
/// Of numbers and of types made of numbers, any bytes are a value. Of `bool` and of enums some bytes are none: a call that finds such bytes in
/// a chunk returns [`Error::NoValue`](crate::Error::NoValue).
///
/// # Safety
///
/// Any bytes of the type's length are a value of it if `is_value` returns `true` for them, none of its bytes is padding, and it has no pointer,
/// reference or cell in it. If `ANY_BYTES` is `true`, any bytes of its length are a value of it.
pub unsafe trait Pod: Copy + 'static {
    /// Whether any bytes are a value, so that nothing needs to be tested.
    const ANY_BYTES: bool = true;

    /// Returns whether these bytes, as many as the type has, are a value.
    fn is_value(_bytes: &[u8]) -> bool {
        true
    }
}

macro_rules! numbers {
    ($($number:ty)*) => {
        $(
            // SAFETY: any bytes are a number, and a number has no padding.
            unsafe impl Pod for $number {}
        )*
    };
}

numbers!(u8 u16 u32 u64 u128 usize i8 i16 i32 i64 i128 isize f32 f64);

// SAFETY: a `bool` is one byte, 0 or 1.
unsafe impl Pod for bool {
    const ANY_BYTES: bool = false;

    fn is_value(bytes: &[u8]) -> bool {
        bytes[0] <= 1
    }
}

// SAFETY: an array is its elements, one after the other.
unsafe impl<T: Pod, const N: usize> Pod for [T; N] {
    const ANY_BYTES: bool = T::ANY_BYTES;

    fn is_value(bytes: &[u8]) -> bool {
        T::ANY_BYTES || bytes.chunks_exact(size_of::<T>()).all(T::is_value)
    }
}

/// Refuses at compile time a type that is longer, or aligned to more, than a chunk is.
pub(crate) struct Fits<T>(PhantomData<T>);

impl<T: Pod> Fits<T> {
    pub const IN_A_CHUNK: () = assert!(
        size_of::<T>() <= 65_536 && align_of::<T>() <= 16,
        "a chunk has at most 65,536 bytes, and is aligned to 16"
    );
}

/// For the macro [`pod!`](crate::pod): whether a struct is as long as its fields, so that it has no padding.
pub const fn same(whole: usize, fields: &[usize]) -> bool {
    let (mut sum, mut k) = (0, 0);
    while k < fields.len() {
        sum += fields[k];
        k += 1;
    }
    sum == whole
}

/// Declares types that are [`Pod`]: structs each of whose fields is, without padding between or behind the fields, and enums without fields.
///
/// The macro adds `#[derive(Clone, Copy)]` to each, `#[repr(C)]` to a struct and `#[repr(u8)]` to an enum. Don't write these yourself: the compiler
/// refuses a second `derive(Clone)` or `derive(Copy)` with error E0119 (conflicting implementations). Other derives, as `Debug` or `PartialEq`,
/// stand before the type as usual. A struct that has padding doesn't compile: give it a field that fills the padding, as `rest: [u8; 2]`.
///
/// ```
/// dymelor::pod! {
///     /// Who owns a cell.
///     #[derive(Debug, PartialEq)]
///     pub enum Owner {
///         Nobody,
///         Ann,
///         Bob = 7,
///     }
///
///     /// One cell of a board.
///     #[derive(Debug, PartialEq)]
///     pub struct Cell {
///         pub owner: Owner,
///         pub is_locked: bool,
///         rest: [u8; 2],
///         pub strength: u32,
///     }
/// }
/// ```
///
/// ```compile_fail
/// dymelor::pod! {
///     struct Padded {
///         small: u8,
///         large: u64,
///     }
/// }
/// ```
///
/// ```compile_fail
/// dymelor::pod! {
///     struct Pointing {
///         name: &'static str,
///     }
/// }
/// ```
///
/// ```compile_fail,E0119
/// dymelor::pod! {
///     #[derive(Clone)]
///     struct Twice {
///         number: u64,
///     }
/// }
/// ```
#[macro_export]
macro_rules! pod {
    () => {};
    ($(#[$outer:meta])* $visible:vis struct $name:ident {
        $($(#[$inner:meta])* $shown:vis $field:ident: $type:ty),* $(,)?
    } $($rest:tt)*) => {
        $(#[$outer])*
        #[derive(Clone, Copy)]
        #[repr(C)]
        $visible struct $name {
            $($(#[$inner])* $shown $field: $type,)*
        }

        const _: () = {
            const fn is_pod<T: $crate::Pod>() {}
            $(is_pod::<$type>();)*
            assert!(
                $crate::private::same(
                    ::core::mem::size_of::<$name>(),
                    &[$(::core::mem::size_of::<$type>()),*],
                ),
                "the struct has padding: add a field that fills it",
            );
        };

        // SAFETY: each field is `Pod`, and they are all that the struct has, in this order, as was asserted.
        #[allow(unsafe_code)]
        unsafe impl $crate::Pod for $name {
            const ANY_BYTES: bool = true $(&& <$type as $crate::Pod>::ANY_BYTES)*;

            fn is_value(bytes: &[u8]) -> bool {
                let mut _fields = bytes;
                $(
                    let (_field, _behind) = _fields.split_at(::core::mem::size_of::<$type>());
                    if !<$type as $crate::Pod>::is_value(_field) {
                        return false;
                    }
                    _fields = _behind;
                )*
                true
            }
        }

        $crate::pod! { $($rest)* }
    };
    ($(#[$outer:meta])* $visible:vis enum $name:ident {
        $($(#[$inner:meta])* $variant:ident $(= $number:expr)?),+ $(,)?
    } $($rest:tt)*) => {
        $(#[$outer])*
        #[derive(Clone, Copy)]
        #[repr(u8)]
        $visible enum $name {
            $($(#[$inner])* $variant $(= $number)?,)+
        }

        // SAFETY: the enum is one byte, which is the number of one of its variants, and those have no fields.
        #[allow(unsafe_code)]
        unsafe impl $crate::Pod for $name {
            const ANY_BYTES: bool = false;

            fn is_value(bytes: &[u8]) -> bool {
                [$($name::$variant as u8),+].contains(&bytes[0])
            }
        }

        $crate::pod! { $($rest)* }
    };
}

//! What a case gives for one parameter of a call: a number, a slice whole, or room, which is lent full of a pattern.

use std::fmt::Debug;

/// What slices are made of.
pub trait Element: Copy + Debug {
    /// Its type in C.
    const C: &'static str;
    /// The pattern's element at a place.
    fn at(place: usize) -> Self;
    fn given(list: Vec<Self>) -> Given;
    fn slice(given: &Given) -> &[Self];
    fn slice_mut(given: &mut Given) -> &mut [Self];
}

macro_rules! elements {
    ($($of:ident: $type:ty, $c:literal, $made:expr;)*) => {
        /// What a case gives for one parameter, or what is there after the call.
        #[derive(Clone, Debug, PartialEq, Eq)]
        pub enum Given {
            Number(u64),
            Room(usize),
            $($of(Vec<$type>),)*
        }

        impl Given {
            /// In hexadecimal, so that it can be built again by hand; of a slice longer than `most` its beginning alone.
            pub fn show(&self, most: usize) -> String {
                match self {
                    Given::Number(number) => format!("{number:x}"),
                    Given::Room(length) => format!("({length} lent)"),
                    $(Given::$of(list) if list.len() > most => format!("{} .. {} in all", hex(&list[..most]), list.len()),
                    Given::$of(list) => hex(list),)*
                }
            }
        }

        $(impl Element for $type {
            const C: &'static str = $c;

            fn at(place: usize) -> $type {
                let made: fn(u64) -> $type = $made;
                made((place as u64 + 1).wrapping_mul(0x9E37_79B9_7F4A_7C15))
            }

            fn given(list: Vec<$type>) -> Given {
                Given::$of(list)
            }

            fn slice(given: &Given) -> &[$type] {
                let Given::$of(list) = given else { panic!("{given:?} is no slice of {}", $c) };
                list
            }

            fn slice_mut(given: &mut Given) -> &mut [$type] {
                let Given::$of(list) = given else { panic!("{given:?} is no slice of {}", $c) };
                list
            }
        })*
    };
}

// An element's type here and in C, and how one is made of 64 bits. A struct, if it is repr(C), needs no more than its line either.
elements! {
    U8: u8, "uint8_t", |bits| (bits >> 56) as u8;
    U16: u16, "uint16_t", |bits| (bits >> 48) as u16;
    U32: u32, "uint32_t", |bits| (bits >> 32) as u32;
    U64: u64, "uint64_t", |bits| bits;
}

/// What lent slices hold before a call, so that a rest that was not kept shows.
pub fn pattern<T: Element>(length: usize) -> Vec<T> {
    (0..length).map(T::at).collect()
}

/// Elements in hexadecimal, each as wide as its type.
pub fn hex<T: Debug>(list: &[T]) -> String {
    let width = 2 * std::mem::size_of::<T>();
    let elements: Vec<String> = list.iter().map(|element| format!("{element:0width$x?}")).collect();
    format!("[{}]", elements.join(" "))
}

impl<T: Element> From<&[T]> for Given {
    fn from(list: &[T]) -> Given {
        T::given(list.to_vec())
    }
}

impl<T: Element> From<&Vec<T>> for Given {
    fn from(list: &Vec<T>) -> Given {
        T::given(list.clone())
    }
}

impl From<usize> for Given {
    fn from(length: usize) -> Given {
        Given::Room(length)
    }
}

/// A parameter of a call.
pub struct Parameter {
    pub name: &'static str,
    pub kind: Kind,
    /// The type of the number, or of the slice's elements, in C.
    pub c: &'static str,
    /// A slice of this length for it, full of the pattern.
    pub room: fn(usize) -> Given,
}

pub enum Kind {
    Number,
    Input,
    Output,
}

/// A parameter's type: its description but for the name, and how what is given for it is passed.
pub trait Passed<'a> {
    const FORM: Parameter;
    fn passed(given: &'a mut Given) -> Self;
}

const fn slice_of<T: Element>(kind: Kind) -> Parameter {
    Parameter { name: "", kind, c: T::C, room: |length| T::given(pattern(length)) }
}

impl<'a, T: Element> Passed<'a> for &'a [T] {
    const FORM: Parameter = slice_of::<T>(Kind::Input);

    fn passed(given: &'a mut Given) -> &'a [T] {
        T::slice(given)
    }
}

impl<'a, T: Element> Passed<'a> for &'a mut [T] {
    const FORM: Parameter = slice_of::<T>(Kind::Output);

    fn passed(given: &'a mut Given) -> &'a mut [T] {
        T::slice_mut(given)
    }
}

/// Numbers that are passed as they are.
macro_rules! numbers {
    ($($type:ty),*) => {
        $(impl From<$type> for Given {
            fn from(number: $type) -> Given {
                Given::Number(number.into())
            }
        }

        impl Passed<'_> for $type {
            const FORM: Parameter = slice_of::<$type>(Kind::Number);

            fn passed(given: &mut Given) -> $type {
                let Given::Number(number) = given else { panic!("{given:?} is no number") };
                (*number).try_into().expect(concat!("a number of type ", stringify!($type)))
            }
        })*
    };
}
numbers!(u32, u64);

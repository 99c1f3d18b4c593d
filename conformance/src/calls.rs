//! The table of calls: for each its name and what it is lent, from which come the interface that the library, the reference and plain.rs
//! share, the descriptions that cases are run, shown and made smaller by, and the library's declarations.

use crate::cases::{Call, Case};
use crate::lent::{Given, Parameter, Passed};

/// The calls as include/gawherino.h has them, which tests/documents.rs compares. A parameter's name says its form: plan bytes, a table, rec
/// (a record), a word. Hands the table to the macro that is named, behind what it is to be told.
macro_rules! every_call {
    ($to:ident $($told:tt)*) => {
        $to! {
            $($told)*
            fn read(plan: &[u8], counts: &mut [u32]);
            fn prepare(plan: &[u8], party: u32, table: &mut [u64], letters: &mut [u8], evidence: &mut [u32]);
            fn look_ahead(plan: &[u8], party: u32, letters: &mut [u8], evidence: &mut [u32]);
            fn count(plan: &[u8]);
            fn check(plan: &[u8], party: u32, claim: &[u32], letters: &[u8]);
            fn write(plan: &[u8], out: &mut [u8]);
            fn needs(plan: &[u8], party: u32, needs: &mut [u16]);
            fn page(plan: &[u8], party: u32, page: &mut [u8], length: &mut [u64]);
            fn step(table: &[u64], set: u64, letter: u32, next: &mut [u64]);
            fn walk(table: &[u64], word: &[u8], sets: &mut [u64], length: &mut [u64]);
            fn judge(table: &[u64], state: u32, letter: u32, word: &[u8], sets: &mut [u64]);
            fn open(table: &[u64], rec: &mut [u8], position: &mut [u32]);
            fn feed(table: &[u64], rec: &mut [u8], letter: u32, position: &mut [u32]);
            fn finish(table: &[u64], rec: &[u8], sets: &mut [u64]);
            fn group(refusal: u32);
        }
    };
}
pub(crate) use every_call;

/// A call's description.
pub struct Description {
    pub name: &'static str,
    pub parameters: &'static [Parameter],
    /// Runs it with what is given for each parameter.
    pub run: fn(&dyn Calls, &mut [Given]) -> u32,
}

impl Description {
    /// Whether it has a parameter of this name.
    pub fn takes(&self, name: &str) -> bool {
        self.parameters.iter().any(|parameter| parameter.name == name)
    }
}

macro_rules! interface {
    ($(fn $name:ident($($parameter:ident: $type:ty),*);)*) => {
        /// Each call over slices: a value, or 65,536 plus the refusal.
        pub trait Calls: Sync {
            fn name(&self) -> &'static str;
            $(fn $name(&self, $($parameter: $type),*) -> u32;)*
        }

        pub static CALLS: &[Description] = &[$(Description {
            name: stringify!($name),
            parameters: &[$(Parameter { name: stringify!($parameter), ..<$type as Passed>::FORM }),*],
            run: |calls, given| {
                let mut given = given.iter_mut();
                calls.$name($(<$type as Passed>::passed(given.next().expect(stringify!($parameter)))),*)
            },
        }),*];

        /// A case of each call: for a slice its elements, or the length of one that is lent full of the pattern.
        impl Case {
            $(pub fn $name($($parameter: impl Into<Given>),*) -> Case {
                Case::Call(Call::new(stringify!($name), vec![$($parameter.into()),*]))
            })*
        }
    };
}
every_call!(interface);

/// Implements the interface by functions of the same names, whose results are made one number by `$answer`.
macro_rules! by_functions {
    ($side:ident $name:literal $answer:ident $(fn $call:ident($($parameter:ident: $type:ty),*);)*) => {
        impl crate::calls::Calls for $side {
            fn name(&self) -> &'static str {
                $name
            }

            $(fn $call(&self, $($parameter: $type),*) -> u32 {
                $answer(self::$call($($parameter),*))
            })*
        }
    };
}
pub(crate) use by_functions;

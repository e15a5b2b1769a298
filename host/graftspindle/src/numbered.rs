//! Enums whose cases are numbers of the definition, each with its words.

use std::fmt;

/// A number that the definition does not have.
#[derive(Clone, Copy, Debug, PartialEq, Eq)]
pub struct Undefined(pub u64);

impl fmt::Display for Undefined {
    fn fmt(&self, f: &mut fmt::Formatter) -> fmt::Result {
        write!(f, "{} is a number that the definition does not have", self.0)
    }
}

impl std::error::Error for Undefined {}

/// A row for each case: its number, its name, its words. It is shown as `23: the register or copy is not in order`.
macro_rules! numbered {
    ($(#[$about:meta])* $name:ident { $($number:literal $case:ident $words:literal)* }) => {
        $(#[$about])*
        #[derive(Clone, Copy, Debug, PartialEq, Eq, PartialOrd, Ord, Hash)]
        #[non_exhaustive]
        pub enum $name {
            $(#[doc = concat!($number, ": ", $words, ".")] $case = $number,)*
        }

        impl $name {
            /// The definition's number.
            pub fn number(self) -> u64 {
                self as u64
            }

            /// What the number means. Nothing decides by these words: they are for people to read.
            pub fn words(self) -> &'static str {
                match self {
                    $($name::$case => $words,)*
                }
            }
        }

        impl TryFrom<u64> for $name {
            type Error = $crate::Undefined;

            fn try_from(number: u64) -> Result<$name, $crate::Undefined> {
                match number {
                    $($number => Ok($name::$case),)*
                    other => Err($crate::Undefined(other)),
                }
            }
        }

        impl std::fmt::Display for $name {
            fn fmt(&self, f: &mut std::fmt::Formatter) -> std::fmt::Result {
                write!(f, "{:02}: {}", self.number(), self.words())
            }
        }

        impl std::error::Error for $name {}
    };
}

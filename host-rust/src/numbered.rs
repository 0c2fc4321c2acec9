//! Enums whose variants have a number and a sentence each.

use core::error::Error;
use core::fmt;

/// A number that the enum asked has no variant for.
#[derive(Clone, Copy, Debug, PartialEq, Eq, Hash)]
pub struct UnknownNumber(pub u64);

impl fmt::Display for UnknownNumber {
    fn fmt(&self, f: &mut fmt::Formatter<'_>) -> fmt::Result {
        write!(f, "no variant has the number {}", self.0)
    }
}

impl Error for UnknownNumber {}

// Each variant's sentence is its documentation and what it displays.
macro_rules! numbered {
    ($(#[$about:meta])* $name:ident { $($variant:ident = $number:literal, $sentence:literal;)+ }) => {
        $(#[$about])*
        #[non_exhaustive]
        #[derive(Clone, Copy, Debug, PartialEq, Eq, Hash)]
        pub enum $name {
            $(#[doc = concat!($number, ": ", $sentence, ".")] $variant = $number,)+
        }

        impl $name {
            /// Every variant, by rising number.
            pub const ALL: &'static [$name] = &[$($name::$variant),+];

            /// The number that the call answers with.
            pub const fn number(self) -> u64 {
                self as u64
            }

            const fn sentence(self) -> &'static str {
                match self {
                    $($name::$variant => $sentence,)+
                }
            }
        }

        impl TryFrom<u64> for $name {
            type Error = $crate::UnknownNumber;

            fn try_from(number: u64) -> Result<$name, $crate::UnknownNumber> {
                $name::ALL.iter().copied().find(|known| known.number() == number).ok_or($crate::UnknownNumber(number))
            }
        }

        impl core::fmt::Display for $name {
            fn fmt(&self, f: &mut core::fmt::Formatter<'_>) -> core::fmt::Result {
                write!(f, "{} ({})", self.sentence(), self.number())
            }
        }

        impl core::error::Error for $name {}
    };
}

pub(crate) use numbered;

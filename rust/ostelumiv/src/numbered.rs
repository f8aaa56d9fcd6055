//! Enums whose cases document 01 gives a number each: what all of them can do.

/// Makes such an enum from its cases, in ascending order of their numbers.
macro_rules! numbered {
    (
        $(#[$about:meta])*
        pub enum $name:ident {
            $($(#[$about_case:meta])* $case:ident = $number:literal,)+
        }
    ) => {
        $(#[$about])*
        #[derive(Debug, Clone, Copy, PartialEq, Eq)]
        #[repr(u8)]
        pub enum $name {
            $($(#[$about_case])* $case = $number,)+
        }

        impl $name {
            /// Every case, in ascending order of their numbers.
            pub const ALL: &'static [Self] = &[$(Self::$case,)+];

            pub fn number(self) -> u8 {
                self as u8
            }

            pub fn from_number(number: u8) -> Option<Self> {
                match number {
                    $($number => Some(Self::$case),)+
                    _ => None,
                }
            }

            pub fn name(self) -> &'static str {
                match self {
                    $(Self::$case => stringify!($case),)+
                }
            }
        }
    };
}

pub(crate) use numbered;

//! Enums over the numbers of the C interface, made to grow.

/// An enum with a name and words for each number listed, and `Other` for all the rest.
macro_rules! numbered {
    (
        $(#[$about:meta])*
        $type:ident: $number:ty {
            $($(#[$doc:meta])* $name:ident = $value:literal, $words:literal;)*
        }
    ) => {
        $(#[$about])*
        #[derive(Clone, Copy, Debug, PartialEq, Eq, Hash)]
        #[non_exhaustive]
        pub enum $type {
            $($(#[$doc])* $name,)*
            /// A number that has no name here: a newer library gave it. Made by `from`, it never
            /// holds a number that has a name; a newer version of this crate may give it one, so
            /// ask for such a number by `number()`.
            Other($number),
        }

        impl $type {
            /// Its number in the C interface.
            pub const fn number(self) -> $number {
                match self {
                    $($type::$name => $value,)*
                    $type::Other(number) => number,
                }
            }

            /// What it is in English, if it has a name here.
            pub const fn words(self) -> Option<&'static str> {
                match self {
                    $($type::$name => Some($words),)*
                    $type::Other(_) => None,
                }
            }
        }

        impl From<$number> for $type {
            fn from(number: $number) -> $type {
                match number {
                    $($value => $type::$name,)*
                    _ => $type::Other(number),
                }
            }
        }
    };
}

pub(crate) use numbered;

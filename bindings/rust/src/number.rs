//! The numbers of the wire as types.

/// Defines a 16-bit number of the wire as a type of its own, with a constant
/// for each value that has a name. Other values are kept as they are.
///
/// `$format` is how the number itself is shown, as `"{}"` or `"{:#06x}"`.
macro_rules! wire_number {
    (
        $(#[$type_doc:meta])*
        $type:ident, $format:literal,
        $( $(#[$value_doc:meta])* $name:ident = $value:literal, )+
    ) => {
        $(#[$type_doc])*
        #[derive(Clone, Copy, PartialEq, Eq, PartialOrd, Ord, Hash)]
        pub struct $type(
            /// The number on the wire.
            pub u16,
        );

        impl $type {
            $( $(#[$value_doc])* pub const $name: Self = Self($value); )+

            /// The name of this value, if it has one.
            #[must_use]
            pub const fn name(self) -> Option<&'static str> {
                match self.0 {
                    $( $value => Some(stringify!($name)), )+
                    _ => None,
                }
            }
        }

        impl core::fmt::Display for $type {
            /// The number, and its name in brackets if it has one.
            fn fmt(&self, f: &mut core::fmt::Formatter<'_>) -> core::fmt::Result {
                write!(f, $format, self.0)?;
                match self.name() {
                    Some(name) => write!(f, " ({name})"),
                    None => Ok(()),
                }
            }
        }

        impl core::fmt::Debug for $type {
            fn fmt(&self, f: &mut core::fmt::Formatter<'_>) -> core::fmt::Result {
                write!(f, concat!(stringify!($type), "({})"), self)
            }
        }
    };
}

pub(crate) use wire_number;

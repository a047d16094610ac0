//! Stand-in for the crate of this name: an enum of given numbers, with the conversion from its number.
#![no_std]

#[macro_export]
macro_rules! numeric_enum {
    (
        #[repr($repr:ident)]
        $(#[$outer:meta])*
        pub enum $name:ident {
            $($(#[$inner:meta])* $variant:ident = $value:expr,)*
        }
    ) => {
        #[repr($repr)]
        $(#[$outer])*
        pub enum $name {
            $($(#[$inner])* $variant = $value,)*
        }

        impl ::core::convert::TryFrom<$repr> for $name {
            type Error = $repr;

            fn try_from(n: $repr) -> ::core::result::Result<Self, $repr> {
                match n {
                    $($value => Ok(Self::$variant),)*
                    other => Err(other),
                }
            }
        }
    };
}

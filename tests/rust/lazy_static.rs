//! Stand-in for the crate of this name: a static that nothing here reads.
#![no_std]

#[macro_export]
macro_rules! lazy_static {
    ($(#[$outer:meta])* pub static ref $name:ident : $type:ty = $value:expr;) => {
        #[allow(non_camel_case_types)]
        pub struct $name;

        impl ::core::ops::Deref for $name {
            type Target = $type;

            fn deref(&self) -> &$type {
                unimplemented!()
            }
        }
    };
}

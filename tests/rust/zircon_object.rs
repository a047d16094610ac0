//! The crate zircon_object around vm/mod.rs and vm/vmar.rs of docs/src, which are compiled as they are. All else here and in tests/rust/vm is
//! a stand-in: an object header that holds nothing, and a VMO that is an id and a length.
#![allow(unused)]

extern crate alloc;

// The arguments are checked and never evaluated, as under a log level that leaves the lines out.
macro_rules! debug {
    ($($t:tt)*) => {
        if false {
            let _ = format_args!($($t)*);
        }
    };
}

macro_rules! impl_kobject {
    ($class:ident) => {};
}

macro_rules! define_count_helper {
    ($class:ident) => {};
}

pub mod object {
    pub struct KObjectBase;

    impl KObjectBase {
        pub fn new() -> Self {
            KObjectBase
        }
    }

    pub struct CountHelper;

    impl CountHelper {
        pub fn new() -> Self {
            CountHelper
        }
    }
}

#[allow(non_camel_case_types)]
#[derive(Debug, Clone, Copy, PartialEq, Eq)]
pub enum ZxError {
    INVALID_ARGS,
    ACCESS_DENIED,
    NO_MEMORY,
    NOT_FOUND,
    BAD_STATE,
}

pub type ZxResult<T = ()> = Result<T, ZxError>;

// tests/rust/build puts the files of both origins there.
#[path = "../../target/rust/vm/mod.rs"]
pub mod vm;

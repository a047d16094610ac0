//! Stand-in: nothing of it is taken.

/// For compilers whose numbers lack the method.
pub trait IsMultipleOf {
    fn is_multiple_of(self, of: Self) -> bool;
}

impl IsMultipleOf for usize {
    fn is_multiple_of(self, of: usize) -> bool {
        if of == 0 {
            self == 0
        } else {
            self % of == 0
        }
    }
}

//! The calls of `mpt.h`, as one value asked and one answered.

use crate::answer::Answer;
use crate::call::{Reading, View, ViewMut, Writing};

/// A program behind one interface: the proved one, or another to compare with it.
pub trait Interface {
    /// A call that writes no word.
    fn read(&self, table: View<'_>, call: Reading) -> Answer;

    /// A call that may write words.
    fn write(&self, table: ViewMut<'_>, call: Writing) -> Answer;
}

/// A program may be lent.
impl<T: Interface + ?Sized> Interface for &T {
    #[inline]
    fn read(&self, table: View<'_>, call: Reading) -> Answer {
        (**self).read(table, call)
    }

    #[inline]
    fn write(&self, table: ViewMut<'_>, call: Writing) -> Answer {
        (**self).write(table, call)
    }
}

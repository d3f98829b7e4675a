//! Tables of words that are kept between calls and grow when they are too short.

use std::ops::Range;

/// Makes `table` at least `length` long; false where there is no memory for it.
pub(crate) fn grow<T: Copy + Default>(table: &mut Vec<T>, length: usize) -> bool {
    let more = length.saturating_sub(table.len());
    if table.try_reserve(more).is_err() {
        return false;
    }
    table.resize(length.max(table.len()), T::default());
    true
}

/// A number of the library's as a count; one beyond all memory stays beyond it.
pub(crate) fn count(number: u64) -> usize {
    usize::try_from(number).unwrap_or(usize::MAX)
}

/// The stretch of `bytes` that a table's entry names.
///
/// A table that the library filled names stretches of the input only, so the empty stretch stands
/// for a case that does not arise.
pub(crate) fn stretch(bytes: &[u8], range: Range<usize>) -> &[u8] {
    bytes.get(range).unwrap_or_default()
}

/// Gives back what `table` has beyond `length` elements; a later call may grow it again.
pub(crate) fn shrink<T>(table: &mut Vec<T>, length: usize) {
    table.truncate(length);
    table.shrink_to(length);
}

/// The bytes of memory that a table holds.
pub(crate) fn memory<T>(table: &Vec<T>) -> usize {
    table.capacity().saturating_mul(size_of::<T>())
}

//! A rowset that owns its bytes, for what is not read from a caller's buffer.

use super::Rowset;
use std::borrow::Cow;
use std::fmt;

/// A rowset with its own tables, and its own area for the bytes of its values.
#[derive(Clone, Default)]
pub struct OwnedRowset {
    pub(crate) area: Vec<u8>,
    pub(crate) rows: Vec<u64>,
    pub(crate) values: Vec<u64>,
}

impl OwnedRowset {
    /// The rowset, over the bytes that are owned here.
    pub fn rowset(&self) -> Rowset<'_> {
        Rowset {
            input: &self.area,
            rows: Cow::Borrowed(&self.rows),
            values: Cow::Borrowed(&self.values),
        }
    }
}

impl fmt::Debug for OwnedRowset {
    fn fmt(&self, formatter: &mut fmt::Formatter<'_>) -> fmt::Result {
        self.rowset().fmt(formatter)
    }
}

impl PartialEq for OwnedRowset {
    fn eq(&self, other: &Self) -> bool {
        self.rowset() == other.rowset()
    }
}

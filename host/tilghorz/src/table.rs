//! A table that the library wrote: rows of numbers of 8 bytes, lowest byte first.

use std::fmt::{self, Debug, Formatter};
use std::iter::FusedIterator;
use std::marker::PhantomData;
use std::ops::Range;
use std::slice::ChunksExact;

use crate::answer::size;

/// A row of a table: [`Finding`](crate::Finding), [`Item`](crate::Item) or [`Tip`](crate::Tip).
pub trait Row: sealed::Read {}

pub(crate) mod sealed {
    /// How a row is read.
    pub trait Read: Sized {
        /// The bytes of a row.
        const BYTES: usize;
        /// The row of its bytes.
        fn read(bytes: &[u8]) -> Self;
    }
}

/// The rows that a call wrote, in its order. They stay as the library wrote them, and are read when they are asked for: a text
/// of the greatest length may have 16,777,216 of them.
///
/// ```
/// use tilghorz::{Counts, Finding, Policy};
///
/// let findings = tilghorz::findings("1\u{FE0E} \u{2764}".as_bytes(), &Policy::default())?;
/// let totals: Counts = findings.iter().map(|finding| finding.counts).sum();
/// assert_eq!(totals, findings.totals());
/// let last = findings.iter().next_back();
/// assert_eq!(findings.get(1), last);
/// let rows: Vec<Finding> = findings.into_iter().collect();
/// assert_eq!(rows.len(), 2);
/// # Ok::<(), tilghorz::Refusal>(())
/// ```
#[derive(Clone, PartialEq, Eq, Hash)]
pub struct Table<R> {
    bytes: Vec<u8>,
    rows: PhantomData<R>,
}

impl<R: Row> Table<R> {
    /// The first rows of some bytes.
    pub(crate) fn new(mut bytes: Vec<u8>, rows: usize) -> Self {
        bytes.truncate(rows.saturating_mul(R::BYTES));
        Self {
            bytes,
            rows: PhantomData,
        }
    }

    /// How many rows there are.
    #[must_use]
    pub fn len(&self) -> usize {
        self.bytes.len() / R::BYTES
    }

    /// Whether there is no row.
    #[must_use]
    pub fn is_empty(&self) -> bool {
        self.bytes.is_empty()
    }

    /// The row of an index.
    #[must_use]
    pub fn get(&self, index: usize) -> Option<R> {
        let start = index.checked_mul(R::BYTES)?;
        let row = self.bytes.get(start..)?.get(..R::BYTES)?;
        Some(R::read(row))
    }

    /// The rows one by one.
    #[must_use]
    pub fn iter(&self) -> Iter<'_, R> {
        Iter {
            rows: self.bytes.chunks_exact(R::BYTES),
            read: PhantomData,
        }
    }
}

impl<R> Default for Table<R> {
    /// A table without rows.
    fn default() -> Self {
        Self {
            bytes: Vec::new(),
            rows: PhantomData,
        }
    }
}

impl<R: Row + Debug> Debug for Table<R> {
    fn fmt(&self, out: &mut Formatter<'_>) -> fmt::Result {
        out.debug_list().entries(self).finish()
    }
}

impl<'a, R: Row> IntoIterator for &'a Table<R> {
    type Item = R;
    type IntoIter = Iter<'a, R>;

    fn into_iter(self) -> Iter<'a, R> {
        self.iter()
    }
}

impl<R: Row> IntoIterator for Table<R> {
    type Item = R;
    type IntoIter = IntoIter<R>;

    fn into_iter(self) -> IntoIter<R> {
        IntoIter {
            left: 0..self.len(),
            table: self,
        }
    }
}

/// The rows of a table that is borrowed, one by one.
pub struct Iter<'a, R> {
    rows: ChunksExact<'a, u8>,
    read: PhantomData<R>,
}

impl<R: Row> Iterator for Iter<'_, R> {
    type Item = R;

    fn next(&mut self) -> Option<R> {
        self.rows.next().map(R::read)
    }

    fn size_hint(&self) -> (usize, Option<usize>) {
        self.rows.size_hint()
    }

    fn nth(&mut self, index: usize) -> Option<R> {
        self.rows.nth(index).map(R::read)
    }

    fn count(self) -> usize {
        self.rows.len()
    }

    fn last(mut self) -> Option<R> {
        self.next_back()
    }
}

impl<R: Row> DoubleEndedIterator for Iter<'_, R> {
    fn next_back(&mut self) -> Option<R> {
        self.rows.next_back().map(R::read)
    }
}

impl<R: Row> ExactSizeIterator for Iter<'_, R> {}

impl<R: Row> FusedIterator for Iter<'_, R> {}

impl<R> Clone for Iter<'_, R> {
    fn clone(&self) -> Self {
        Self {
            rows: self.rows.clone(),
            read: PhantomData,
        }
    }
}

impl<R: Row + Debug> Debug for Iter<'_, R> {
    fn fmt(&self, out: &mut Formatter<'_>) -> fmt::Result {
        out.debug_list().entries(self.clone()).finish()
    }
}

/// The rows of a table, one by one.
#[derive(Clone)]
pub struct IntoIter<R> {
    table: Table<R>,
    left: Range<usize>,
}

impl<R: Row> Iterator for IntoIter<R> {
    type Item = R;

    fn next(&mut self) -> Option<R> {
        self.table.get(self.left.next()?)
    }

    fn size_hint(&self) -> (usize, Option<usize>) {
        self.left.size_hint()
    }

    fn nth(&mut self, index: usize) -> Option<R> {
        self.table.get(self.left.nth(index)?)
    }

    fn count(self) -> usize {
        self.left.len()
    }

    fn last(mut self) -> Option<R> {
        self.next_back()
    }
}

impl<R: Row> DoubleEndedIterator for IntoIter<R> {
    fn next_back(&mut self) -> Option<R> {
        self.table.get(self.left.next_back()?)
    }
}

impl<R: Row> ExactSizeIterator for IntoIter<R> {}

impl<R: Row> FusedIterator for IntoIter<R> {}

impl<R: Row + Debug> Debug for IntoIter<R> {
    fn fmt(&self, out: &mut Formatter<'_>) -> fmt::Result {
        let left = self.left.clone().filter_map(|row| self.table.get(row));
        out.debug_list().entries(left).finish()
    }
}

/// The numbers of a row.
pub(crate) fn numbers<const N: usize>(bytes: &[u8]) -> [usize; N] {
    let (words, _) = bytes.as_chunks::<8>();
    let number = |index: usize| words.get(index).map(|word| u64::from_le_bytes(*word));
    std::array::from_fn(|index| number(index).map_or(0, size))
}

#[cfg(test)]
mod tests {
    use super::*;
    use crate::{Item, ItemKind};

    /// A table with these rows, of which only the first two are taken.
    fn table() -> Table<Item> {
        let rows = [
            [0u64, 4, 3, 1, 0, 1, 0, 2],
            [4, 5, 0, 1, 1, 2, 2, 3],
            [9; 8],
        ];
        let numbers = rows.into_iter().flatten();
        let bytes: Vec<u8> = numbers.flat_map(u64::to_le_bytes).collect();
        Table::new(bytes, 2)
    }

    #[test]
    fn rows_are_read_from_their_bytes() {
        let table = table();
        assert_eq!((table.len(), table.is_empty()), (2, false));
        let item = table.get(1).expect("a row");
        assert_eq!(
            (item.start, item.end, item.kind),
            (4, 5, ItemKind::Passthrough)
        );
        assert_eq!((item.char_span(), item.utf16_span()), (1..2, 2..3));
        assert_eq!(table.get(2), None);
        assert_eq!(table.get(usize::MAX), None);
        assert_eq!(table.iter().len(), 2);
    }

    #[test]
    fn both_iterators_give_the_rows_from_both_ends() {
        let table = table();
        let rows: Vec<Item> = table.iter().collect();
        assert_eq!(rows.len(), 2);
        assert!((&table).into_iter().eq(rows.iter().cloned()));
        assert!(table.clone().into_iter().eq(rows.iter().cloned()));
        assert!(table.iter().rev().eq(rows.iter().rev().cloned()));
        let back = table.clone().into_iter().rev();
        assert!(back.eq(rows.iter().rev().cloned()));
        for index in 0..3 {
            let row = rows.get(index).cloned();
            assert_eq!(table.get(index), row);
            assert_eq!(table.iter().nth(index), row);
            assert_eq!(table.clone().into_iter().nth(index), row);
        }
        let counts = (table.iter().count(), table.clone().into_iter().count());
        assert_eq!(counts, (2, 2));
        assert_eq!(table.iter().last(), table.clone().into_iter().last());
        let mut left = table.clone().into_iter();
        left.next();
        assert_eq!(format!("{left:?}"), format!("{:?}", &rows[1..]));
        assert_eq!(
            (left.len(), left.next(), left.next()),
            (1, rows.get(1).cloned(), None)
        );
        assert_eq!(format!("{table:?}"), format!("{rows:?}"));
        assert_eq!(format!("{:?}", table.iter()), format!("{rows:?}"));
        assert!(Table::<Item>::default().is_empty());
        assert_ne!(table, Table::default());
    }
}

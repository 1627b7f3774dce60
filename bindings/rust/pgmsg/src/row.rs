//! The cells of a row.

use crate::body::checked;
use crate::error::{Fault, Refusal};
use crate::list::List;
use crate::value::Value;
use alloc::vec;
use alloc::vec::Vec;
use core::fmt;
use core::ops::Range;
use pgmsg_core::pg_receive::message::{cell_at, RowReader};

/// Where the first cell begins, after the count.
const FIRST_CELL: usize = 2;

/// The bytes of a cell's length.
const LENGTH: usize = 4;

/// Reads the body of a DataRow.
pub(crate) fn read(body: &[u8]) -> Result<List<'_, Value<'_>>, Fault> {
    let mut reader = RowReader::new(checked(body)?)?;
    let mut values = Vec::with_capacity(reader.len());
    while let Some(value) = reader.next_cell()? {
        values.push(value.into());
    }
    Ok(values.into())
}

/// The place of a cell in the body of its row. The default is an empty value at the front.
#[derive(Clone, Copy, Debug, Default)]
pub struct Cell {
    at: u32,
    /// Below 0 where it is NULL.
    len: i32,
}

impl Cell {
    /// Where the value lies in the body, or `None` where it is NULL.
    #[inline]
    pub fn range(&self) -> Option<Range<usize>> {
        let (start, length) = (self.at as usize, usize::try_from(self.len).ok()?);
        Some(start..start + length)
    }

    /// The value in the body that the cell was read of, or `None` where it is NULL, or where another
    /// body is too short for it.
    #[inline]
    pub fn value<'b>(&self, body: &'b [u8]) -> Option<&'b [u8]> {
        body.get(self.range()?)
    }

    /// The value in the body that the cell was read of, or `None` where it is NULL: its length is beyond every body
    /// then, without its sign.
    #[inline]
    fn value_in<'b>(&self, body: &'b [u8]) -> Option<&'b [u8]> {
        let start = self.at as usize;
        body.get(start..start.wrapping_add(self.len.cast_unsigned() as usize))
    }

    /// Whether it is NULL.
    #[inline]
    pub fn is_null(&self) -> bool {
        self.len < 0
    }
}

/// Reads rows, and keeps the room for the places of their cells from one row to the next.
///
/// ```
/// # use pgmsg::backend::RowIndex;
/// let mut index = RowIndex::new();
/// let row = index.read(b"\0\x02\0\0\0\x015\xff\xff\xff\xff")?;
/// assert!(row.iter().eq([Some(&b"5"[..]), None]));
/// # Ok::<(), pgmsg::Fault>(())
/// ```
#[derive(Clone, Debug, Default)]
pub struct RowIndex {
    cells: Vec<Cell>,
}

impl RowIndex {
    /// A reader that has allocated nothing yet.
    #[inline]
    pub const fn new() -> RowIndex {
        RowIndex { cells: Vec::new() }
    }

    /// A reader with room for rows of so many cells.
    pub fn with_capacity(cells: usize) -> RowIndex {
        RowIndex { cells: vec![Cell::default(); cells] }
    }

    /// Reads the body of a DataRow.
    ///
    /// It allocates only for a row of more cells than any row before.
    #[inline]
    pub fn read<'b>(&mut self, body: &'b [u8]) -> Result<Row<'b, '_>, Fault> {
        let count = RowReader::new(checked(body)?)?.len();
        if count > self.cells.len() {
            self.grow(count)?;
        }
        let cells = &mut self.cells[..count];
        let (found, at) = find(body, cells);
        if found < count {
            cell_at(body, at)?;
        }
        Ok(Row { body, cells })
    }

    /// Makes room for rows of so many cells.
    #[cold]
    fn grow(&mut self, cells: usize) -> Result<(), Refusal> {
        let missing = cells - self.cells.len();
        self.cells.try_reserve(missing).map_err(|_| Refusal::OutOfMemory)?;
        self.cells.resize(cells, Cell::default());
        Ok(())
    }
}

/// Finds the cells of a row, up to one that is broken: how many they are, and the offset after them. It makes one test
/// for each, where the core's reader makes two.
#[inline]
fn find(body: &[u8], room: &mut [Cell]) -> (usize, usize) {
    let (mut found, mut at) = (0, FIRST_CELL);
    for place in room {
        let Some(length) = body.get(at..).and_then(<[u8]>::first_chunk) else { break };
        let (len, start) = (i32::from_be_bytes(*length), at + LENGTH);
        // A length below 0, which says NULL, is beyond every body without its sign.
        let end = start as u64 + u64::from(len.cast_unsigned());
        at = match end <= body.len() as u64 {
            true => end as usize,
            false if len < 0 => start,
            false => break,
        };
        *place = Cell { at: start as u32, len };
        found += 1;
    }
    (found, at)
}

/// A row: for each column the bytes of its value, or `None` where it is NULL.
///
/// The values borrow the body alone, so they can be kept when the reader goes on to the next row.
#[derive(Clone, Copy)]
pub struct Row<'b, 'r> {
    body: &'b [u8],
    cells: &'r [Cell],
}

impl<'b, 'r> Row<'b, 'r> {
    /// How many cells the row has.
    #[inline]
    pub fn len(&self) -> usize {
        self.cells.len()
    }

    /// Whether the row has no cell.
    #[inline]
    pub fn is_empty(&self) -> bool {
        self.cells.is_empty()
    }

    /// The cell of a column, counted from 0, or `None` where the row has no such column.
    #[inline]
    pub fn get(&self, index: usize) -> Option<Option<&'b [u8]>> {
        self.cells.get(index).map(|cell| cell.value_in(self.body))
    }

    /// The cells in order.
    #[inline]
    pub fn iter(
        &self,
    ) -> impl DoubleEndedIterator<Item = Option<&'b [u8]>> + ExactSizeIterator + Clone + use<'b, 'r>
    {
        let body = self.body;
        self.cells.iter().map(move |cell| cell.value_in(body))
    }

    /// The places of the cells in the body.
    ///
    /// A driver that keeps the body copies them, and needs no reader for the row again:
    ///
    /// ```
    /// # use pgmsg::backend::RowIndex;
    /// let body = b"\0\x02\0\0\0\x015\xff\xff\xff\xff".to_vec();
    /// let places = RowIndex::new().read(&body)?.places().to_vec();
    /// assert_eq!(places[0].range(), Some(6..7));
    /// assert_eq!(places[0].value(&body), Some(&b"5"[..]));
    /// assert_eq!(places[1].range(), None);
    /// # Ok::<(), pgmsg::Fault>(())
    /// ```
    #[inline]
    pub fn places(&self) -> &'r [Cell] {
        self.cells
    }
}

impl fmt::Debug for Row<'_, '_> {
    fn fmt(&self, f: &mut fmt::Formatter<'_>) -> fmt::Result {
        f.debug_list().entries(self.iter()).finish()
    }
}

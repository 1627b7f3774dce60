//! The cells of a row.

use super::body::body;
use crate::lacking::refused;
use fallible_iterator::FallibleIterator;
use pgmsg::backend::RowReader;
use pgmsg::Fault;
use std::io;
use std::ops::Range;

/// The bytes of the count before the cells.
const COUNT: usize = 2;

body! {
    /// A row.
    DataRowBody of COUNT, {
        /// Where the values lie in the buffer.
        ranges(self) -> DataRowRanges<'_> = DataRowRanges { body: &self.0, cells: RowReader::new(&self.0).ok() };
        /// The bytes that the values lie in.
        buffer(self) -> &[u8] = self.0.get(COUNT..).unwrap_or_default();
    }
}

/// Where the values of a row lie, `None` where one is NULL.
pub struct DataRowRanges<'a> {
    body: &'a [u8],
    /// The cells that are left, none where the body is too short for them.
    cells: Option<RowReader<'a>>,
}

impl FallibleIterator for DataRowRanges<'_> {
    type Item = Option<Range<usize>>;
    type Error = io::Error;

    #[inline]
    fn next(&mut self) -> io::Result<Option<Option<Range<usize>>>> {
        let Some(cells) = &mut self.cells else {
            return Err(refused("row is too short for its cells"));
        };
        let cell = cells.next_cell().map_err(Fault::from)?;
        let end = self.body.len() - cells.rest().len();
        match cell {
            // The buffer begins after the count.
            Some(cell) => Ok(Some(cell.map(|value| end - value.len() - COUNT..end - COUNT))),
            None if end == self.body.len() => Ok(None),
            None => Err(refused("row goes on after its last cell")),
        }
    }

    #[inline]
    fn size_hint(&self) -> (usize, Option<usize>) {
        let left = self.cells.as_ref().map_or(0, RowReader::len);
        (left, Some(left))
    }
}

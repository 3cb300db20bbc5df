//! A key as it is kept, at a desk and on file: the query, the range if there is one, and what is
//! asked as text. Whether a count is wanted is in the key too, and is asked of layout. Leans on
//! range.
use super::range::Memory;
use super::OutOfRange;
use crate::layout::{ranged_column, COUNT_BIT, KEY_HIGHEST, KEY_LOWEST, KEY_VALUES, MAX_COLUMNS, RANGE_UNIT};
use crate::query::in_brackets;
use crate::Query;
use std::fmt;

/// The range that a read has given: it asks for the records whose value in this column, which is a
/// star in the query, is lowest to highest, both included. 0, not measured, lies in no range.
#[derive(Clone, Copy, Debug, PartialEq, Eq, Hash)]
pub struct Range {
    /// The column, by its number from 0.
    pub column: u32,
    /// The lowest value.
    pub lowest: u32,
    /// The highest value.
    pub highest: u32,
}

/// What is asked, in one bracket, a range in the place of its star: (3, *), (3, 4 to 9).
pub(super) struct Asked<'a> {
    pub(super) query: &'a Query,
    pub(super) range: Option<Range>,
}

impl fmt::Display for Asked<'_> {
    fn fmt(&self, f: &mut fmt::Formatter<'_>) -> fmt::Result {
        let text = |(number, column): (u32, Option<u32>)| match (self.range, column) {
            (Some(range), _) if range.column == number => format!("{} to {}", range.lowest, range.highest),
            (_, Some(value)) => value.to_string(),
            (_, None) => "*".to_string(),
        };
        in_brackets(f, (0..).zip(self.query.columns()).map(text))
    }
}

/// The query and the range in the entry that starts at `at`; an `Err` where no begin leaves such a
/// key. Beside them stands the count's bit.
pub(super) fn key_at(memory: &Memory<'_>, at: usize, columns: u32) -> Result<(Query, Option<Range>), OutOfRange> {
    let wanted = "a bit for each named column, 16 more for a count, 32 more for each column up to a ranged one";
    let fits = |first: u32| (first % COUNT_BIT) >> columns == 0 && first / RANGE_UNIT <= columns;
    let marks = memory.checked(at, "the marks of the query", wanted, fits)?;
    let is_star = |column| marks >> column & 1 == 0;
    memory.checked(at, "the marks of the query", "no mark at the ranged column", |_| ranged_column(marks).is_none_or(is_star))?;
    let mut query = Vec::new();
    for column in 0..MAX_COLUMNS {
        let (named, place) = (!is_star(column), at + KEY_VALUES + column as usize);
        let value = memory.checked(place, "the query's value", "0 where no value is named", |value| named || value == 0)?;
        if column < columns {
            query.push(named.then_some(value));
        }
    }
    Ok((Query::from(&query[..]), range_at(memory, at, ranged_column(marks))?))
}

/// The range of this column in the entry that starts at `at`; without one both ends are 0.
fn range_at(memory: &Memory<'_>, at: usize, column: Option<u32>) -> Result<Option<Range>, OutOfRange> {
    let end = |offset, what, wanted, may: &dyn Fn(u32) -> bool| memory.checked(at + offset, what, wanted, may);
    let (lowest_is, highest_is) = ("the lowest value of the range", "the highest value of the range");
    let Some(column) = column else {
        end(KEY_LOWEST, lowest_is, "0 where there is no range", &|value| value == 0)?;
        end(KEY_HIGHEST, highest_is, "0 where there is no range", &|value| value == 0)?;
        return Ok(None);
    };
    let lowest = end(KEY_LOWEST, lowest_is, "any number", &|_| true)?;
    let highest = end(KEY_HIGHEST, highest_is, "not below the lowest", &|value| value >= lowest)?;
    Ok(Some(Range { column, lowest, highest }))
}

//! A query, column by column, in the form in which the calls take it. Leans on layout.
use crate::layout::MAX_COLUMNS;
use std::fmt;

/// The numbers of a query of as many columns as a hall can have: a mark and a value for each.
const FEW: usize = 2 * MAX_COLUMNS as usize;

/// A query: each column names a value or is a star, which any value fits. It may have any number of columns; a hall turns one down with
/// [`crate::Refusal::Columns`] that has not as many as the hall.
///
/// ```
/// use mondzafeky::Query;
/// let query = Query::from([Some(3), None]);
/// assert_eq!(query.to_string(), "(3, *)");
/// assert_eq!(query, Query::from(&vec![Some(3), None][..]));
/// assert_eq!(Query::of_record(&[3, 40]), Query::from([Some(3), Some(40)]));
/// ```
///
/// 0 means not measured: naming it finds nothing; a star finds it. So `Some(0)` is a query that no record fits, and not a star.
///
/// ```
/// # fn main() -> Result<(), mondzafeky::Refusal> {
/// use mondzafeky::{Hall, Outcome, Query};
/// let mut hall = Hall::open(2)?; // bench, stored zero
/// for record in [[3, 0], [3, 40]] {
///     hall.begin_insert(0, &record)?; // of [3, 0] the second number was not measured
///     assert_eq!(hall.run(0)?, Outcome::Changed);
/// }
/// for (query, count) in [([Some(3), Some(0)], 0), ([Some(3), Some(40)], 1), ([Some(3), None], 2)] {
///     hall.begin_count(1, &Query::from(query))?;
///     assert_eq!(hall.run(1)?, Outcome::Counted { count, from_file: false });
/// }
/// # Ok(())
/// # }
/// ```
#[derive(Clone, Debug, PartialEq, Eq, Hash)]
pub struct Query {
    columns: usize,
    /// The numbers of up to four columns, so that a query of a hall allocates nothing; 0 past them.
    few: [u32; FEW],
    /// The numbers of more than four columns, which no hall takes; otherwise empty.
    many: Vec<u32>,
}

impl Query {
    /// The query that names every column: a record is one too. A delete of it takes out this record and no other; nothing, if a column is 0, since
    /// naming 0 finds nothing.
    #[must_use]
    pub fn of_record(record: &[u32]) -> Query {
        Query::of(record.iter().map(|&value| Some(value)))
    }

    fn of(columns: impl ExactSizeIterator<Item = Option<u32>>) -> Query {
        let (count, mut few) = (columns.len(), [0; FEW]);
        // A star is mark 0 and value 0.
        let numbers = columns.flat_map(|column| column.map_or([0, 0], |value| [1, value]));
        if 2 * count > FEW {
            return Query { columns: count, few, many: numbers.collect() };
        }
        few.iter_mut().zip(numbers).for_each(|(place, number)| *place = number);
        Query { columns: count, few, many: Vec::new() }
    }

    /// What the low calls take: for each column its mark and its value.
    #[must_use]
    pub fn as_numbers(&self) -> &[u32] {
        self.few.get(..2 * self.columns).unwrap_or(&self.many)
    }

    /// Its columns from the first on: a value, or none for a star.
    #[must_use = "iterators are lazy"]
    pub fn columns(&self) -> impl ExactSizeIterator<Item = Option<u32>> + '_ {
        self.as_numbers().chunks_exact(2).map(|column| (column[0] == 1).then_some(column[1]))
    }
}

impl<const K: usize> From<[Option<u32>; K]> for Query {
    fn from(columns: [Option<u32>; K]) -> Query {
        Query::of(columns.into_iter())
    }
}

impl<const K: usize> From<&[Option<u32>; K]> for Query {
    fn from(columns: &[Option<u32>; K]) -> Query {
        Query::of(columns.iter().copied())
    }
}

impl From<&[Option<u32>]> for Query {
    fn from(columns: &[Option<u32>]) -> Query {
        Query::of(columns.iter().copied())
    }
}

/// As the documents write it: (3, *).
impl fmt::Display for Query {
    fn fmt(&self, f: &mut fmt::Formatter<'_>) -> fmt::Result {
        in_brackets(f, self.columns().map(|column| column.map_or("*".to_string(), |value| value.to_string())))
    }
}

/// Columns as text, between brackets.
pub(crate) fn in_brackets(f: &mut fmt::Formatter<'_>, columns: impl Iterator<Item = String>) -> fmt::Result {
    write!(f, "({})", columns.collect::<Vec<_>>().join(", "))
}

//! The revision nodes: label, counter, marks. Leans on range.
use super::range::{below, Memory};
use super::{Inspect, OutOfRange};
use crate::layout::{HEADER, NODE_PENDING, NODE_REVISION, NODE_VALUES, NODE_WIDTH, TAG_ANY, TAG_VALUE, TAG_WILDCARD};
use crate::query::in_brackets;
use std::fmt;

/// A column of a label.
#[derive(Clone, Copy, Debug, PartialEq, Eq, Hash)]
pub enum Term {
    /// A value.
    Is(u32),
    /// A star, written *.
    Wildcard,
    /// Any one value, written ?.
    Any,
}

impl fmt::Display for Term {
    fn fmt(&self, f: &mut fmt::Formatter<'_>) -> fmt::Result {
        match self {
            Term::Is(value) => write!(f, "{value}"),
            Term::Wildcard => write!(f, "*"),
            Term::Any => write!(f, "?"),
        }
    }
}

/// A node's label, a term for each column; as text (3, ?).
#[derive(Clone, Debug, PartialEq, Eq, Hash)]
pub struct Label(pub Vec<Term>);

impl fmt::Display for Label {
    fn fmt(&self, f: &mut fmt::Formatter<'_>) -> fmt::Result {
        in_brackets(f, self.0.iter().map(Term::to_string))
    }
}

/// A node. A label that is out of range is none of a query's of this hall: no call finds the node by it, and none turns it down. Where k is out of
/// range, or missing, the label's own tags tell how many columns it has.
#[derive(Clone, Debug, PartialEq, Eq)]
pub struct Node {
    /// Its label.
    pub label: Result<Label, OutOfRange>,
    /// Its revision, the paper's counter.
    pub revision: u32,
    /// Its pending writes, the paper's marks.
    pub pending: u32,
}

impl fmt::Display for Node {
    fn fmt(&self, f: &mut fmt::Formatter<'_>) -> fmt::Result {
        match &self.label {
            Ok(label) => write!(f, "{label}")?,
            Err(fault) => write!(f, "no label: {fault};")?,
        }
        write!(f, "  counter {}  marks {}", self.revision, self.pending)
    }
}

impl Inspect<'_> {
    /// The node at a place, 0 the oldest.
    pub fn node(&self, place: u32) -> Result<Node, OutOfRange> {
        let place = below("the node's place", place, self.node_count()?, "below the number of nodes")?;
        let at = HEADER + place * NODE_WIDTH;
        let numbers = self.nodes.part(at, NODE_WIDTH, "a node")?;
        let columns = self.columns().map_or_else(|_| own_columns(numbers[0]), |columns| columns as usize);
        Ok(Node { label: label_at(&self.nodes, at, columns), revision: numbers[NODE_REVISION], pending: numbers[NODE_PENDING] })
    }
}

/// The tag of a column, 0 to 3.
fn byte(tags: u32, column: usize) -> u32 {
    tags >> (8 * column) & 0xff
}

/// How many columns these tags are of; a label has at least one.
fn own_columns(tags: u32) -> usize {
    (0..4).take_while(|&column| byte(tags, column) != 0).count().max(1)
}

/// The label in a nodes memory whose tags stand at `at`.
fn label_at(nodes: &Memory<'_>, at: usize, columns: usize) -> Result<Label, OutOfRange> {
    let fits =
        |tags| (0..4).all(|column| if column < columns { (TAG_VALUE..=TAG_ANY).contains(&byte(tags, column)) } else { byte(tags, column) == 0 });
    let tags = nodes.checked(at, "the label's tags", "1, 2 or 3 in each column's byte, 0 in the others", fits)?;
    let mut terms = Vec::new();
    for column in 0..4 {
        let tag = byte(tags, column);
        let has_value = tag == TAG_VALUE;
        let value = nodes.checked(at + NODE_VALUES + column, "the label's value", "0 where the column has none", |value| has_value || value == 0)?;
        match tag {
            TAG_VALUE => terms.push(Term::Is(value)),
            TAG_WILDCARD => terms.push(Term::Wildcard),
            TAG_ANY => terms.push(Term::Any),
            _ => {}
        }
    }
    Ok(Label(terms))
}

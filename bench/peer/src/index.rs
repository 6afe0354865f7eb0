//! Indexes: the values of some paths of each document, in order.

use std::cmp::Ordering;
use std::collections::BTreeSet;
use std::ops::Range;

use serde_json::Value;

use crate::order::compare;
use crate::selector::{Operator, Path, Selector};

/// A value of an index, or the end that comes after all values.
#[derive(Clone)]
pub enum Key {
    Value(Value),
    End,
}

impl Ord for Key {
    fn cmp(&self, other: &Self) -> Ordering {
        match (self, other) {
            (Key::Value(one), Key::Value(other)) => compare(one, other),
            (Key::Value(_), Key::End) => Ordering::Less,
            (Key::End, Key::Value(_)) => Ordering::Greater,
            (Key::End, Key::End) => Ordering::Equal,
        }
    }
}

impl PartialOrd for Key {
    fn partial_cmp(&self, other: &Self) -> Option<Ordering> {
        Some(self.cmp(other))
    }
}

impl PartialEq for Key {
    fn eq(&self, other: &Self) -> bool {
        self.cmp(other).is_eq()
    }
}

impl Eq for Key {}

/// A row of an index. One with fewer values comes before all rows that begin with them.
#[derive(Clone, PartialEq, Eq, PartialOrd, Ord)]
pub struct Row {
    pub values: Vec<Key>,
    pub id: String,
}

impl Row {
    /// The place right behind this row.
    pub fn next(&self) -> Row {
        Row { values: self.values.clone(), id: format!("{}\0", self.id) }
    }
}

pub struct Index {
    pub design: String,
    pub name: String,
    pub columns: Vec<Path>,
    pub rows: BTreeSet<Row>,
}

impl Index {
    /// The row of a document, if it has a value in each column.
    pub fn row(&self, id: &str, document: &Value) -> Option<Row> {
        let values = self.columns.iter().map(|path| path.of(document).cloned().map(Key::Value)).collect::<Option<_>>()?;
        Some(Row { values, id: id.to_owned() })
    }

    /// Whether every document that the selector matches has a row, and the rows are in the order of the sort.
    pub fn serves(&self, selector: &Selector, sort: &[Path]) -> bool {
        let has_rows = self.columns.iter().all(|path| sort.contains(path) || selector.at(path).next().is_some());
        self.columns.starts_with(sort) && has_rows
    }

    /// The rows that the selector leaves: equal values of the first columns, then limits of the next.
    pub fn range(&self, selector: &Selector) -> Range<Row> {
        let mut equal = Vec::new();
        for path in &self.columns {
            match selector.at(path).find(|one| one.operator == Operator::Equal) {
                Some(one) => equal.push(Key::Value(one.argument.clone())),
                None => return limits(equal, selector, path),
            }
        }
        row(&equal, None, false)..row(&equal, None, true)
    }
}

/// The rows that begin with these values, and whose next value is within the limits that the selector sets at `path`.
fn limits(equal: Vec<Key>, selector: &Selector, path: &Path) -> Range<Row> {
    let (mut lower, mut upper) = (row(&equal, None, false), row(&equal, None, true));
    for one in selector.at(path) {
        match one.operator {
            Operator::Greater => lower = lower.max(row(&equal, Some(&one.argument), true)),
            Operator::AtLeast => lower = lower.max(row(&equal, Some(&one.argument), false)),
            Operator::Less => upper = upper.min(row(&equal, Some(&one.argument), false)),
            Operator::AtMost => upper = upper.min(row(&equal, Some(&one.argument), true)),
            Operator::Equal => {}
        }
    }
    lower..upper
}

/// The place before all rows that begin with these values and the next one, if it is given; or the place after them.
fn row(equal: &[Key], next: Option<&Value>, behind: bool) -> Row {
    let next = next.cloned().map(Key::Value);
    let values = equal.iter().cloned().chain(next).chain(behind.then(|| Key::End)).collect();
    Row { values, id: String::new() }
}

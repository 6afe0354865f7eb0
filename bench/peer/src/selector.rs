//! Selectors: comparisons of the values at paths, all of which have to hold.

use std::cmp::Ordering;

use serde_json::{Map, Value};

use crate::api::Reply;
use crate::order::compare;

/// The steps from a document to one of its parts, written with dots between them.
#[derive(Clone, PartialEq, Eq)]
pub struct Path(Vec<String>);

impl Path {
    pub fn parse(text: &str) -> Path {
        Path(text.split('.').map(str::to_owned).collect())
    }

    pub fn of<'a>(&self, document: &'a Value) -> Option<&'a Value> {
        self.0.iter().try_fold(document, |value, step| match value {
            Value::Object(members) => members.get(step),
            Value::Array(items) => items.get(step.parse::<usize>().ok()?),
            _ => None,
        })
    }
}

#[derive(Clone, Copy, PartialEq, Eq)]
pub enum Operator {
    Equal,
    Less,
    AtMost,
    Greater,
    AtLeast,
}

impl Operator {
    fn named(name: &str) -> Option<Operator> {
        Some(match name {
            "$eq" => Operator::Equal,
            "$lt" => Operator::Less,
            "$lte" => Operator::AtMost,
            "$gt" => Operator::Greater,
            "$gte" => Operator::AtLeast,
            _ => return None,
        })
    }

    fn holds(self, ordering: Ordering) -> bool {
        match self {
            Operator::Equal => ordering.is_eq(),
            Operator::Less => ordering.is_lt(),
            Operator::AtMost => ordering.is_le(),
            Operator::Greater => ordering.is_gt(),
            Operator::AtLeast => ordering.is_ge(),
        }
    }
}

pub struct Comparison {
    pub path: Path,
    pub operator: Operator,
    pub argument: Value,
}

pub struct Selector(pub Vec<Comparison>);

impl Selector {
    pub fn parse(members: &Map<String, Value>) -> Result<Selector, Reply> {
        let mut comparisons = Vec::new();
        for (name, value) in members {
            let path = Path::parse(name);
            match value {
                Value::Object(operators) if operators.keys().any(|name| name.starts_with('$')) => {
                    for (name, argument) in operators {
                        let operator = Operator::named(name).ok_or_else(unknown)?;
                        comparisons.push(Comparison { path: path.clone(), operator, argument: argument.clone() });
                    }
                }
                _ if name.starts_with('$') => return Err(unknown()),
                _ => comparisons.push(Comparison { path, operator: Operator::Equal, argument: value.clone() }),
            }
        }
        Ok(Selector(comparisons))
    }

    pub fn matches(&self, document: &Value) -> bool {
        self.0.iter().all(|one| one.path.of(document).map_or(false, |value| one.operator.holds(compare(value, &one.argument))))
    }

    /// What is asked of the value at a path.
    pub fn at<'a>(&'a self, path: &'a Path) -> impl Iterator<Item = &'a Comparison> {
        self.0.iter().filter(move |one| one.path == *path)
    }
}

fn unknown() -> Reply {
    Reply::refusal(400, "invalid_operator", "Unknown operator.")
}

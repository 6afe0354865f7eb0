//! Queries: which rows are read, and which of their documents are on the page.

use std::ops::{Bound, Range};

use serde::Serialize;
use serde_json::{json, Value};

use crate::api::Reply;
use crate::database::Database;
use crate::index::{Index, Key, Row};
use crate::selector::{Path, Selector};

const LIMIT: u64 = 25;

pub struct Query {
    selector: Selector,
    sort: Vec<Path>,
    descending: bool,
    limit: usize,
    skip: usize,
    bookmark: Option<Bookmark>,
}

/// The last document of a page, and the index that led to it.
struct Bookmark {
    index: Value,
    row: Row,
}

#[derive(Serialize)]
struct Page<'a> {
    bookmark: String,
    docs: Vec<&'a Value>,
}

impl Query {
    pub fn parse(body: &Value) -> Result<Query, Reply> {
        let selector = body.get("selector").and_then(Value::as_object).ok_or_else(Reply::wrong_shape)?;
        let sort = body.get("sort").map_or(Some(Vec::new()), parse_sort).ok_or_else(Reply::wrong_shape)?;
        let descending = sort.iter().filter(|(_, descending)| *descending).count();
        if descending > 0 && descending < sort.len() {
            return Err(Reply::refusal(400, "unsupported_mixed_sort", "Sorts currently only support a single direction for all fields."));
        }
        let bookmark = match body.get("bookmark") {
            Some(Value::String(text)) if text != "nil" => Some(Bookmark::parse(text).ok_or_else(Reply::invalid_bookmark)?),
            _ => None,
        };
        Ok(Query {
            selector: Selector::parse(selector)?,
            sort: sort.into_iter().map(|(path, _)| path).collect(),
            descending: descending > 0,
            limit: parse_count(body, "limit", LIMIT)?,
            skip: parse_count(body, "skip", 0)?,
            bookmark,
        })
    }

    /// The body of the reply.
    pub fn answer(&self, database: &Database) -> Result<Vec<u8>, Reply> {
        match self.choose(database)? {
            Some(index) => self.by_index(database, index),
            None => self.by_id(database),
        }
    }

    /// The index with the most columns of those that serve; `None` where all documents are read, by their ids.
    fn choose<'a>(&self, database: &'a Database) -> Result<Option<&'a Index>, Reply> {
        let serving = database.indexes.iter().filter(|index| index.serves(&self.selector, &self.sort));
        match serving.max_by_key(|index| index.columns.len()) {
            None if !self.sort.is_empty() => {
                Err(Reply::refusal(400, "no_usable_index", "No index exists for this sort, try indexing by the sort fields."))
            }
            chosen => Ok(chosen),
        }
    }

    fn by_index(&self, database: &Database, index: &Index) -> Result<Vec<u8>, Reply> {
        let direction = if self.descending { "desc" } else { "asc" };
        let name = json!([format!("_design/{}", index.design), index.name, direction]);
        let range = self.behind_bookmark(&name, index.range(&self.selector))?;
        let rows = index.rows.range(range);
        let docs = match self.descending {
            false => self.take(rows.filter_map(|row| database.served(&row.id))),
            true => self.take(rows.rev().filter_map(|row| database.served(&row.id))),
        };
        Ok(self.page(&name, &index.columns, docs))
    }

    fn by_id(&self, database: &Database) -> Result<Vec<u8>, Reply> {
        let name = json!([null, "_all_docs", "asc"]);
        let start = self.bookmark_of(&name)?.map_or(Bound::Unbounded, |row| Bound::Excluded(row.id.as_str()));
        let documents = database.documents.range::<str, _>((start, Bound::Unbounded));
        let docs = self.take(documents.filter_map(|(_, document)| document.served()));
        Ok(self.page(&name, &[Path::parse("_id")], docs))
    }

    /// The row of the bookmark, which has to be one of this index and direction.
    fn bookmark_of(&self, name: &Value) -> Result<Option<&Row>, Reply> {
        match &self.bookmark {
            Some(bookmark) if bookmark.index != *name => Err(Reply::invalid_bookmark()),
            Some(bookmark) => Ok(Some(&bookmark.row)),
            None => Ok(None),
        }
    }

    /// What is left of a range behind the bookmark, in the direction of the query.
    fn behind_bookmark(&self, name: &Value, range: Range<Row>) -> Result<Range<Row>, Reply> {
        let Range { mut start, mut end } = range;
        match self.bookmark_of(name)? {
            Some(row) if self.descending => end = end.min(row.clone()),
            Some(row) => start = start.max(row.next()),
            None => {}
        }
        let end = end.max(start.clone());
        Ok(start..end)
    }

    fn take<'a>(&self, documents: impl Iterator<Item = &'a Value>) -> Vec<&'a Value> {
        documents.filter(|document| self.selector.matches(document)).skip(self.skip).take(self.limit).collect()
    }

    fn page(&self, name: &Value, columns: &[Path], docs: Vec<&Value>) -> Vec<u8> {
        let bookmark = match docs.last() {
            Some(last) => {
                let values: Vec<_> = columns.iter().map(|path| path.of(last)).collect();
                let place = json!([name[0], name[1], name[2], values, last["_id"]]);
                base64::encode_config(place.to_string(), base64::URL_SAFE_NO_PAD)
            }
            None => "nil".to_owned(),
        };
        serde_json::to_vec(&Page { bookmark, docs }).expect("a value with texts as names can be written")
    }
}

impl Bookmark {
    fn parse(text: &str) -> Option<Bookmark> {
        let text = base64::decode_config(text, base64::URL_SAFE_NO_PAD).ok()?;
        let place: Value = serde_json::from_slice(&text).ok()?;
        match place.as_array()?.as_slice() {
            [design, name, direction, Value::Array(values), Value::String(id)] => {
                let values = values.iter().cloned().map(Key::Value).collect();
                Some(Bookmark { index: json!([design, name, direction]), row: Row { values, id: id.clone() } })
            }
            _ => None,
        }
    }
}

/// Each path of a sort, and whether its direction is descending.
fn parse_sort(sort: &Value) -> Option<Vec<(Path, bool)>> {
    let part = |part: &Value| match part {
        Value::String(path) => Some((Path::parse(path), false)),
        Value::Object(members) => {
            let (path, direction) = members.iter().next()?;
            Some((Path::parse(path), direction == "desc"))
        }
        _ => None,
    };
    sort.as_array()?.iter().map(part).collect()
}

fn parse_count(body: &Value, name: &str, absent: u64) -> Result<usize, Reply> {
    let count = body.get(name).map_or(Some(absent), Value::as_u64);
    count.and_then(|count| usize::try_from(count).ok()).ok_or_else(Reply::wrong_shape)
}

//! The documents by their ids, and the indexes over them.

use std::collections::{BTreeMap, BTreeSet};

use serde_json::{json, Value};

use crate::api::Reply;
use crate::index::Index;
use crate::revisions::{Document, Edit, Rev};
use crate::selector::Path;

#[derive(Default)]
pub struct Database {
    pub documents: BTreeMap<String, Document>,
    pub indexes: Vec<Index>,
    last_id: u128,
}

/// How a document of a bulk becomes a revision.
enum History {
    Extends(Option<Rev>),
    Brings(Vec<Rev>),
}

/// A document of a bulk.
pub struct Write {
    id: Option<String>,
    history: History,
    edit: Edit,
}

impl Write {
    /// Takes the members that begin with an underscore out of a document.
    pub fn parse(document: Value, new_edits: bool) -> Result<Write, Reply> {
        let mut body = match document {
            Value::Object(members) => members,
            _ => return Err(Reply::wrong_shape()),
        };
        let id = match body.remove("_id") {
            Some(Value::String(id)) if !id.is_empty() && !id.starts_with('_') => Some(id),
            None => None,
            Some(_) => return Err(Reply::invalid_document("Bad document id.")),
        };
        let rev = match body.remove("_rev") {
            Some(Value::String(text)) => Some(Rev::parse(&text).ok_or_else(|| Reply::invalid_document("Invalid rev format."))?),
            None => None,
            Some(_) => return Err(Reply::invalid_document("Invalid rev format.")),
        };
        let path = match body.remove("_revisions") {
            Some(path) => Some(parse_path(&path).ok_or_else(|| Reply::invalid_document("Invalid rev format."))?),
            None => None,
        };
        let deleted = body.remove("_deleted").map_or(false, |deleted| deleted == Value::Bool(true));
        if body.keys().any(|name| name.starts_with('_')) {
            return Err(Reply::invalid_document("Bad special document member."));
        }
        let history = match (new_edits, path, rev) {
            (true, _, rev) => History::Extends(rev),
            (false, Some(path), _) => History::Brings(path),
            (false, None, Some(rev)) => History::Brings(vec![rev]),
            (false, None, None) => return Err(Reply::invalid_document("Invalid rev format.")),
        };
        Ok(Write { id, history, edit: Edit { deleted, body } })
    }
}

/// The revisions of `{"start":2,"ids":["b","a"]}`, newest first.
fn parse_path(value: &Value) -> Option<Vec<Rev>> {
    let start = u32::try_from(value.get("start")?.as_u64()?).ok()?;
    let ids = value.get("ids")?.as_array()?;
    if ids.is_empty() || ids.len() > start as usize {
        return None;
    }
    let revisions = ids.iter().zip((1..=start).rev());
    revisions.map(|(id, position)| Some(Rev { position, id: id.as_str()?.to_owned() })).collect()
}

impl Database {
    /// Writes a bulk. Returns an entry for each document; of documents that brought their revisions, only for the refused ones.
    pub fn write(&mut self, writes: Vec<Write>) -> Vec<Value> {
        writes.into_iter().filter_map(|write| self.write_one(write)).collect()
    }

    fn write_one(&mut self, write: Write) -> Option<Value> {
        let id = write.id.unwrap_or_else(|| {
            self.last_id += 1;
            format!("{:032x}", self.last_id)
        });
        let document = self.documents.entry(id.clone()).or_default();
        let before: Vec<_> = self.indexes.iter().map(|index| document.served().and_then(|served| index.row(&id, served))).collect();
        let outcome = match write.history {
            History::Extends(parent) => document.edit(&id, parent, write.edit).map(Some),
            History::Brings(path) => document.merge(&id, &path, write.edit).map(|()| None),
        };
        for (index, before) in self.indexes.iter_mut().zip(before) {
            let after = document.served().and_then(|served| index.row(&id, served));
            if before != after {
                before.map(|row| index.rows.remove(&row));
                after.map(|row| index.rows.insert(row));
            }
        }
        match outcome {
            Ok(rev) => rev.map(|rev| json!({"id": id, "ok": true, "rev": rev.to_string()})),
            Err(refusal) => Some(json!({"error": refusal.error(), "id": id, "reason": refusal.reason()})),
        }
    }

    /// The document of an id as it is served, unless there is none or it is deleted.
    pub fn served(&self, id: &str) -> Option<&Value> {
        self.documents.get(id)?.served()
    }

    /// Builds an index, in place of one with the same name. Returns false where the same index is there already.
    pub fn add_index(&mut self, design: &str, name: &str, columns: Vec<Path>) -> bool {
        let same = self.indexes.iter().position(|index| index.design == design && index.name == name);
        if same.map_or(false, |at| self.indexes[at].columns == columns) {
            return false;
        }
        let mut index = Index { design: design.to_owned(), name: name.to_owned(), columns, rows: BTreeSet::new() };
        let served = self.documents.iter().filter_map(|(id, document)| Some((id, document.served()?)));
        index.rows = served.filter_map(|(id, served)| index.row(id, served)).collect();
        match same {
            Some(at) => self.indexes[at] = index,
            None => self.indexes.push(index),
        }
        true
    }
}

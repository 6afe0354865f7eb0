//! The revisions of a document: a tree, kept as a vector that is sorted by position and id.

use std::fmt;

use serde_json::{Map, Value};

#[derive(Clone, PartialEq, Eq, PartialOrd, Ord)]
pub struct Rev {
    pub position: u32,
    pub id: String,
}

impl Rev {
    pub fn parse(text: &str) -> Option<Rev> {
        let (position, id) = text.split_once('-')?;
        let position = position.parse().ok().filter(|&position| position > 0)?;
        (!id.is_empty()).then(|| Rev { position, id: id.to_owned() })
    }
}

impl fmt::Display for Rev {
    fn fmt(&self, formatter: &mut fmt::Formatter) -> fmt::Result {
        write!(formatter, "{}-{}", self.position, self.id)
    }
}

/// What a revision brings: whether it deletes the document, and the members that are the document's own.
pub struct Edit {
    pub deleted: bool,
    pub body: Map<String, Value>,
}

/// Why an edit is refused.
pub enum Refusal {
    Conflict,
    BadHistory,
}

impl Refusal {
    pub fn error(&self) -> &'static str {
        match self {
            Refusal::Conflict => "conflict",
            Refusal::BadHistory => "bad_history",
        }
    }

    pub fn reason(&self) -> &'static str {
        match self {
            Refusal::Conflict => "Document update conflict.",
            Refusal::BadHistory => "Revision history does not fit the document.",
        }
    }
}

struct Node {
    rev: Rev,
    parent: Option<Rev>,
    deleted: bool,
    is_leaf: bool,
    /// The document as it is served, with `_id` and `_rev`; of leaves alone.
    served: Option<Value>,
}

#[derive(Default)]
pub struct Document {
    nodes: Vec<Node>,
}

impl Document {
    /// The document as it is served, unless it is deleted.
    pub fn served(&self) -> Option<&Value> {
        self.winner().filter(|node| !node.deleted)?.served.as_ref()
    }

    /// The best leaf: one that is not deleted, then the higher position, then the greater id.
    fn winner(&self) -> Option<&Node> {
        let mut leaves = self.nodes.iter().rev().filter(|node| node.is_leaf);
        leaves.clone().find(|node| !node.deleted).or_else(|| leaves.next())
    }

    /// Extends the leaf `parent`. Without a parent it makes the first revision, or extends a deleted winner.
    pub fn edit(&mut self, id: &str, parent: Option<Rev>, edit: Edit) -> Result<Rev, Refusal> {
        let parent = match parent {
            Some(rev) => Some(self.node(&rev).filter(|node| node.is_leaf).map(|_| rev).ok_or(Refusal::Conflict)?),
            None if self.served().is_some() => return Err(Refusal::Conflict),
            None => self.winner().map(|node| node.rev.clone()),
        };
        let rev = revision_of(parent.as_ref(), &edit);
        if self.node(&rev).is_some() {
            return Err(Refusal::Conflict);
        }
        self.add(id, rev.clone(), parent, Some(edit));
        Ok(rev)
    }

    /// Takes in a path of revisions, newest first, as a replica sends it.
    pub fn merge(&mut self, id: &str, path: &[Rev], edit: Edit) -> Result<(), Refusal> {
        let fits = |pair: &[Rev]| self.node(&pair[0]).map_or(true, |node| node.parent.as_ref().map_or(true, |parent| *parent == pair[1]));
        if !path.windows(2).all(fits) {
            return Err(Refusal::BadHistory);
        }
        let known = path.iter().position(|rev| self.node(rev).is_some()).unwrap_or(path.len());
        let mut edit = Some(edit);
        for at in 0..known {
            self.add(id, path[at].clone(), path.get(at + 1).cloned(), edit.take());
        }
        Ok(())
    }

    fn node(&self, rev: &Rev) -> Option<&Node> {
        self.find(rev).ok().map(|at| &self.nodes[at])
    }

    fn find(&self, rev: &Rev) -> Result<usize, usize> {
        self.nodes.binary_search_by(|node| node.rev.cmp(rev))
    }

    /// Adds a revision that is not known. It is a leaf if it has an edit. Its parent, if it is known, is no longer a leaf.
    fn add(&mut self, id: &str, rev: Rev, parent: Option<Rev>, edit: Option<Edit>) {
        if let Some(Ok(at)) = parent.as_ref().map(|parent| self.find(parent)) {
            self.nodes[at].is_leaf = false;
            self.nodes[at].served = None;
        }
        let deleted = edit.as_ref().map_or(false, |edit| edit.deleted);
        let is_leaf = edit.is_some();
        let served = edit.map(|edit| {
            let mut members = edit.body;
            members.insert("_id".to_owned(), id.into());
            members.insert("_rev".to_owned(), rev.to_string().into());
            Value::Object(members)
        });
        let at = self.find(&rev).unwrap_or_else(|at| at);
        self.nodes.insert(at, Node { rev, parent, deleted, is_leaf, served });
    }
}

/// The next revision: its id is the MD5 of `[deleted, parent, body]` as compact text.
fn revision_of(parent: Option<&Rev>, edit: &Edit) -> Rev {
    let text = serde_json::json!([edit.deleted, parent.map(Rev::to_string), edit.body]).to_string();
    let id = format!("{:x}", md5::compute(text));
    Rev { position: parent.map_or(0, |parent| parent.position) + 1, id }
}

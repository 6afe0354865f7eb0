//! The endpoints, and the replies to them.

use std::sync::RwLock;

use serde_json::{json, Value};

use crate::database::{Database, Write};
use crate::find::Query;
use crate::selector::Path;

pub struct Reply {
    pub status: u16,
    pub body: Vec<u8>,
}

impl Reply {
    pub fn phrase(&self) -> &'static str {
        match self.status {
            200 => "OK",
            201 => "Created",
            400 => "Bad Request",
            404 => "Not Found",
            405 => "Method Not Allowed",
            _ => "Content Too Large",
        }
    }

    fn new(status: u16, mut body: Vec<u8>) -> Reply {
        body.push(b'\n');
        Reply { status, body }
    }

    pub fn refusal(status: u16, error: &str, reason: &str) -> Reply {
        Reply::new(status, json!({"error": error, "reason": reason}).to_string().into_bytes())
    }

    pub fn wrong_shape() -> Reply {
        Reply::refusal(400, "bad_request", "Wrong shape.")
    }

    pub fn invalid_document(reason: &str) -> Reply {
        Reply::refusal(400, "doc_validation", reason)
    }

    pub fn invalid_bookmark() -> Reply {
        Reply::refusal(400, "invalid_bookmark", "Invalid bookmark.")
    }
}

/// One database, which all clients share.
pub struct Server {
    name: String,
    database: RwLock<Database>,
}

impl Server {
    pub fn new(name: &str) -> Server {
        Server { name: name.to_owned(), database: RwLock::default() }
    }

    pub fn answer(&self, method: &str, target: &str, body: &[u8]) -> Reply {
        let path = target.split('?').next().unwrap_or(target);
        let outcome = match path.strip_prefix('/').and_then(|path| path.split_once('/')) {
            Some((name, _)) if name != self.name => Err(Reply::refusal(404, "not_found", "Database does not exist.")),
            Some((_, endpoint)) => self.dispatch(method, endpoint, body),
            None => Err(missing()),
        };
        outcome.unwrap_or_else(|refusal| refusal)
    }

    fn dispatch(&self, method: &str, endpoint: &str, body: &[u8]) -> Result<Reply, Reply> {
        match (method, endpoint) {
            ("POST", "_bulk_docs") => self.write(parse(body)?),
            ("POST", "_find") => self.find(&parse(body)?),
            ("POST", "_index") => self.add_index(&parse(body)?),
            ("GET", id) if !id.starts_with('_') => self.get(id),
            (_, endpoint) if endpoint.starts_with('_') => Err(missing()),
            _ => Err(Reply::refusal(405, "method_not_allowed", "Method not allowed.")),
        }
    }

    fn write(&self, mut body: Value) -> Result<Reply, Reply> {
        let new_edits = body.get("new_edits").map_or(true, |flag| *flag != Value::Bool(false));
        let documents = match body.get_mut("docs").map(Value::take) {
            Some(Value::Array(documents)) => documents,
            _ => return Err(Reply::wrong_shape()),
        };
        let writes = documents.into_iter().map(|document| Write::parse(document, new_edits)).collect::<Result<_, _>>()?;
        let entries = self.database.write().unwrap().write(writes);
        Ok(Reply::new(201, Value::Array(entries).to_string().into_bytes()))
    }

    fn find(&self, body: &Value) -> Result<Reply, Reply> {
        let query = Query::parse(body)?;
        let body = query.answer(&self.database.read().unwrap())?;
        Ok(Reply::new(200, body))
    }

    fn add_index(&self, body: &Value) -> Result<Reply, Reply> {
        let text = |name| body.get(name).and_then(Value::as_str).map(str::to_owned);
        let fields = body.get("index").and_then(|index| index.get("fields")).and_then(Value::as_array);
        let columns: Option<Vec<_>> = fields.and_then(|fields| fields.iter().map(|field| field.as_str().map(Path::parse)).collect());
        match (text("ddoc"), text("name"), columns) {
            (Some(design), Some(name), Some(columns)) if !columns.is_empty() => {
                let is_new = self.database.write().unwrap().add_index(&design, &name, columns);
                let result = if is_new { "created" } else { "exists" };
                let answer = json!({"id": format!("_design/{design}"), "name": name, "result": result});
                Ok(Reply::new(200, answer.to_string().into_bytes()))
            }
            _ => Err(Reply::wrong_shape()),
        }
    }

    fn get(&self, id: &str) -> Result<Reply, Reply> {
        let id = decode(id).ok_or_else(missing)?;
        let database = self.database.read().unwrap();
        let document = database.documents.get(&id).ok_or_else(missing)?;
        match document.served() {
            Some(served) => Ok(Reply::new(200, served.to_string().into_bytes())),
            None => Err(Reply::refusal(404, "not_found", "deleted")),
        }
    }
}

fn parse(body: &[u8]) -> Result<Value, Reply> {
    serde_json::from_slice(body).map_err(|_| Reply::refusal(400, "bad_request", "Invalid JSON."))
}

fn missing() -> Reply {
    Reply::refusal(404, "not_found", "missing")
}

/// A part of a target, in which `%` and two hexadecimal digits stand for a byte.
fn decode(text: &str) -> Option<String> {
    let mut bytes = Vec::with_capacity(text.len());
    let mut rest = text.as_bytes();
    while let Some((&first, behind)) = rest.split_first() {
        if first == b'%' {
            let digits = std::str::from_utf8(behind.get(..2)?).ok()?;
            bytes.push(u8::from_str_radix(digits, 16).ok()?);
            rest = &behind[2..];
        } else {
            bytes.push(first);
            rest = behind;
        }
    }
    String::from_utf8(bytes).ok()
}

//! Messages of HTTP/1.1 with a `Content-Length`, one after another on a connection that stays open.

use std::io::{self, Read, Write};

use crate::api::{Reply, Server};

const FIELDS: usize = 64;
const PIECE: usize = 1 << 16;
const LARGEST_BODY: usize = 8 << 20;

/// Where the parts of a whole message stand in the bytes that were read.
struct Message {
    method: String,
    target: String,
    body: usize,
    end: usize,
}

/// Answers the messages of one client until it ends.
pub fn serve(server: &Server, mut input: impl Read, mut output: impl Write) -> io::Result<()> {
    let mut bytes = Vec::new();
    let mut piece = vec![0; PIECE];
    loop {
        match parse(&bytes) {
            Err(reply) => return write(&mut output, &reply),
            Ok(Some(message)) => {
                let reply = server.answer(&message.method, &message.target, &bytes[message.body..message.end]);
                write(&mut output, &reply)?;
                bytes.drain(..message.end);
            }
            Ok(None) => match input.read(&mut piece)? {
                0 => return Ok(()),
                count => bytes.extend_from_slice(&piece[..count]),
            },
        }
    }
}

/// The first message of these bytes, or `None` while some of it is still to come.
fn parse(bytes: &[u8]) -> Result<Option<Message>, Reply> {
    let mut fields = [httparse::EMPTY_HEADER; FIELDS];
    let mut head = httparse::Request::new(&mut fields);
    let body = match head.parse(bytes) {
        Ok(httparse::Status::Complete(length)) => length,
        Ok(httparse::Status::Partial) => return Ok(None),
        Err(_) => return Err(Reply::refusal(400, "bad_head", "Bad request head.")),
    };
    let length = content_length(head.headers).ok_or_else(|| Reply::refusal(400, "bad_head", "Bad request head."))?;
    if length > LARGEST_BODY {
        return Err(Reply::refusal(413, "too_large", "Request too large."));
    }
    if bytes.len() < body + length {
        return Ok(None);
    }
    let (method, target) = (head.method.unwrap_or_default().to_owned(), head.path.unwrap_or_default().to_owned());
    Ok(Some(Message { method, target, body, end: body + length }))
}

/// The length of the body: 0 where no field says it, `None` where it is not a number.
fn content_length(fields: &[httparse::Header]) -> Option<usize> {
    match fields.iter().find(|field| field.name.eq_ignore_ascii_case("content-length")) {
        Some(field) => std::str::from_utf8(field.value).ok()?.trim().parse().ok(),
        None => Some(0),
    }
}

fn write(output: &mut impl Write, reply: &Reply) -> io::Result<()> {
    let mut bytes = Vec::with_capacity(reply.body.len() + 128);
    write!(bytes, "HTTP/1.1 {} {}\r\nContent-Type: application/json\r\n", reply.status, reply.phrase())?;
    write!(bytes, "Content-Length: {}\r\n\r\n", reply.body.len())?;
    bytes.extend_from_slice(&reply.body);
    output.write_all(&bytes)?;
    output.flush()
}

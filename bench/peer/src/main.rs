//! A small document database over HTTP, written the ordinary way: a thread for each client, and one lock around ordered maps.
//!
//! It answers the requests of `bench/run` as the proved program does, and few others.
//!
//! usage: peer DATABASE .. ADDRESS, where `-` as the address stands for standard input and output. Further arguments between the two, as
//! the proved program has them, are ignored.

mod api;
mod database;
mod find;
mod http;
mod index;
mod order;
mod revisions;
mod selector;

use std::env;
use std::io;
use std::net::TcpListener;
use std::process;
use std::sync::Arc;
use std::thread;

use api::Server;

fn main() -> io::Result<()> {
    let args: Vec<String> = env::args().skip(1).collect();
    match args.as_slice() {
        [name, .., address] if address == "-" => http::serve(&Server::new(name), io::stdin(), io::stdout()),
        [name, .., address] => listen(Arc::new(Server::new(name)), address),
        _ => {
            eprintln!("usage: peer DATABASE .. ADDRESS");
            process::exit(2)
        }
    }
}

/// Serves each client in a thread of its own.
fn listen(server: Arc<Server>, address: &str) -> io::Result<()> {
    let listener = TcpListener::bind(address)?;
    eprintln!("peer: listening");
    for stream in listener.incoming() {
        let (stream, server) = (stream?, Arc::clone(&server));
        thread::spawn(move || -> io::Result<()> {
            stream.set_nodelay(true)?;
            http::serve(&server, stream.try_clone()?, stream)
        });
    }
    Ok(())
}

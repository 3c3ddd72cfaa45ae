//! The work of `rtspd stdio` in plain Rust, with nothing proved: the measure for bench/conversation and
//! bench/instructions.
//!
//! It reads heads and bodies, checks the values that it uses, looks up the path and the session, makes each step with
//! its refusals and its records, and writes the same responses: one write each, or with the word `batch` one write for
//! all that a piece asked for, as `rtspd stdio` does. It reads no folded headers and no URIs but `rtsp://HOST/PATH`, and
//! keeps only what the seven methods of the benches need.

mod book;
mod content;
mod message;
mod range;
mod server;
mod text;
mod transport;

use message::read_request;
use server::Server;
use std::fs::File;
use std::io::{Read, Write, stdin, stdout};
use std::os::fd::AsFd;
use text::Text;

fn main() -> std::io::Result<()> {
    let in_batches = std::env::args().nth(1).as_deref() == Some("batch");
    let mut server = Server::new();
    let mut input = stdin().lock();
    let mut output = File::from(stdout().as_fd().try_clone_to_owned()?);
    let (mut unread, mut out) = (Vec::new(), Text::default());
    let mut piece = [0; 4096];
    loop {
        let read = input.read(&mut piece)?;
        if read == 0 {
            return Ok(());
        }
        unread.extend_from_slice(&piece[..read]);
        let mut at = 0;
        while let Some((request, size)) = read_request(&unread[at..]) {
            server
                .answer(&mut out, &request)
                .expect("each request of the bench is answered 200");
            if !in_batches {
                output.write_all(out.as_bytes())?;
                out.clear();
            }
            at += size;
        }
        output.write_all(out.as_bytes())?;
        out.clear();
        unread.drain(..at);
    }
}

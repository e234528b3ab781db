//! As much of gRPC over HTTP/2 as a client needs that asks one thing at a time.

use crate::tcp::Wire;
use std::io::{self, Read, Write};

const PREFACE: &[u8] = b"PRI * HTTP/2.0\r\n\r\nSM\r\n\r\n";

// types of frames
const DATA: u8 = 0;
const HEADERS: u8 = 1;
const RST_STREAM: u8 = 3;
const SETTINGS: u8 = 4;
const PING: u8 = 6;
const GOAWAY: u8 = 7;
const WINDOW_UPDATE: u8 = 8;

// flags of frames
const ACK: u8 = 1;
const END_STREAM: u8 = 1;
const END_HEADERS: u8 = 4;

/// The prefix of a message: a byte that says that it is not compressed, and its length.
const PREFIX: usize = 5;

/// The state of a connection.
#[derive(Default)]
pub struct Grpc {
    stream: u32,
    // bytes of data that were received and not yet given back to the server's window
    received: u32,
}

struct Frame {
    kind: u8,
    flags: u8,
    stream: u32,
    payload: Vec<u8>,
}

impl Frame {
    fn read(wire: &mut Wire) -> io::Result<Frame> {
        let mut head = [0; 9];
        wire.read_exact(&mut head)?;
        let [a, b, c, kind, flags, stream @ ..] = head;
        let mut payload = vec![0; u32::from_be_bytes([0, a, b, c]) as usize];
        wire.read_exact(&mut payload)?;
        Ok(Frame {
            kind,
            flags,
            stream: u32::from_be_bytes(stream),
            payload,
        })
    }

    fn ends(&self, stream: u32) -> bool {
        self.stream == stream && matches!(self.kind, DATA | HEADERS) && self.flags & END_STREAM != 0
    }

    /// Answers what has to be answered: settings and a ping. The end of a stream or of the
    /// connection is an error.
    fn heed(&self, wire: &mut Wire) -> io::Result<()> {
        match self.kind {
            SETTINGS if self.flags & ACK == 0 => {
                wire.get_mut().write_all(&frame(SETTINGS, ACK, 0, &[]))
            }
            PING if self.flags & ACK == 0 => {
                wire.get_mut()
                    .write_all(&frame(PING, ACK, 0, &self.payload))
            }
            RST_STREAM | GOAWAY => Err(io::Error::other("the server ends the stream")),
            _ => Ok(()),
        }
    }
}

fn frame(kind: u8, flags: u8, stream: u32, payload: &[u8]) -> Vec<u8> {
    let [_, length @ ..] = (payload.len() as u32).to_be_bytes();
    [&length[..], &[kind, flags], &stream.to_be_bytes(), payload].concat()
}

/// A header field of the static table, with a value that is written out.
fn field(index: &[u8], value: &str) -> Vec<u8> {
    [index, &[value.len() as u8], value.as_bytes()].concat()
}

/// The header of a request: POST and http by the static table, the rest written out.
fn header(path: &str) -> Vec<u8> {
    let written = [
        field(&[4], path),                      // :path
        field(&[1], "localhost"),               // :authority
        field(&[0x0f, 16], "application/grpc"), // content-type
        field(b"\0\x02te", "trailers"),         // a name that is written out too
    ];
    [&[0x83, 0x86][..], &written.concat()].concat()
}

impl Grpc {
    /// Begins on a new connection.
    pub fn begin(&mut self, wire: &mut Wire) -> io::Result<()> {
        *self = Grpc::default();
        let settings = frame(SETTINGS, 0, 0, &[]);
        wire.get_mut().write_all(&[PREFACE, &settings].concat())
    }

    /// The answer to a message.
    pub fn call(&mut self, wire: &mut Wire, path: &str, message: &[u8]) -> io::Result<Vec<u8>> {
        self.stream += if self.stream == 0 { 1 } else { 2 };
        wire.get_mut().write_all(&self.request(path, message))?;
        let body = self.body(wire)?;
        match body.get(PREFIX..) {
            Some(answer) => Ok(answer.to_vec()),
            None => Err(io::Error::other("the server refuses")),
        }
    }

    /// The frames of a request. The data received before is given back to the server's window.
    fn request(&mut self, path: &str, message: &[u8]) -> Vec<u8> {
        let mut frames = Vec::new();
        if self.received > 0 {
            frames.extend(frame(WINDOW_UPDATE, 0, 0, &self.received.to_be_bytes()));
            self.received = 0;
        }
        let length = (message.len() as u32).to_be_bytes();
        let data = [&[0][..], &length, message].concat();
        frames.extend(frame(HEADERS, END_HEADERS, self.stream, &header(path)));
        frames.extend(frame(DATA, END_STREAM, self.stream, &data));
        frames
    }

    /// The data that comes until the stream ends.
    fn body(&mut self, wire: &mut Wire) -> io::Result<Vec<u8>> {
        let mut body = Vec::new();
        loop {
            let frame = Frame::read(wire)?;
            frame.heed(wire)?;
            if frame.kind == DATA && frame.stream == self.stream {
                self.received += frame.payload.len() as u32;
                body.extend(&frame.payload);
            }
            if frame.ends(self.stream) {
                return Ok(body);
            }
        }
    }
}

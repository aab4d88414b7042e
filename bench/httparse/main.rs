//! The messages of standard input by stock httparse, for a comparison. usage: by_httparse spans | copies | reads
//!
//! spans reads each message, and copies nothing of it; copies also copies what a head says, as `mt_http` does: the
//! method, the target, each name in lower case and each value; reads only reads the input, in the same pieces.
use std::io::{self, Read};
use std::mem::MaybeUninit;

/// The input is read in pieces of at most so many bytes.
const PIECE: usize = 65_536;
/// A head has no more bytes than this.
const HEAD_LIMIT: usize = 65_536;
/// A head has no more fields than this.
const FIELD_LIMIT: usize = 100;

type Failure = Box<dyn std::error::Error>;

/// The input, and what was read of it and not taken yet.
struct Input<R> {
    from: R,
    buffer: Vec<u8>,
    start: usize,
    end: usize,
}

impl<R: Read> Input<R> {
    fn new(from: R) -> Self {
        Input { from, buffer: vec![0; HEAD_LIMIT + PIECE], start: 0, end: 0 }
    }

    fn left(&self) -> &[u8] {
        &self.buffer[self.start..self.end]
    }

    /// Reads more behind what is left, or says that there is none.
    fn more(&mut self) -> Result<bool, Failure> {
        self.buffer.copy_within(self.start..self.end, 0);
        self.end -= self.start;
        self.start = 0;
        if self.end > HEAD_LIMIT {
            return Err("a head, a line or a trailer is too long".into());
        }
        let count = self.from.read(&mut self.buffer[self.end..self.end + PIECE])?;
        self.end += count;
        Ok(count > 0)
    }

    /// Reads more, of which there has to be some.
    fn need(&mut self) -> Result<(), Failure> {
        if self.more()? { Ok(()) } else { Err("the input ended within a message".into()) }
    }

    /// Drops so many bytes.
    fn skip(&mut self, mut count: u64) -> Result<(), Failure> {
        loop {
            let here = count.min(self.left().len() as u64);
            self.start += here as usize;
            count -= here;
            if count == 0 {
                return Ok(());
            }
            self.need()?;
        }
    }

    /// Drops a line end.
    fn line_end(&mut self) -> Result<(), Failure> {
        while self.left().len() < 2 {
            self.need()?;
        }
        if !self.left().starts_with(b"\r\n") {
            return Err("no line end after a chunk".into());
        }
        self.start += 2;
        Ok(())
    }

    /// The size that a chunk line tells.
    fn chunk_size(&mut self) -> Result<u64, Failure> {
        loop {
            match httparse::parse_chunk_size(self.left()) {
                Ok(httparse::Status::Complete((len, size))) => {
                    self.start += len;
                    return Ok(size);
                }
                Ok(httparse::Status::Partial) => self.need()?,
                Err(_) => return Err("no chunk line".into()),
            }
        }
    }

    /// Drops a trailer.
    fn trailer(&mut self) -> Result<(), Failure> {
        loop {
            match self.left().iter().position(|byte| *byte == b'\n') {
                Some(at) => {
                    let is_empty = at == 0 || self.left().starts_with(b"\r\n");
                    self.start += at + 1;
                    if is_empty {
                        return Ok(());
                    }
                }
                None => self.need()?,
            }
        }
    }

    /// Drops a chunked body, and says how many bytes it had.
    fn chunks(&mut self) -> Result<u64, Failure> {
        let mut total = 0;
        loop {
            let size = self.chunk_size()?;
            if size == 0 {
                self.trailer()?;
                return Ok(total);
            }
            self.skip(size)?;
            self.line_end()?;
            total += size;
        }
    }
}

/// What a head says, in memory of its own.
struct Copied {
    _method: String,
    _target: Vec<u8>,
    _fields: Vec<(String, Vec<u8>)>,
}

fn copied(request: &httparse::Request) -> Copied {
    Copied {
        _method: request.method.unwrap_or("").to_owned(),
        _target: request.path.unwrap_or("").as_bytes().to_vec(),
        _fields: request.headers.iter().map(|f| (f.name.to_ascii_lowercase(), f.value.to_vec())).collect(),
    }
}

/// How the length of a body is told.
enum Framing {
    Length(u64),
    Chunked,
}

fn framing(fields: &[httparse::Header]) -> Result<Framing, Failure> {
    let mut told = None;
    for field in fields {
        let next = if field.name.eq_ignore_ascii_case("content-length") {
            Framing::Length(std::str::from_utf8(field.value)?.parse()?)
        } else if field.name.eq_ignore_ascii_case("transfer-encoding") {
            Framing::Chunked
        } else {
            continue;
        };
        if told.replace(next).is_some() {
            return Err("the length of a body is told twice".into());
        }
    }
    Ok(told.unwrap_or(Framing::Length(0)))
}

/// The head at the front of these bytes, if it is whole: its length, its fields' count and its body's framing.
fn head(bytes: &[u8], copies: bool) -> Result<Option<(usize, u64, Framing)>, Failure> {
    let mut fields = [const { MaybeUninit::uninit() }; FIELD_LIMIT];
    let mut request = httparse::Request::new(&mut []);
    match request.parse_with_uninit_headers(bytes, &mut fields)? {
        httparse::Status::Complete(len) => {
            if copies {
                drop(std::hint::black_box(copied(&request)));
            }
            Ok(Some((len, request.headers.len() as u64, framing(request.headers)?)))
        }
        httparse::Status::Partial => Ok(None),
    }
}

fn messages(from: impl Read, copies: bool) -> Result<(u64, u64, u64), Failure> {
    let mut input = Input::new(from);
    let (mut messages, mut fields, mut bytes) = (0, 0, 0);
    loop {
        let found = if input.left().is_empty() { None } else { head(input.left(), copies)? };
        match found {
            Some((len, count, told)) => {
                input.start += len;
                messages += 1;
                fields += count;
                bytes += match told {
                    Framing::Length(size) => input.skip(size).map(|()| size)?,
                    Framing::Chunked => input.chunks()?,
                };
            }
            None if input.left().is_empty() => {
                if !input.more()? {
                    return Ok((messages, fields, bytes));
                }
            }
            None => input.need()?,
        }
    }
}

fn main() -> Result<(), Failure> {
    let mut stdin = io::stdin().lock();
    match std::env::args().nth(1).as_deref() {
        Some("reads") => {
            let mut piece = vec![0; PIECE];
            while stdin.read(&mut piece)? > 0 {}
        }
        Some(word @ ("spans" | "copies")) => {
            let (messages, fields, bytes) = messages(stdin, word == "copies")?;
            println!("{messages} messages, {fields} fields, {bytes} bytes of bodies");
        }
        _ => return Err("usage: by_httparse spans | copies | reads".into()),
    }
    Ok(())
}

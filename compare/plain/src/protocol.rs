//! The server's protocol: requests and replies, to and from bytes. Numbers are little-endian.
//!
//! A request:  `u8 call  u8 width  u8 page  u8 other  u64 a  u64 b  u64 c  u32 n, n bytes  u32 m, m bytes`
//!
//! Its reply:  `u8 number  u64 a  u64 b  u32 n, n bytes`

use std::io::{self, ErrorKind, Read};

/// The most bytes that a register, `first` or `second` may hold.
pub const MOST: usize = 82_000;

/// The number of the reply that ends the program: the request cannot be carried to a call.
pub const BROKEN: u8 = 255;

/// One request.
#[derive(Clone, Debug, Default, PartialEq, Eq)]
pub struct Request {
    pub call: u8,
    pub width: u8,
    pub page: u8,
    pub other: u8,
    pub a: u64,
    pub b: u64,
    pub c: u64,
    pub first: Vec<u8>,
    pub second: Vec<u8>,
}

/// One reply: number 0 or the refusal.
#[derive(Clone, Debug, Default, PartialEq, Eq)]
pub struct Reply {
    pub number: u8,
    pub a: u64,
    pub b: u64,
    pub bytes: Vec<u8>,
}

/// What a stream of requests holds next.
#[derive(Clone, Debug, PartialEq, Eq)]
pub enum Arrival {
    /// A whole request.
    Whole(Request),
    /// A request that is cut short, or whose n or m is above 82,000.
    Broken,
    /// The stream ended between requests.
    End,
}

impl Request {
    /// The request's bytes.
    pub fn encode(&self) -> Vec<u8> {
        let mut bytes = vec![self.call, self.width, self.page, self.other];
        bytes.extend(self.a.to_le_bytes());
        bytes.extend(self.b.to_le_bytes());
        bytes.extend(self.c.to_le_bytes());
        put_run(&mut bytes, &self.first);
        put_run(&mut bytes, &self.second);
        bytes
    }

    /// The next request of a stream.
    pub fn decode(stream: &mut impl Read) -> io::Result<Arrival> {
        let Some(call) = first_byte(stream)? else {
            return Ok(Arrival::End);
        };
        let rest = Request::rest(call, stream);
        match rest {
            Ok(Some(request)) => Ok(Arrival::Whole(request)),
            Ok(None) => Ok(Arrival::Broken),
            Err(error) if error.kind() == ErrorKind::UnexpectedEof => Ok(Arrival::Broken),
            Err(error) => Err(error),
        }
    }

    /// What follows the call's number; none where n or m is above 82,000.
    fn rest(call: u8, stream: &mut impl Read) -> io::Result<Option<Request>> {
        let [width, page, other] = take(stream)?;
        let (a, b, c) = (take_u64(stream)?, take_u64(stream)?, take_u64(stream)?);
        let Some(first) = take_run(stream)? else {
            return Ok(None);
        };
        let Some(second) = take_run(stream)? else {
            return Ok(None);
        };
        Ok(Some(Request {
            call,
            width,
            page,
            other,
            a,
            b,
            c,
            first,
            second,
        }))
    }
}

impl Reply {
    /// The reply that ends the program.
    pub fn broken() -> Reply {
        Reply {
            number: BROKEN,
            ..Reply::default()
        }
    }

    /// The reply's bytes.
    pub fn encode(&self) -> Vec<u8> {
        let mut bytes = vec![self.number];
        bytes.extend(self.a.to_le_bytes());
        bytes.extend(self.b.to_le_bytes());
        put_run(&mut bytes, &self.bytes);
        bytes
    }

    /// The next reply of a stream, none where the stream ended between replies.
    pub fn decode(stream: &mut impl Read) -> io::Result<Option<Reply>> {
        let Some(number) = first_byte(stream)? else {
            return Ok(None);
        };
        let (a, b) = (take_u64(stream)?, take_u64(stream)?);
        let bytes = take_run(stream)?
            .ok_or_else(|| io::Error::new(ErrorKind::InvalidData, "a reply above 82,000 bytes"))?;
        Ok(Some(Reply {
            number,
            a,
            b,
            bytes,
        }))
    }
}

/// Appends a run of bytes: its length as u32, then the bytes.
fn put_run(bytes: &mut Vec<u8>, run: &[u8]) {
    bytes.extend((run.len() as u32).to_le_bytes());
    bytes.extend(run);
}

/// The stream's next byte, none at its end.
fn first_byte(stream: &mut impl Read) -> io::Result<Option<u8>> {
    let mut byte = [0];
    match stream.read_exact(&mut byte) {
        Ok(()) => Ok(Some(byte[0])),
        Err(error) if error.kind() == ErrorKind::UnexpectedEof => Ok(None),
        Err(error) => Err(error),
    }
}

/// The stream's next bytes.
fn take<const N: usize>(stream: &mut impl Read) -> io::Result<[u8; N]> {
    let mut bytes = [0; N];
    stream.read_exact(&mut bytes)?;
    Ok(bytes)
}

/// The stream's next u64.
fn take_u64(stream: &mut impl Read) -> io::Result<u64> {
    Ok(u64::from_le_bytes(take(stream)?))
}

/// The stream's next run of bytes, none where its length is above 82,000.
fn take_run(stream: &mut impl Read) -> io::Result<Option<Vec<u8>>> {
    let length = u32::from_le_bytes(take(stream)?) as usize;
    if length > MOST {
        return Ok(None);
    }
    let mut run = vec![0; length];
    stream.read_exact(&mut run)?;
    Ok(Some(run))
}

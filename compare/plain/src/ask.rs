//! The server of calls: four registers that keep a page between calls, and the table of calls.

use crate::protocol::{Arrival, Reply, Request, MOST};
use crate::refusals::{refuse_1, refuse_2, refuse_5, Answer, Refused};
use crate::{calls, Space};
use std::cell::RefCell;
use std::io::{self, BufReader, BufWriter, Read, Write};

/// "four registers (0 to 3) that keep a page between calls …, empty at the start".
#[derive(Clone, Debug, Default, PartialEq, Eq)]
pub struct Server {
    pub registers: [Vec<u8>; 4],
}

impl Server {
    /// The reply to a request; none for one that cannot be carried to a call (255, then the end).
    ///
    /// A register is looked at only where the call works on a page: need and forecast name none, and
    /// only run copy names `other` ("arguments that a call does not name are ignored").
    pub fn answer(&mut self, request: &Request) -> Option<Reply> {
        let Request { width, a, b, c, .. } = *request;
        let key = request.first.as_slice();
        if request.first.len() > MOST || request.second.len() > MOST {
            return None;
        }
        match request.call {
            16 => return Some(reply(calls::need(width, a, key), number)),
            17 => return Some(reply(calls::forecast(key, &request.second), pair)),
            _ => {}
        }
        let source = self.registers.get(usize::from(request.other)).cloned();
        let page = self.registers.get_mut(usize::from(request.page))?;
        Some(match request.call {
            0 => {
                *page = request.first.clone();
                Reply::default()
            }
            1 => bytes(page.clone()),
            2 => {
                let height = u16::try_from(a).ok()?;
                let flag = flag(width)?;
                let (lower, upper) = (key, request.second.as_slice());
                reply(
                    calls::begin(page, height, b, lower, c, upper, flag),
                    nothing,
                )
            }
            3 => reply(calls::insert(page, width, key, a), index),
            4 => reply(calls::set_value(page, width, key, a, b), number),
            5 => reply(calls::change_key(page, width, a, key), nothing),
            6 => {
                let source = source.filter(|_| request.page != request.other)?;
                reply(calls::run_copy(page, &source, width, a, b), nothing)
            }
            7 => reply(calls::find(page, width, key), |found| {
                pair((found.slot as u64, u64::from(found.equal)))
            }),
            8 => reply(calls::lower_bound(page, width, key), index),
            9 => reply(calls::upper_bound(page, width, key), index),
            10 => reply(calls::compare_slot(page, width, a, key), |order| {
                number(i64::from(order) as u64)
            }),
            11 => reply(calls::child(page, key), |(child, value)| {
                pair((child as u64, value))
            }),
            12 => reply(calls::entry(page, width, a), |entry| Reply {
                a: entry.value,
                bytes: entry.key,
                ..Reply::default()
            }),
            13 => {
                let mut buffer = request.second.clone();
                let reply = reply(calls::copy_key(page, width, a, &mut buffer), index);
                Reply {
                    bytes: buffer,
                    ..reply
                }
            }
            14 => reply(calls::trailing_id(page, width, a), number),
            15 => reply(calls::space(page), |space| bytes(space_bytes(&space))),
            18 => reply(calls::layout(page, width), |yes| number(u64::from(yes))),
            19 => reply(calls::fit(page, width), |rule| number(u64::from(rule))),
            20 => file_batch(page, width, &records(&request.first)?),
            21 => number(digest(page)),
            _ => return None,
        })
    }
}

/// "number is 0 or the refusal; on a refusal a is 5's U number or 18's stored value, else 0".
fn reply<T>(answer: Answer<T>, done: impl FnOnce(T) -> Reply) -> Reply {
    match answer {
        Ok(result) => done(result),
        Err(Refused { number, carried }) => Reply {
            number,
            a: carried,
            ..Reply::default()
        },
    }
}

/// A call done that answers nothing.
fn nothing((): ()) -> Reply {
    Reply::default()
}

/// A call done that answers one number.
fn number(a: u64) -> Reply {
    pair((a, 0))
}

/// A call done that answers a slot number, a length or a count.
fn index(a: usize) -> Reply {
    number(a as u64)
}

/// A call done that answers two numbers.
fn pair((a, b): (u64, u64)) -> Reply {
    Reply {
        a,
        b,
        ..Reply::default()
    }
}

/// A call done that answers bytes.
fn bytes(bytes: Vec<u8>) -> Reply {
    Reply {
        bytes,
        ..Reply::default()
    }
}

/// "width = flag 0 or 1"; none above.
fn flag(width: u8) -> Option<bool> {
    match width {
        0 => Some(false),
        1 => Some(true),
        _ => None,
    }
}

/// "start, end, free, used, effective, reclaimable, free after compaction, u64 each".
fn space_bytes(space: &Space) -> Vec<u8> {
    [
        space.start,
        space.end,
        space.free,
        space.used,
        space.effective,
        space.reclaimable,
        space.free_after_compaction,
    ]
    .iter()
    .flat_map(|number| number.to_le_bytes())
    .collect()
}

/// A record of a batch: key and value.
type Record<'a> = (&'a [u8], u64);

/// "records, each u32 key length, key, u64 value". A buffer that ends inside a record cannot be
/// carried to a call, whatever the records before it: none, so 255 and the end of the program.
fn records(mut buffer: &[u8]) -> Option<Vec<Record<'_>>> {
    let mut records = Vec::new();
    while !buffer.is_empty() {
        let (length, rest) = buffer.split_first_chunk::<4>()?;
        let (key, rest) = rest.split_at_checked(u32::from_le_bytes(*length) as usize)?;
        let (value, rest) = rest.split_first_chunk::<8>()?;
        records.push((key, u64::from_le_bytes(*value)));
        buffer = rest;
    }
    Some(records)
}

/// "a = records filed; on a refusal a = the refused record's place from 0, b = the U number of a 5 or
/// 0". Each record is filed by insert, in order; all are filed, or no byte changes. Where there is
/// none, the page is judged all the same.
fn file_batch(page: &mut Vec<u8>, width: u8, records: &[Record]) -> Reply {
    if records.is_empty() {
        if let Err(refused) = refuse_page(page, width) {
            return refused_at(0, refused);
        }
    }
    let mut filed = page.clone();
    for (place, (key, value)) in records.iter().enumerate() {
        if let Err(refused) = calls::insert(&mut filed, width, key, *value) {
            return refused_at(place, refused);
        }
    }
    *page = filed;
    index(records.len())
}

/// The refusals of insert that look at no record: 1, 2, 5.
fn refuse_page(page: &[u8], width: u8) -> Answer<()> {
    refuse_1(page)?;
    let width = refuse_2(width)?;
    refuse_5(page, width)
}

/// A batch refused at a record's place.
fn refused_at(place: usize, Refused { number, carried }: Refused) -> Reply {
    Reply {
        number,
        ..pair((place as u64, carried))
    }
}

/// "a = h1 x 2^32 + h2 over the register's bytes x".
fn digest(bytes: &[u8]) -> u64 {
    let (mut h1, mut h2) = (0_u64, 0_u64);
    for &x in bytes {
        h1 = (31 * h1 + u64::from(x) + 1) % 4_294_967_291;
        h2 = (37 * h2 + u64::from(x) + 1) % 4_294_967_279;
    }
    (h1 << 32) + h2
}

/// Answers a stream of requests until it ends, or until one that cannot be carried to a call.
pub fn serve(input: impl Read, output: impl Write) -> io::Result<()> {
    let output = RefCell::new(BufWriter::new(output));
    let input = FlushFirst {
        input,
        output: &output,
    };
    let mut requests = BufReader::with_capacity(1 << 16, input);
    let mut server = Server::default();
    loop {
        let answer = match Request::decode(&mut requests)? {
            Arrival::Whole(request) => server.answer(&request),
            Arrival::Broken => None,
            Arrival::End => break,
        };
        let last = answer.is_none();
        let reply = answer.unwrap_or_else(Reply::broken);
        output.borrow_mut().write_all(&reply.encode())?;
        if last {
            break;
        }
    }
    let mut output = output.into_inner();
    output.flush()
}

/// An input that sends all pending output before it reads, since a read may wait.
struct FlushFirst<'a, I, O: Write> {
    input: I,
    output: &'a RefCell<BufWriter<O>>,
}

impl<I: Read, O: Write> Read for FlushFirst<'_, I, O> {
    fn read(&mut self, buffer: &mut [u8]) -> io::Result<usize> {
        self.output.borrow_mut().flush()?;
        self.input.read(buffer)
    }
}

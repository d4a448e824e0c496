//! The server of calls: every call of its table, and what ends it.

#[allow(dead_code)]
mod common;

use common::*;
use plain::ask::{serve, Server};
use plain::protocol::{Arrival, Reply, Request, MOST};
use plain::{begin, insert, PAGE};

/// A request with the fields that most calls name.
fn request(call: u8, width: u8, a: u64, b: u64, first: &[u8], second: &[u8]) -> Request {
    Request {
        call,
        width,
        a,
        b,
        first: first.to_vec(),
        second: second.to_vec(),
        ..Request::default()
    }
}

/// A reply from its four parts.
fn reply(number: u8, a: u64, b: u64, bytes: &[u8]) -> Option<Reply> {
    Some(Reply {
        number,
        a,
        b,
        bytes: bytes.to_vec(),
    })
}

/// A record of a batch.
fn record(key: &[u8], value: u64) -> Vec<u8> {
    let length = (key.len() as u32).to_le_bytes();
    [&length, key, &value.to_le_bytes()].concat()
}

#[test]
fn every_call() {
    let mut server = Server::default();
    let mut ask = |call, width, a, b, first: &[u8], second: &[u8]| {
        server.answer(&request(call, width, a, b, first, second))
    };
    assert_eq!(ask(1, 0, 0, 0, b"", b""), reply(0, 0, 0, b""));
    assert_eq!(ask(19, 8, 0, 0, b"", b""), reply(1, 0, 0, b""));
    assert_eq!(ask(0, 0, 0, 0, &[0; PAGE], b""), reply(0, 0, 0, b""));
    assert_eq!(ask(2, 1, 3, 4, b"hub/a", b"hub/z"), reply(0, 0, 0, b""));
    assert_eq!(ask(3, 8, 7, 0, b"hub/b", b""), reply(0, 0, 0, b""));
    assert_eq!(ask(3, 8, 9, 0, b"hub/parcel", b""), reply(0, 1, 0, b""));
    assert_eq!(ask(3, 8, 9, 0, b"hub/parcel", b""), reply(11, 0, 0, b""));
    assert_eq!(ask(4, 8, 9, 10, b"hub/parcel", b""), reply(0, 9, 0, b""));
    assert_eq!(ask(4, 8, 9, 10, b"hub/parcel", b""), reply(18, 10, 0, b""));
    assert_eq!(ask(5, 8, 0, 0, b"hub/c", b""), reply(0, 0, 0, b""));
    assert_eq!(ask(7, 8, 0, 0, b"hub/parcel", b""), reply(0, 1, 1, b""));
    assert_eq!(ask(7, 8, 0, 0, b"hub/q", b""), reply(0, 2, 0, b""));
    assert_eq!(ask(8, 8, 0, 0, b"hub/c", b""), reply(0, 0, 0, b""));
    assert_eq!(ask(9, 8, 0, 0, b"hub/c", b""), reply(0, 1, 0, b""));
    assert_eq!(ask(10, 8, 0, 0, b"hub/d", b""), reply(0, u64::MAX, 0, b""));
    assert_eq!(ask(10, 8, 0, 0, b"hub/b", b""), reply(0, 1, 0, b""));
    assert_eq!(ask(11, 0, 0, 0, b"hub/d", b""), reply(0, 0, 7, b""));
    assert_eq!(ask(11, 99, 0, 0, b"hub/b", b""), reply(0, u64::MAX, 0, b""));
    assert_eq!(ask(12, 8, 1, 0, b"", b""), reply(0, 10, 0, b"hub/parcel"));
    assert_eq!(
        ask(13, 8, 0, 0, b"", b"1234567"),
        reply(0, 5, 0, b"hub/c67")
    );
    assert_eq!(
        ask(13, 8, 1, 0, b"", b"1234567"),
        reply(15, 0, 0, b"1234567")
    );
    assert_eq!(
        ask(14, 8, 1, 0, b"", b""),
        reply(0, u64::from_be_bytes(*b"b/parcel"), 0, b"")
    );
    let numbers: [u64; 7] = [16, 16_234, 16_218, 134, 134, 0, 16_218];
    let numbers: Vec<u8> = numbers.iter().flat_map(|n| n.to_le_bytes()).collect();
    assert_eq!(ask(15, 8, 0, 0, b"", b""), reply(0, 0, 0, &numbers));
    assert_eq!(ask(16, 8, 4, 0, b"hub/parcel", b""), reply(0, 22, 0, b""));
    assert_eq!(ask(17, 8, 0, 0, b"hub/a", b"hub/b"), reply(0, 4, 96, b""));
    assert_eq!(ask(18, 8, 0, 0, b"", b""), reply(0, 1, 0, b""));
    assert_eq!(ask(19, 8, 0, 0, b"", b""), reply(0, 0, 0, b""));

    let mut expected = vec![0; PAGE];
    begin(&mut expected, 3, 4, b"hub/a", 0, b"hub/z", true).unwrap();
    insert(&mut expected, 8, b"hub/c", 7).unwrap();
    insert(&mut expected, 8, b"hub/parcel", 10).unwrap();
    assert_eq!(ask(1, 8, 0, 0, b"", b""), reply(0, 0, 0, &expected));

    let batch = [record(b"hub/x", 1), record(b"hub/", 2), record(b"hub/y", 3)].concat();
    assert_eq!(ask(20, 8, 0, 0, &batch, b""), reply(9, 1, 0, b""));
    assert_eq!(ask(1, 8, 0, 0, b"", b""), reply(0, 0, 0, &expected));
    let batch = [
        record(b"hub/x", 1),
        record(b"hub/b", 2),
        record(b"hub/y", 3),
    ]
    .concat();
    assert_eq!(ask(20, 8, 0, 0, &batch, b""), reply(0, 3, 0, b""));
    assert_eq!(ask(20, 8, 0, 0, b"", b""), reply(0, 0, 0, b""));
    assert_eq!(
        ask(20, 1, 0, 0, &record(b"hub/e", 2), b""),
        reply(5, 0, 8, b"")
    );
    for (key, value) in [(&b"hub/x"[..], 1), (b"hub/b", 2), (b"hub/y", 3)] {
        insert(&mut expected, 8, key, value).unwrap();
    }
    assert_eq!(ask(1, 8, 0, 0, b"", b""), reply(0, 0, 0, &expected));
}

#[test]
fn a_batch_without_records_is_judged_by_its_page() {
    let good = filled(8, false, &[b"a", b"parcel"]);
    let uninitialized = changed(&good, |page| page[INITIALIZED] = 0);
    let heavy = changed(&good, |page| set_u32(page, EFFECTIVE, 135));
    let cut = good[..PAGE - 1].to_vec();
    for (page, width, number, rule) in [
        (&good, 8, 0, 0),
        (&begun(b"hub/a", b"hub/z", true), 0, 0, 0),
        (&good, 1, 5, 8),
        (&good, 2, 2, 0),
        (&uninitialized, 8, 5, 1),
        (&uninitialized, 9, 2, 0),
        (&heavy, 8, 5, 8),
        (&cut, 8, 1, 0),
        (&cut, 2, 1, 0),
        (&Vec::new(), 8, 1, 0),
    ] {
        let mut server = Server::default();
        server.registers[0].clone_from(page);
        let batch = request(20, width, 0, 0, b"", b"");
        assert_eq!(server.answer(&batch), reply(number, 0, rule, b""));
        assert_eq!(server.registers[0], *page);
    }
}

#[test]
fn a_long_key_is_refused_before_a_page_that_is_not_fit() {
    let mut server = Server::default();
    server.registers[0] = vec![0; PAGE];
    for (length, expected) in [(65_535, reply(5, 0, 1, b"")), (65_536, reply(3, 0, 0, b""))] {
        let batch = record(&vec![b'x'; length], 0);
        assert_eq!(server.answer(&request(20, 8, 0, 0, &batch, b"")), expected);
    }
}

#[test]
fn run_copy_between_registers() {
    let mut server = Server::default();
    for (register, keys) in [(2, [&b"a"[..], b"b"]), (3, [b"c", b"d"])] {
        server.registers[register] = filled(1, false, &keys);
    }
    let copy = |page, other| Request {
        page,
        other,
        ..request(6, 1, 1, 1, b"", b"")
    };
    assert_eq!(server.answer(&copy(2, 3)), reply(0, 0, 0, b""));
    let mut expected = filled(1, false, &[b"a", b"b"]);
    insert(&mut expected, 1, b"d", 1).unwrap();
    assert_eq!(server.registers[2], expected);
    assert_eq!(server.registers[3], filled(1, false, &[b"c", b"d"]));
    assert_eq!(server.answer(&copy(2, 3)), reply(12, 0, 0, b""));
    assert_eq!(server.answer(&copy(0, 3)), reply(1, 0, 0, b""));
    assert_eq!(server.answer(&copy(2, 2)), None);
    assert_eq!(server.answer(&copy(2, 4)), None);
    assert_eq!(server.answer(&copy(4, 2)), None);
}

#[test]
fn digests() {
    let mut server = Server::default();
    let digest = request(21, 0, 0, 0, b"", b"");
    assert_eq!(server.answer(&digest), reply(0, 0, 0, b""));
    server.registers[0] = vec![0, 255];
    // h1: 1, then 31 + 256; h2: 1, then 37 + 256.
    let expected = (287 << 32) + 293;
    assert_eq!(server.answer(&digest), reply(0, expected, 0, b""));
}

#[test]
fn requests_that_cannot_be_carried_to_a_call() {
    let mut server = Server::default();
    server.registers[0] = begun(b"", b"", false);
    let kept = server.clone();
    let cut = record(b"key", 1);
    for broken in [
        request(22, 8, 0, 0, b"", b""),
        request(255, 8, 0, 0, b"", b""),
        Request {
            page: 4,
            ..request(19, 8, 0, 0, b"", b"")
        },
        request(2, 0, 65_536, 0, b"", b""),
        request(2, 2, 0, 0, b"", b""),
        request(0, 0, 0, 0, &vec![0; MOST + 1], b""),
        request(16, 0, 0, 0, b"", &vec![0; MOST + 1]),
        request(20, 8, 0, 0, &cut[..cut.len() - 1], b""),
        request(20, 8, 0, 0, &cut[..3], b""),
        request(
            20,
            8,
            0,
            0,
            &[cut.as_slice(), b"\xff\xff\xff\xff"].concat(),
            b"",
        ),
    ] {
        assert_eq!(server.answer(&broken), None, "{}", broken.call);
        assert_eq!(server, kept);
    }
    // Registers that a call does not name are ignored.
    let unnamed = Request {
        page: 9,
        other: 9,
        ..request(16, 8, 0, 0, b"parcel", b"")
    };
    assert_eq!(server.answer(&unnamed), reply(0, 22, 0, b""));
    let unnamed = Request {
        other: 9,
        ..request(19, 8, 0, 0, b"", b"")
    };
    assert_eq!(server.answer(&unnamed), reply(0, 0, 0, b""));
}

#[test]
fn a_conversation() {
    let requests = [
        request(0, 0, 0, 0, &[0; PAGE], b""),
        request(2, 0, 0, 0, b"", b""),
        request(3, 8, 1, 0, b"a", b""),
        request(12, 8, 0, 0, b"", b""),
    ];
    let stream: Vec<u8> = requests
        .iter()
        .flat_map(|request| request.encode())
        .collect();
    let answers = |stream: &[u8]| {
        let mut output = Vec::new();
        serve(stream, &mut output).unwrap();
        let mut rest = output.as_slice();
        let mut answers = Vec::new();
        while let Some(reply) = Reply::decode(&mut rest).unwrap() {
            answers.push(reply);
        }
        answers
    };
    let whole = answers(&stream);
    assert_eq!(whole.len(), 4);
    assert_eq!(whole.last().cloned(), reply(0, 1, 0, b"a"));
    assert_eq!(answers(b""), []);
    // Cut short: 255, and nothing after it.
    let cut = answers(&stream[..stream.len() - 1]);
    assert_eq!(cut.len(), 4);
    assert_eq!(cut.last().cloned(), reply(255, 0, 0, b""));
    let mut unknown = request(99, 0, 0, 0, b"", b"").encode();
    unknown.extend(&stream);
    assert_eq!(answers(&unknown), [Reply::broken()]);
    // n above 82,000 is judged by its number alone.
    let mut long = stream[..28].to_vec();
    long.extend((MOST as u32 + 1).to_le_bytes());
    assert_eq!(answers(&long), [Reply::broken()]);
}

#[test]
fn requests_to_bytes_and_back() {
    let request = Request {
        call: 1,
        width: 2,
        page: 3,
        other: 4,
        a: 5,
        b: u64::MAX,
        c: 7,
        first: b"first".to_vec(),
        second: b"".to_vec(),
    };
    let bytes = request.encode();
    assert_eq!(bytes.len(), 4 + 24 + 9 + 4);
    let mut stream = bytes.as_slice();
    assert_eq!(
        Request::decode(&mut stream).unwrap(),
        Arrival::Whole(request)
    );
    assert_eq!(Request::decode(&mut stream).unwrap(), Arrival::End);
    assert_eq!(Request::decode(&mut &bytes[..9]).unwrap(), Arrival::Broken);
}

//! Sample pages for the listing program: a file for each, and beside it the
//! text that `plain` prints.

use crate::departures::scene::{begun, hinted, rust, with};
use crate::options::Options;
use crate::script::{replay, Step};
use doradb::oracle::{self, Width};
use std::fs;
use std::path::Path;

/// A text above this many bytes is not kept: it can be made again. In the stream its sums stand for it.
const KEPT: usize = 100_000;

/// A sample: what the listing program gets on its standard input.
pub struct Sample {
    /// Its file is named so.
    pub name: &'static str,
    /// A width byte and a page, or what stands in their place.
    pub input: Vec<u8>,
}

/// Writes NAME.page and NAME.txt for every sample into the folder `--out`, and all of them as
/// one stream for the program `listings` with the answers it shall give. The stream ends with a
/// record cut short.
pub fn samples(options: &Options) -> Result<bool, String> {
    let stream = options
        .out_stdin
        .as_deref()
        .zip(options.out_stdout.as_deref());
    if options.out_stdin.is_some() != options.out_stdout.is_some() {
        return Err("samples wants --out-stdin and --out-stdout together".into());
    }
    if options.out.is_none() && stream.is_none() {
        return Err("samples wants --out FOLDER, or --out-stdin FILE and --out-stdout FILE".into());
    }
    let (mut records, mut answers) = (Vec::new(), Vec::new());
    for Sample { name, input } in all() {
        let text = plain::list(&input);
        if let Some(folder) = options.out.as_deref().map(Path::new) {
            write(&folder.join(format!("{name}.page")), &input)?;
            if text.len() <= KEPT {
                write(&folder.join(format!("{name}.txt")), text.as_bytes())?;
            }
        }
        records.extend(record(&input, text.len() > KEPT));
        answers.extend(answer(&text));
        println!("{name}: {} bytes listed", text.len());
    }
    records.extend(&record(&[], false)[1..]);
    answers.extend(b"cut\n");
    if let Some((stdin, stdout)) = stream {
        write(Path::new(stdin), &records)?;
        write(Path::new(stdout), &answers)?;
    }
    Ok(true)
}

fn write(file: &Path, bytes: &[u8]) -> Result<(), String> {
    fs::write(file, bytes).map_err(|error| format!("{}: {error}", file.display()))
}

/// A record of the stream: whether the text is only summed, the input's length, the input.
fn record(input: &[u8], summed: bool) -> Vec<u8> {
    let length = u32::try_from(input.len()).expect("a sample is short");
    [&[u8::from(summed)][..], &length.to_le_bytes(), input].concat()
}

/// What answers a record: the text, or in place of a long one its length and two sums over its bytes.
fn answer(text: &str) -> Vec<u8> {
    if text.len() <= KEPT {
        return text.as_bytes().to_vec();
    }
    let (mut h1, mut h2) = (0_u64, 0_u64);
    for x in text.bytes().map(u64::from) {
        h1 = (31 * h1 + x + 1) % 4_294_967_291;
        h2 = (37 * h2 + x + 1) % 4_294_967_279;
    }
    format!("sum {} {h1} {h2}\n", text.len()).into_bytes()
}

/// Every sample, the pages of each kind once.
pub fn all() -> Vec<Sample> {
    let bench = filed(
        begun(b"", b"", false),
        8,
        [(b"a".to_vec(), 1), (b"parcel".to_vec(), 2)],
    );
    let leaf = replay(&begun(b"", b"", false));
    let hub = long_keys();
    let sample = |name, width, page: &[u8]| Sample {
        name,
        input: [&[width][..], page].concat(),
    };
    let broken = |name, at, bytes: &[u8]| sample(name, 8, &with(hub.clone(), at, bytes));
    vec![
        sample("bench", 8, &bench),
        sample("customer-before", 8, &hinted(64)),
        sample("customer-after", 8, &rekeyed_by_rust()),
        sample("hub", 8, &hub),
        sample("empty-leaf", 8, &leaf),
        sample(
            "width-1",
            1,
            &filed(begun(b"", b"", true), 1, numbered(70, 1)),
        ),
        sample(
            "width-0",
            0,
            &filed(begun(b"", b"", false), 0, numbered(9, 0)),
        ),
        sample("full", 8, &filed(begun(b"", b"", true), 8, fours())),
        sample("widest", 0, &widest()),
        broken("broken-u1", 44, &[0]),
        broken("broken-u2", plain::HEADER + 2, &16_255_u16.to_le_bytes()),
        broken(
            "broken-u3",
            plain::HEADER + 2,
            &hub[plain::HEADER + 10..plain::HEADER + 12],
        ),
        broken("broken-u4", plain::HEADER + 12, &[0xff]),
        broken("broken-u5", 32, &[0, 0, 0, 0, 0, 0, 0, 0]),
        sample("broken-u6", 8, &below_the_fence()),
        sample("broken-u7", 8, &swapped(&bench)),
        broken("broken-u8", 40, &[hub[40] ^ 1]),
        sample("broken-u9", 8, &with(hinted(64), 64, &[1])),
        Sample {
            name: "no-input",
            input: Vec::new(),
        },
        Sample {
            name: "no-width",
            input: bench.clone(),
        },
        sample("one-byte-more", 8, &[&bench[..], &[0]].concat()),
        sample("width-2", 2, &bench),
    ]
}

fn filed(
    mut script: Vec<Step>,
    width: u8,
    records: impl IntoIterator<Item = (Vec<u8>, u64)>,
) -> Vec<u8> {
    script.extend(
        records
            .into_iter()
            .map(|(key, value)| Step::Insert { width, key, value }),
    );
    replay(&script)
}

/// Keys of three digits, values from 1 times `step` on, below 256.
fn numbered(count: u64, step: u64) -> impl Iterator<Item = (Vec<u8>, u64)> {
    (0..count).map(move |i| (format!("{i:03}").into_bytes(), step * (i + 1)))
}

/// As many keys of four bytes as a page at width 8 holds, filed from both ends.
fn fours() -> impl Iterator<Item = (Vec<u8>, u64)> {
    (0..1016_u32).map(|i| {
        let place = if i % 2 == 0 { i / 2 } else { 1015 - i / 2 };
        (place.to_be_bytes().to_vec(), u64::from(i))
    })
}

/// Long and short keys between two fences that share 17 bytes.
fn long_keys() -> Vec<u8> {
    let key = |end: &str| format!("hub/osl/sender/00{end}").into_bytes();
    let script = begun(&key("1000-lower"), &key("9000-upper"), true);
    let ends = ["1042", "1042 Nordlys AS", "2", "25", "731 Fjordfrakt", "8"];
    filed(
        script,
        8,
        (1..).zip(ends).map(|(value, end)| (key(end), value)),
    )
}

/// A prefix of 8,128 bytes and a key for every slot that is left: 16 MB of text at width 0.
fn widest() -> Vec<u8> {
    let prefix = vec![b'p'; 8128];
    let fence = |end: &[u8]| [&prefix[..], end].concat();
    let script = begun(&fence(&[0]), &fence(&[255]), false);
    filed(
        script,
        0,
        (0..1016_u16).map(|i| (fence(&(i + 256).to_be_bytes()), 0)),
    )
}

/// The customer's page after the fault: slot 7 of 64 re-keyed by doradb, which then
/// writes hint 1 in place of hint 0.
fn rekeyed_by_rust() -> Vec<u8> {
    let mut page = rust(&hinted(64));
    oracle::change_key_alone(&mut page, Width::Eight, 7, b"075");
    oracle::update_hint_if_needed(&mut page, 7, b"075");
    page.bytes().to_vec()
}

/// A page whose lower fence is above its first key.
fn below_the_fence() -> Vec<u8> {
    let page = filed(begun(b"b", b"", false), 8, [(b"c".to_vec(), 1)]);
    with(page, 16, &[1, 0, 0, 0, 0, 0, 0, b'd'])
}

/// A page with its first two slots the other way round.
fn swapped(page: &[u8]) -> Vec<u8> {
    let (first, second) = (plain::HEADER, plain::HEADER + 8);
    let page_with = with(page.to_vec(), first, &page[second..second + 8]);
    with(page_with, second, &page[first..first + 8])
}

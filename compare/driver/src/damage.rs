//! Damaged copies of pages: each field off by one and at its limits, slots out
//! of range, overlapping pieces, unfaithful heads, stale and falling hints,
//! wrong effective space, wrong lengths of page.

use crate::pages::Page;
use crate::places;
use crate::random::Random;
use crate::script::Step;
use plain::{BODY, HEADER, PAGE, USABLE};

/// Place and size of each header field that a rule looks at.
const FIELDS: [(usize, usize); 15] = [
    (0, 2),
    (2, 2),
    (4, 2),
    (6, 2),
    (16, 2),
    (18, 2),
    (20, 4),
    (32, 2),
    (34, 2),
    (36, 4),
    (40, 4),
    (44, 1),
    (45, 1),
    (46, 2),
    (24, 8),
];

/// Numbers at which some rule of document 01 turns.
const TURNS: [u64; 17] = [
    0, 1, 2, 4, 5, 8, 16, 17, 64, 95, 96, 16_255, 16_256, 16_257, 16_352, 16_353, 65_535,
];

/// Steps after which a product by 8 or a 16-bit number is the same again.
const WRAPS: [u64; 5] = [8_192, 16_384, 32_768, 57_344, 65_536];

/// Some damage, most of it small.
pub fn some(random: &mut Random, page: &Page) -> Page {
    if !whole(page) {
        return page.after(Vec::new());
    }
    let times = random.weighted(&[(6, 1), (2, 2), (1, 3)]);
    let mut damaged = page.after(Vec::new());
    for _ in 0..times {
        damaged = damaged.after(one(random, &damaged));
    }
    damaged
}

/// Damage that breaks a header rule, where a few tries find one.
pub fn header(random: &mut Random, page: &Page) -> Page {
    if !whole(page) {
        return page.after(Vec::new());
    }
    let mut damaged = page.after(Vec::new());
    for _ in 0..40 {
        damaged = page.after(vec![field(random, page)]);
        if matches!(plain::space(&damaged.bytes), Err(refused) if refused.number == 4) {
            break;
        }
    }
    damaged
}

/// Damage that leaves the header rules whole, where a few tries find one.
pub fn below_header(random: &mut Random, page: &Page) -> Page {
    for _ in 0..10 {
        let damaged = some(random, page);
        if plain::space(&damaged.bytes).is_ok() {
            return damaged;
        }
    }
    page.after(Vec::new())
}

/// The payload of a slot put outside end..16,256.
pub fn payload(random: &mut Random, page: &Page, slot: usize) -> Page {
    if !whole(page) {
        return page.after(Vec::new());
    }
    let end = number(&page.bytes, 6, 2);
    let length = number(&page.bytes, place(slot), 2);
    let payload = u64::from(page.facts.width) + if length > 4 { length } else { 0 };
    let outside = [0, end / 2, end.max(1) - 1, 16_257, 65_535];
    page.after(vec![match random.below(6) {
        0 => write(place(slot), 65_535, 2),
        // A byte or a few of the payload past the body.
        1 | 2 => {
            let past = (BODY + random.within(1, 8)) as u64;
            write(place(slot) + 2, past.saturating_sub(payload), 2)
        }
        _ => write(place(slot) + 2, *random.pick(&outside), 2),
    }])
}

/// Damage after which this rule is the first that the page breaks, where some
/// tries find one.
pub fn breaking(random: &mut Random, page: &Page, rule: u8) -> Page {
    let mut damaged = some(random, page);
    for _ in 0..200 {
        if plain::fit(&damaged.bytes, page.facts.width) == Ok(rule) {
            break;
        }
        damaged = some(random, page);
    }
    damaged
}

/// Effective space above the used space, where a byte is free.
pub fn overdrawn(random: &mut Random, page: &Page) -> Page {
    if !whole(page) {
        return page.after(Vec::new());
    }
    let free = number(&page.bytes, 6, 2).saturating_sub(number(&page.bytes, 4, 2));
    let above = 1 + random.below(free.max(1) as usize) as u64;
    let above = if random.percent(30) { 1 } else { above };
    page.after(vec![write(
        40,
        (USABLE as u64 + above).saturating_sub(free),
        4,
    )])
}

/// A page of another length.
pub fn length(random: &mut Random, page: &Page) -> Page {
    let lengths = [
        0,
        1,
        95,
        96,
        16_352,
        PAGE - 1,
        PAGE - 1,
        PAGE + 1,
        PAGE + 1,
        2 * PAGE,
        65_536,
        81_920,
    ];
    page.after(vec![Step::Length(*random.pick(&lengths))])
}

/// Whether a page has a page's length; others have no fields to damage.
fn whole(page: &Page) -> bool {
    page.bytes.len() == PAGE
}

/// Steps of one damage.
fn one(random: &mut Random, page: &Page) -> Vec<Step> {
    let count = places::count(&page.bytes).min(BODY / 8);
    match random.below(if count == 0 { 6 } else { 17 }) {
        0 | 1 => vec![field(random, page)],
        2 => vec![scratch(random, page)],
        3..=5 => fence(random, page, count),
        6..=8 => vec![slot(random, page, count)],
        9 => overlap(random, page, count),
        10 => swap(random, page, count),
        11 => vec![head(random, page, count)],
        12 => vec![accounting(random, page)],
        13 | 14 => vec![hint(random, page)],
        15 => twin(random, page, count),
        _ => vec![scratch_payload(random, page)],
    }
}

/// A header field off by one, at a limit, or anything.
fn field(random: &mut Random, page: &Page) -> Step {
    let (at, size) = *random.pick(&FIELDS);
    write(at, off(random, number(&page.bytes, at, size)), size)
}

/// A number beside another, or at a turn, or alike in its lower bits, or anything.
fn off(random: &mut Random, old: u64) -> u64 {
    match random.below(9) {
        0..=2 => old.wrapping_add(1),
        3 | 4 => old.wrapping_sub(1),
        5 | 6 => *random.pick(&TURNS),
        7 => old.wrapping_add(*random.pick(&WRAPS)),
        _ => random.next(),
    }
}

/// Fences exchanged, one emptied or both alike, or one put at an entry's head:
/// faithful slots that bound the wrong keys.
fn fence(random: &mut Random, page: &Page, count: usize) -> Vec<Step> {
    let (at, other) = *random.pick(&[(16, 32), (32, 16)]);
    let bytes = |at: usize| page.bytes[at..at + 8].to_vec();
    match random.below(if count == 0 { 4 } else { 6 }) {
        0 => vec![Step::Damage {
            at,
            bytes: bytes(other),
        }],
        1 => vec![
            Step::Damage {
                at,
                bytes: bytes(other),
            },
            Step::Damage {
                at: other,
                bytes: bytes(at),
            },
        ],
        2 | 3 => vec![Step::Damage {
            at,
            bytes: vec![0; 8],
        }],
        _ => {
            let head = &page.bytes[place(random.below(count)) + 4..][..4];
            vec![Step::Damage {
                at,
                bytes: [&[4, 0, 0, 0][..], head].concat(),
            }]
        }
    }
}

/// A hint off by one, at a limit, anything, or the one beside it.
fn hint(random: &mut Random, page: &Page) -> Step {
    let (at, from) = (64 + 4 * random.below(8), 64 + 4 * random.below(8));
    let old = number(&page.bytes, if random.percent(50) { at } else { from }, 4);
    write(
        at,
        if random.percent(40) {
            old
        } else {
            off(random, old)
        },
        4,
    )
}

/// A slot's length, offset or head off by one, at a limit, or another slot's.
fn slot(random: &mut Random, page: &Page, count: usize) -> Step {
    let (part, size) = *random.pick(&[(0, 2), (0, 2), (2, 2), (2, 2), (4, 4)]);
    let at = place(random.below(count)) + part;
    let other = place(random.below(count)) + part;
    let old = number(
        &page.bytes,
        if random.percent(70) { at } else { other },
        size,
    );
    write(at, off(random, old), size)
}

/// Two payloads at one place or one byte apart.
fn overlap(random: &mut Random, page: &Page, count: usize) -> Vec<Step> {
    let (at, other) = (
        place(random.below(count)) + 2,
        place(random.below(count)) + 2,
    );
    let offset = number(&page.bytes, other, 2) + random.below(3) as u64;
    vec![write(at, offset.saturating_sub(1), 2)]
}

/// Two slots in each other's place, or one twice.
fn swap(random: &mut Random, page: &Page, count: usize) -> Vec<Step> {
    let one = random.below(count);
    let other = if random.percent(60) {
        (one + 1) % count
    } else {
        random.below(count)
    };
    let bytes = |slot: usize| page.bytes[place(slot)..place(slot) + 8].to_vec();
    let mut steps = vec![Step::Damage {
        at: place(one),
        bytes: bytes(other),
    }];
    if random.percent(70) {
        steps.push(Step::Damage {
            at: place(other),
            bytes: bytes(one),
        });
    }
    steps
}

/// The key of one slot given to the next as well, where its suffix has room.
fn twin(random: &mut Random, page: &Page, count: usize) -> Vec<Step> {
    let one = place(random.below(count));
    let next = if one + 8 < place(count) { one + 8 } else { one };
    let (length, room) = (number(&page.bytes, one, 2), number(&page.bytes, next, 2));
    let mut steps = vec![
        write(next, length, 2),
        Step::Damage {
            at: next + 4,
            bytes: page.bytes[one + 4..one + 8].to_vec(),
        },
    ];
    if length > 4 && length <= room {
        let from = HEADER + number(&page.bytes, one + 2, 2) as usize;
        let at = HEADER + number(&page.bytes, next + 2, 2) as usize;
        if let Some(suffix) = page.bytes.get(from..from + length as usize) {
            steps.push(Step::Damage {
                at,
                bytes: suffix.to_vec(),
            });
        }
    }
    steps
}

/// The head of a slot made another: a little more or less, another slot's, or anything.
pub fn unfaithful(random: &mut Random, page: &Page, slot: usize) -> Page {
    if !whole(page) {
        return page.after(Vec::new());
    }
    let at = place(slot) + 4;
    let other = place(random.below(page.facts.entries.len().max(1))) + 4;
    let head = number(&page.bytes, if random.percent(50) { at } else { other }, 4);
    let head = if random.percent(30) {
        head
    } else {
        off(random, head)
    };
    page.after(vec![write(at, head, 4)])
}

/// One byte of a head changed: padding, or a byte of the suffix. Or the head
/// of another slot.
fn head(random: &mut Random, page: &Page, count: usize) -> Step {
    let at = place(random.below(count)) + 4;
    if random.percent(40) {
        let other = place(random.below(count)) + 4;
        return write(at, number(&page.bytes, other, 4), 4);
    }
    let at = at + random.below(4);
    Step::Damage {
        at,
        bytes: vec![page.bytes[at] ^ (1 << random.below(8))],
    }
}

/// Effective space off by a little.
fn accounting(random: &mut Random, page: &Page) -> Step {
    let delta = *random.pick(&[1, 8, 9, 16, u64::MAX, u64::MAX - 7]);
    match random.percent(20) {
        true => write(40, *random.pick(&[95, 96, 16_352, 16_353]), 4),
        false => write(40, number(&page.bytes, 40, 4).wrapping_add(delta), 4),
    }
}

/// Any byte changed.
fn scratch(random: &mut Random, page: &Page) -> Step {
    let at = random.below(page.bytes.len());
    Step::Damage {
        at,
        bytes: vec![random.byte()],
    }
}

/// A byte of prefix, fences or payloads changed.
fn scratch_payload(random: &mut Random, page: &Page) -> Step {
    let end = (number(&page.bytes, 6, 2) as usize).min(BODY - 1);
    let at = if random.percent(20) {
        48 + random.below(16)
    } else {
        HEADER + random.within(end, BODY - 1)
    };
    Step::Damage {
        at,
        bytes: vec![page.bytes[at].wrapping_add(*random.pick(&[1, 255, 128]))],
    }
}

/// Where a slot stands in the page.
fn place(slot: usize) -> usize {
    HEADER + 8 * slot
}

fn number(page: &[u8], at: usize, size: usize) -> u64 {
    page[at..at + size]
        .iter()
        .rev()
        .fold(0, |above, byte| above << 8 | u64::from(*byte))
}

fn write(at: usize, value: u64, size: usize) -> Step {
    Step::Damage {
        at,
        bytes: value.to_le_bytes()[..size].to_vec(),
    }
}

//! Keys for pages and probes: every length around the limits of document 01,
//! bytes 0 and 255, shared heads, keys that are prefixes of each other.

use crate::random::Random;

/// The longest key that is not refused with 3.
pub const LONGEST: usize = 65_535;

/// Where the bytes of a key come from.
#[derive(Clone, Copy)]
enum Alphabet {
    All,
    Limits,
    Letters,
}

/// Some bytes of a length, from one alphabet.
pub fn run(random: &mut Random, length: usize) -> Vec<u8> {
    let alphabet = *random.pick(&[Alphabet::All, Alphabet::Limits, Alphabet::Letters]);
    (0..length)
        .map(|_| match alphabet {
            Alphabet::All => random.byte(),
            Alphabet::Limits => *random.pick(&[0, 0, 1, 254, 255, 255]),
            Alphabet::Letters => random.within(usize::from(b'a'), usize::from(b'h')) as u8,
        })
        .collect()
}

/// What the suffixes of one page look like.
#[derive(Clone)]
pub enum Suffixes {
    /// Lengths within these limits.
    Lengths(usize, usize),
    /// One of a few heads, and a tail up to this length: hints and heads tie.
    Heads(Vec<Vec<u8>>, usize),
    /// All lengths from 0 to a few hundred.
    Mixed,
}

impl Suffixes {
    /// A kind that lets `count` entries stand on a page.
    pub fn some(random: &mut Random, count: usize) -> Suffixes {
        let heads = (0..random.within(2, 9)).map(|_| run(random, 4)).collect();
        match random.below(if count < 64 { 9 } else { 7 }) {
            0 => Suffixes::Lengths(2, 4),
            1 => Suffixes::Lengths(4, 4),
            2 => Suffixes::Lengths(5, 5),
            3 => Suffixes::Lengths(3, 6),
            4 => Suffixes::Lengths(6, 20),
            5 => Suffixes::Heads(heads, 9),
            6 => Suffixes::Mixed,
            7 => Suffixes::Lengths(30, 300),
            _ => Suffixes::Lengths(1_000, 3_000),
        }
    }

    /// A kind for a page that is filled: most take few entries to it.
    pub fn filling(random: &mut Random) -> Suffixes {
        match random.below(12) {
            0 => Suffixes::Lengths(4, 4),
            1 => Suffixes::Mixed,
            2..=4 => Suffixes::Lengths(200, 900),
            _ => Suffixes::Lengths(50, 200),
        }
    }

    /// A suffix of this kind.
    pub fn suffix(&self, random: &mut Random) -> Vec<u8> {
        match self {
            Suffixes::Lengths(from, to) => {
                let length = random.within(*from, *to);
                random.bytes(length)
            }
            Suffixes::Heads(heads, longest) => {
                let tail = random.within(0, *longest);
                [random.pick(heads).clone(), run(random, tail)].concat()
            }
            Suffixes::Mixed => {
                let length = length(random);
                run(random, length)
            }
        }
    }
}

/// A suffix length, most of them around 4.
pub fn length(random: &mut Random) -> usize {
    match random.below(20) {
        0 => 0,
        1..=3 => random.within(1, 3),
        4..=7 => 4,
        8..=11 => 5,
        12..=16 => random.within(6, 16),
        17 | 18 => random.within(17, 60),
        _ => random.within(61, 400),
    }
}

/// A key close to another: longer, shorter, or one step beside it.
pub fn near(random: &mut Random, key: &[u8]) -> Vec<u8> {
    let mut near = key.to_vec();
    match random.below(6) {
        0 => near.push(0),
        1 => {
            let length = length(random);
            near.extend(run(random, length));
        }
        2 => {
            near.pop();
        }
        3 => near.truncate(random.below(key.len() + 1)),
        _ if key.is_empty() => {}
        4 => {
            let at = random.below(key.len());
            near[at] = random.byte();
        }
        _ => {
            let at = key.len() - 1;
            near[at] = near[at].wrapping_add(if random.percent(50) { 1 } else { 255 });
        }
    }
    near
}

/// A key strictly between two others, where a few tries find one. A missing
/// one bounds nothing.
pub fn between(random: &mut Random, low: Option<&[u8]>, high: Option<&[u8]>) -> Option<Vec<u8>> {
    (0..12).map(|_| candidate(random, low, high)).find(|key| {
        low.is_none_or(|low| low < key.as_slice()) && high.is_none_or(|high| key.as_slice() < high)
    })
}

fn candidate(random: &mut Random, low: Option<&[u8]>, high: Option<&[u8]>) -> Vec<u8> {
    let from = low.unwrap_or_default();
    let shared = high.map_or(0, |high| shared_prefix(from, high));
    let mut key = from[..shared].to_vec();
    match random.below(5) {
        0 => near(random, from),
        1 => near(random, high.unwrap_or(from)),
        2 => {
            let length = length(random);
            [from, &run(random, length)].concat()
        }
        _ => {
            let first = from.get(shared).copied().unwrap_or(0);
            let last = high.map_or(255, |high| high.get(shared).copied().unwrap_or(0));
            key.push(random.within(usize::from(first), usize::from(last.max(first))) as u8);
            let length = length(random);
            key.extend(run(random, length));
            key
        }
    }
}

/// The length of the longest common prefix.
pub fn shared_prefix(one: &[u8], other: &[u8]) -> usize {
    one.iter().zip(other).take_while(|(a, b)| a == b).count()
}

/// A key above the longest.
pub fn too_long(random: &mut Random) -> Vec<u8> {
    vec![random.byte(); LONGEST + *random.pick(&[1, 1, 1, 2, 500, 16_000])]
}

/// Two fences with a common prefix of some length, most of them apart enough
/// for many keys; an empty upper one bounds nothing.
pub fn fences(random: &mut Random) -> (Vec<u8>, Vec<u8>) {
    let length = *random.pick(&[0, 0, 0, 0, 1, 4, 15, 16, 16, 17, 17, 40, 300]);
    let prefix = run(random, length);
    if length == 0 && random.percent(50) {
        let lower = if random.percent(60) {
            Vec::new()
        } else {
            fence(random, 0, 40)
        };
        return (lower, Vec::new());
    }
    let lower = if random.percent(30) {
        Vec::new()
    } else {
        fence(random, 0, 60)
    };
    let upper = fence(random, 140, 255);
    (
        [&prefix[..], &lower].concat(),
        [&prefix[..], &upper].concat(),
    )
}

/// A fence's suffix: a first byte within limits, and a tail.
fn fence(random: &mut Random, from: usize, to: usize) -> Vec<u8> {
    let tail = *random.pick(&[0, 0, 1, 3, 3, 4, 4, 5, 12, 80]);
    let first = random.within(from, to) as u8;
    [vec![first], run(random, tail)].concat()
}

#[cfg(test)]
mod tests {
    use super::*;

    #[test]
    fn between_is_strictly_between() {
        let mut random = Random::new(1);
        let mut found = 0;
        for _ in 0..2_000 {
            let mut keys = [0; 2].map(|_| {
                let length = length(&mut random).min(6);
                run(&mut random, length)
            });
            keys.sort();
            let [low, high] = keys;
            if let Some(key) = between(&mut random, Some(&low), Some(&high)) {
                assert!(low < key && key < high);
                found += 1;
            }
        }
        assert!(found > 1_000);
    }

    #[test]
    fn fences_rise() {
        let mut random = Random::new(2);
        for _ in 0..2_000 {
            let (lower, upper) = fences(&mut random);
            assert!(upper.is_empty() || lower < upper);
        }
    }
}

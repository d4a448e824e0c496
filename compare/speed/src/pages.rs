//! The pages that calls are timed on, and the keys they are asked with.

use doradb_timed::oracle::{self, Page, Width};
use std::ops::Range;
use std::rc::Rc;

/// Numbers that depend on their seed alone (splitmix64).
pub struct Random(u64);

impl Random {
    pub fn new(seed: u64) -> Random {
        Random(seed)
    }

    pub fn next(&mut self) -> u64 {
        self.0 = self.0.wrapping_add(0x9e37_79b9_7f4a_7c15);
        let mut z = self.0;
        z = (z ^ (z >> 30)).wrapping_mul(0xbf58_476d_1ce4_e5b9);
        z = (z ^ (z >> 27)).wrapping_mul(0x94d0_49bb_1331_11eb);
        z ^ (z >> 31)
    }

    pub fn below(&mut self, bound: usize) -> usize {
        (self.next() % bound as u64) as usize
    }
}

/// A shape of keys: so many bytes shared by all, so many random ones after them, and whether the page's fences share
/// the first, so that they are its prefix.
#[derive(Clone, Copy)]
pub struct Shape {
    pub name: &'static str,
    shared: usize,
    random: usize,
    fenced: bool,
}

pub const SHAPES: [Shape; 4] = [
    Shape {
        name: "4",
        shared: 0,
        random: 4,
        fenced: false,
    },
    Shape {
        name: "24",
        shared: 0,
        random: 24,
        fenced: false,
    },
    Shape {
        name: "64, prefix 48",
        shared: 48,
        random: 16,
        fenced: true,
    },
    Shape {
        name: "64, 48 alike, no prefix",
        shared: 48,
        random: 16,
        fenced: false,
    },
];

impl Shape {
    /// The shape in words.
    pub fn words(&self) -> String {
        let (length, rest) = self.name.split_once(',').unwrap_or((self.name, ""));
        let comma = if rest.is_empty() { "" } else { "," };
        format!("keys of {length} bytes{comma}{rest}")
    }

    fn key(&self, random: &mut Random) -> Vec<u8> {
        let shared = std::iter::repeat_n(b'p', self.shared);
        shared
            .chain((0..self.random).map(|_| random.next() as u8))
            .collect()
    }

    /// Two fences: `ppp` and `ppp` with a highest byte, or none.
    pub fn fences(&self) -> (Vec<u8>, Vec<u8>) {
        if !self.fenced {
            return (Vec::new(), Vec::new());
        }
        let lower = vec![b'p'; self.shared];
        let mut upper = lower.clone();
        upper.extend([255; 4]);
        (lower, upper)
    }
}

/// What a call is asked with.
pub struct Probe {
    /// A key: `present` or `absent`.
    pub key: Vec<u8>,
    pub slot: usize,
    /// A key of the page, with its value.
    pub present: Vec<u8>,
    pub value: u64,
    /// A key that the page lacks.
    pub absent: Vec<u8>,
    /// The slot's key.
    pub own: Vec<u8>,
    /// A key that may stand in the slot: its key with another last byte.
    pub near: Vec<u8>,
}

impl Probe {
    fn new(page: &Page, count: usize, random: &mut Random) -> Probe {
        let entry = |slot| oracle::entry(page, Width::Eight, slot).expect("an entry");
        let (present, value) = entry(random.below(count));
        let mut absent = present.clone();
        while oracle::find(page, &absent).is_ok() {
            *absent.last_mut().expect("a byte") = random.next() as u8;
        }
        let slot = random.below(count);
        let own = entry(slot).0;
        let mut near = own.clone();
        loop {
            *near.last_mut().expect("a byte") = random.next() as u8;
            match oracle::find(page, &near) {
                Ok(at) if at == slot => break,
                Err(at) if at == slot || at == slot + 1 => break,
                _ => {}
            }
        }
        let key = match random.below(2) {
            0 => present.clone(),
            _ => absent.clone(),
        };
        Probe {
            key,
            slot,
            present,
            value,
            absent,
            own,
            near,
        }
    }
}

/// A page, and what its calls are asked with.
pub struct Case {
    pub name: String,
    pub shape: &'static str,
    pub count: usize,
    pub hints: bool,
    pub page: Box<Page>,
    pub prefix_len: usize,
    pub fences: (Vec<u8>, Vec<u8>),
    pub probes: Vec<Probe>,
    /// The page before anything was filed.
    pub begun: Box<Page>,
    /// The page with the first half of the entries alone.
    pub half: Box<Page>,
    /// What was filed, in the order in which it was.
    pub records: Records,
}

/// Records as a batch takes them: each a u32 key length, the key and a u64 value.
#[derive(Default)]
pub struct Records {
    pub bytes: Vec<u8>,
    places: Vec<(Range<usize>, u64)>,
}

impl Records {
    fn push(&mut self, key: &[u8], value: u64) {
        let length = u32::try_from(key.len()).expect("a short key");
        self.bytes.extend(length.to_le_bytes());
        let at = self.bytes.len();
        self.bytes.extend(key);
        self.bytes.extend(value.to_le_bytes());
        self.places.push((at..at + key.len(), value));
    }

    /// Each key with its value.
    pub fn each(&self) -> impl Iterator<Item = (&[u8], u64)> {
        let place = |(key, value): &(Range<usize>, u64)| (&self.bytes[key.clone()], *value);
        self.places.iter().map(place)
    }
}

/// What a page is like, besides its keys.
#[derive(Clone, Copy)]
struct Form {
    height: u16,
    hints: bool,
    /// Entries for which room is left.
    spare: usize,
}

impl Case {
    /// A page of at most `count` entries, as many as it holds, filed in random order; `probes` probes.
    fn new(shape: Shape, count: usize, form: Form, probes: usize) -> Case {
        let mut random = Random::new(1 + count as u64);
        let fences = shape.fences();
        let mut page = Page::of(&[0; oracle::PAGE_SIZE]).expect("a page's bytes");
        oracle::begin(
            &mut page,
            form.height,
            7,
            &fences.0,
            0,
            &fences.1,
            form.hints,
        );
        let begun = page.clone();
        let (prefix_len, _) = oracle::forecast(&fences.0, &fences.1).expect("short fences");
        let mut records = Records::default();
        let mut count = count;
        while records.places.len() < count {
            let key = shape.key(&mut random);
            let need = oracle::need(Width::Eight, prefix_len, &key).expect("a key with the prefix");
            if oracle::space(&page).free < need * (1 + form.spare) {
                count = records.places.len();
            } else if oracle::find(&page, &key).is_err() {
                let value = random.next() >> 1;
                oracle::insert(&mut page, Width::Eight, &key, value);
                records.push(&key, value);
            }
        }
        let mut half = begun.clone();
        oracle::run_copy(&mut half, &page, Width::Eight, 0, count / 2);
        let probes = (0..probes)
            .map(|_| Probe::new(&page, count, &mut random))
            .collect();
        let on = if form.hints { "hints" } else { "no hints" };
        Case {
            name: format!("{count} of {}, {on}", shape.name),
            shape: shape.name,
            count,
            hints: form.hints,
            page,
            prefix_len,
            fences,
            probes,
            begun,
            half,
            records,
        }
    }
}

/// The counts of a bench, and of a quick one.
const COUNTS: &[usize] = &[8, 63, 64, 256, 1016];
const FEW_COUNTS: &[usize] = &[8, 64, 1016];

/// Each shape with each count, or with as many as the page holds; hints only where they can be in use.
fn all(counts: &[usize], height: u16, spare: usize, probes: usize) -> Vec<Rc<Case>> {
    let mut cases: Vec<Rc<Case>> = Vec::new();
    for shape in SHAPES {
        for &count in counts {
            for hints in [false, true] {
                let form = Form {
                    height,
                    hints,
                    spare,
                };
                let case = Case::new(shape, count, form, probes);
                let twice = cases.iter().any(|other| other.name == case.name);
                if !twice && (!hints || count >= 64) {
                    cases.push(Rc::new(case));
                }
            }
        }
    }
    cases
}

/// The pages, by what they are for.
pub struct Pages {
    pub leaves: Vec<Rc<Case>>,
    /// Leaves with room for one entry more.
    pub roomy: Vec<Rc<Case>>,
    pub branches: Vec<Rc<Case>>,
}

impl Pages {
    /// The pages with at most so many probes each; of fewer counts for a quick bench.
    pub fn new(probes: usize, quick: bool) -> Pages {
        let counts = if quick { FEW_COUNTS } else { COUNTS };
        Pages {
            leaves: all(counts, 0, 0, probes),
            roomy: all(counts, 0, 1, probes.min(256)),
            branches: all(counts, 1, 0, probes),
        }
    }
}

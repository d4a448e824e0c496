//! Pages, and every call of document 01 on them.

use crate::c;
use crate::refusal::{done, BatchRefusal, Refusal};
use std::cmp::Ordering;
use std::fmt;

/// The bytes of a page.
pub const PAGE_BYTES: usize = 16_384;

/// The width of a page's values. It is not on the page: the caller knows it.
#[derive(Clone, Copy, Debug, PartialEq, Eq, Hash)]
pub enum Width {
    /// No value: every value is 0.
    None = 0,
    /// A byte.
    Byte = 1,
    /// A `u64`.
    Word = 8,
}

impl TryFrom<u8> for Width {
    type Error = Refusal;

    /// The width of 0, 1 or 8 bytes. Refuses 2.
    ///
    /// ```
    /// use dorgumanna::{Refusal, Width};
    ///
    /// assert_eq!(Width::try_from(8), Ok(Width::Word));
    /// assert_eq!(Width::try_from(2), Err(Refusal::Width));
    /// ```
    fn try_from(width: u8) -> Result<Width, Refusal> {
        match width {
            0 => Ok(Width::None),
            1 => Ok(Width::Byte),
            8 => Ok(Width::Word),
            _ => Err(Refusal::Width),
        }
    }
}

/// What find answers. On a page that is not fit a key that is there can be missed: see [`PageRef`].
#[derive(Clone, Copy, Debug, PartialEq, Eq, Hash)]
pub enum Found {
    /// The key was found in this slot.
    Equal(usize),
    /// The key was not found. On a fit page it is not there, and this many keys are smaller.
    Smaller(usize),
}

/// The child that serves a probe.
#[derive(Clone, Copy, Debug, PartialEq, Eq, Hash)]
pub struct Child {
    /// The highest slot whose key is at most the probe; none where the lower fence's own child serves.
    pub slot: Option<usize>,
    /// The child's value.
    pub value: u64,
}

/// The space numbers of a page, in bytes.
#[derive(Clone, Copy, Debug, PartialEq, Eq, Hash)]
pub struct Space {
    /// Where the slots end, from the body's first byte.
    pub start: u64,
    /// Where the payloads begin, from the body's first byte.
    pub end: u64,
    /// Between the two.
    pub free: u64,
    /// All but the free bytes and the footer.
    pub used: u64,
    /// What header, prefix, fences and entries take.
    pub effective: u64,
    /// Used, but not effective.
    pub reclaimable: u64,
    /// Free after compaction.
    pub compacted: u64,
}

/// What two fences make of a page.
#[derive(Clone, Copy, Debug, PartialEq, Eq, Hash)]
pub struct Forecast {
    /// The length of the prefix that they share.
    pub prefix_len: usize,
    /// The effective space that the page begins with.
    pub effective: u64,
}

/// What a page begins with. Without more said, it is a leaf that nothing bounds, without hints.
#[derive(Clone, Copy, Debug, Default, PartialEq, Eq, Hash)]
pub struct Beginning<'k> {
    /// The page's height; a leaf has 0.
    pub height: u16,
    /// The page's timestamp.
    pub timestamp: u64,
    /// The lower fence: keys are at least this one.
    pub lower: &'k [u8],
    /// The value of the lower fence's own child.
    pub lower_value: u64,
    /// The upper fence: keys are below this one, unless it is empty.
    pub upper: &'k [u8],
    /// Whether searches may use hints.
    pub hints: bool,
}

/// The bytes that an entry takes on a page with a prefix of this length. Refuses 3, 8 (a key shorter than the prefix).
///
/// ```
/// use dorgumanna::{need, Width};
///
/// assert_eq!(need(Width::Word, 0, b"abcde"), Ok(21));
/// ```
pub fn need(width: Width, prefix_len: usize, key: &[u8]) -> Result<u64, Refusal> {
    Ok(c::need(width as u8, prefix_len, key).values()?.0)
}

/// What two fences make of a page. Refuses 3.
///
/// ```
/// use dorgumanna::{forecast, Forecast};
///
/// assert_eq!(forecast(b"hub/A", b"hub/B"), Ok(Forecast { prefix_len: 4, effective: 96 }));
/// ```
pub fn forecast(lower: &[u8], upper: &[u8]) -> Result<Forecast, Refusal> {
    let (prefix_len, effective) = c::forecast(lower, upper).values()?;
    Ok(Forecast {
        prefix_len: prefix_len as usize,
        effective,
    })
}

/// Puts a record behind those of a batch. Refuses 3, and then leaves the records as they were.
///
/// ```
/// use dorgumanna::{push_record, Refusal};
///
/// let mut records = Vec::new();
/// assert_eq!(push_record(&mut records, b"ab", 3), Ok(()));
/// assert_eq!(push_record(&mut records, &[0; 65_536], 4), Err(Refusal::KeyLength));
/// assert_eq!(records, b"\x02\0\0\0ab\x03\0\0\0\0\0\0\0");
/// ```
pub fn push_record(records: &mut Vec<u8>, key: &[u8], value: u64) -> Result<(), Refusal> {
    let length = u16::try_from(key.len()).map_err(|_| Refusal::KeyLength)?;
    records.extend(u32::from(length).to_le_bytes());
    records.extend(key);
    records.extend(value.to_le_bytes());
    Ok(())
}

/// A page lent for reading, and the width of its values.
///
/// Find and the bounds test the header rules, not the whole page, and answer what halving finds. On a fit page that is what
/// a scan of all keys finds. On a page that passes the header rules but is not fit, say one with stale hints, a key that is
/// there can be missed. So of a page that is not known to be fit, ask the fit verdict first: [`PageRef::fit`].
#[derive(Clone, Copy)]
pub struct PageRef<'a> {
    bytes: &'a [u8; PAGE_BYTES],
    width: Width,
}

impl<'a> PageRef<'a> {
    /// These bytes as a page. Any bytes will do: every call says for itself what it refuses.
    pub fn new(bytes: &'a [u8; PAGE_BYTES], width: Width) -> PageRef<'a> {
        PageRef { bytes, width }
    }

    /// These bytes as a page. Refuses 1.
    ///
    /// ```
    /// use dorgumanna::{PageRef, Refusal, Width};
    ///
    /// let page = PageRef::from_slice(&[0; 16_383], Width::Word);
    /// assert_eq!(page.err(), Some(Refusal::PageLength));
    /// ```
    pub fn from_slice(bytes: &'a [u8], width: Width) -> Result<PageRef<'a>, Refusal> {
        let bytes = bytes.try_into().map_err(|_| Refusal::PageLength)?;
        Ok(PageRef::new(bytes, width))
    }

    /// The page's bytes.
    pub fn bytes(self) -> &'a [u8; PAGE_BYTES] {
        self.bytes
    }

    /// The width of the page's values.
    pub fn width(self) -> Width {
        self.width
    }

    /// Looks for a key: on a fit page, where it stands, or how many keys are smaller. Refuses 3, 4, 8, 14.
    pub fn find(self, key: &[u8]) -> Result<Found, Refusal> {
        let (slot, equal) = c::find(self.bytes, self.width as u8, key).values()?;
        Ok(match equal {
            0 => Found::Smaller(slot as usize),
            _ => Found::Equal(slot as usize),
        })
    }

    /// On a fit page, the number of keys below the probe. Refuses 3, 4, 14.
    pub fn lower_bound(self, probe: &[u8]) -> Result<usize, Refusal> {
        let (keys, _) = c::lower_bound(self.bytes, self.width as u8, probe).values()?;
        Ok(keys as usize)
    }

    /// On a fit page, the number of keys at most the probe. Refuses 3, 4, 14.
    pub fn upper_bound(self, probe: &[u8]) -> Result<usize, Refusal> {
        let (keys, _) = c::upper_bound(self.bytes, self.width as u8, probe).values()?;
        Ok(keys as usize)
    }

    /// A slot's key against a probe: `Less` for a slot below the probe. Refuses 3, 4, 10, 14.
    pub fn compare(self, slot: usize, probe: &[u8]) -> Result<Ordering, Refusal> {
        let (sign, _) = c::compare(self.bytes, self.width as u8, slot, probe).values()?;
        Ok((sign as i64).cmp(&0))
    }

    /// The child that serves a probe; the page is read at width 8, whatever width it was lent with. Refuses 3, 5, 8, 9.
    pub fn child(self, probe: &[u8]) -> Result<Child, Refusal> {
        let (slot, value) = c::child(self.bytes, probe).values()?;
        let slot = usize::try_from(slot as i64).ok();
        Ok(Child { slot, value })
    }

    /// The value of a slot's entry. Refuses 4, 10, 14.
    pub fn entry(self, slot: usize) -> Result<u64, Refusal> {
        Ok(c::entry(self.bytes, self.width as u8, slot).values()?.0)
    }

    /// Writes a slot's whole key to the front of a buffer and nothing behind it; answers the key's length. Refuses 4, 10,
    /// 14, 15.
    ///
    /// ```
    /// # use dorgumanna::{Beginning, Page, Refusal, Width, PAGE_BYTES};
    /// # let mut bytes = [0; PAGE_BYTES];
    /// # let mut page = Page::new(&mut bytes, Width::None);
    /// # page.begin(&Beginning::default())?;
    /// # page.insert(b"parcel", 0)?;
    /// let mut buffer = [0; 100];
    /// let length = page.read().copy_key(0, &mut buffer)?;
    /// assert_eq!(&buffer[..length], b"parcel");
    /// # Ok::<(), Refusal>(())
    /// ```
    pub fn copy_key(self, slot: usize, out: &mut [u8]) -> Result<usize, Refusal> {
        let (length, _) = c::copy_key(self.bytes, self.width as u8, slot, out).values()?;
        Ok(length as usize)
    }

    /// The last eight bytes of a slot's key, as a big-endian number. Refuses 4, 10, 14, 16.
    pub fn trailing_id(self, slot: usize) -> Result<u64, Refusal> {
        let (id, _) = c::trailing_id(self.bytes, self.width as u8, slot).values()?;
        Ok(id)
    }

    /// The space numbers. Refuses 4, and 5 with U8 where effective exceeds used.
    pub fn space(self) -> Result<Space, Refusal> {
        let space = c::space(self.bytes);
        done(space.number, space.carried)?;
        Ok(Space {
            start: space.start,
            end: space.end,
            free: space.free,
            used: space.used,
            effective: space.effective,
            reclaimable: space.reclaimable,
            compacted: space.compacted,
        })
    }

    /// Whether the layout is right.
    pub fn layout(self) -> bool {
        verdict(c::layout(self.bytes, self.width as u8)) != 0
    }

    /// 0 where the page is fit, else the first rule broken, U1 to U9.
    pub fn fit(self) -> u8 {
        verdict(c::fit(self.bytes, self.width as u8))
    }
}

/// A verdict's number. Verdicts refuse 1 and 2 alone, which no page of these types gets.
fn verdict(answer: c::Answer) -> u8 {
    let (number, _) = answer.values().expect("length and width are right");
    number as u8
}

/// A page lent for editing, and the width of its values. After an edit that is done the page is fit; one that is refused
/// leaves every byte as it was.
pub struct Page<'a> {
    bytes: &'a mut [u8; PAGE_BYTES],
    width: Width,
}

impl<'a> Page<'a> {
    /// These bytes as a page. Any bytes will do: every call says for itself what it refuses.
    pub fn new(bytes: &'a mut [u8; PAGE_BYTES], width: Width) -> Page<'a> {
        Page { bytes, width }
    }

    /// These bytes as a page. Refuses 1.
    pub fn from_slice(bytes: &'a mut [u8], width: Width) -> Result<Page<'a>, Refusal> {
        let bytes = bytes.try_into().map_err(|_| Refusal::PageLength)?;
        Ok(Page::new(bytes, width))
    }

    /// The page for reading: all calls that change nothing.
    pub fn read(&self) -> PageRef<'_> {
        PageRef::new(self.bytes, self.width)
    }

    /// Makes of any bytes a page without entries between two fences; hints and bytes that document 01 does not name stay
    /// as they were. Refuses 3, 6, 13.
    pub fn begin(&mut self, with: &Beginning<'_>) -> Result<(), Refusal> {
        c::begin(
            self.bytes,
            with.height,
            with.timestamp,
            with.lower,
            with.lower_value,
            with.upper,
            with.hints,
        )
        .values()?;
        Ok(())
    }

    /// Files a key with its value, and answers its slot. Refuses 3, 5, 7, 8, 9, 11, 13.
    pub fn insert(&mut self, key: &[u8], value: u64) -> Result<usize, Refusal> {
        let (slot, _) = c::insert(self.bytes, self.width as u8, key, value).values()?;
        Ok(slot as usize)
    }

    /// Replaces the value of a key where it is the expected one, and answers the old value. Refuses 3, 5, 7 (for either
    /// value), 8, 17, 18.
    ///
    /// ```
    /// # use dorgumanna::{Beginning, Page, Refusal, Width, PAGE_BYTES};
    /// # let mut bytes = [0; PAGE_BYTES];
    /// # let mut page = Page::new(&mut bytes, Width::Word);
    /// # page.begin(&Beginning::default())?;
    /// page.insert(b"parcel", 2)?;
    /// assert_eq!(page.set_value(b"parcel", 2, 7), Ok(2));
    /// assert_eq!(page.set_value(b"parcel", 2, 9), Err(Refusal::OtherValue(7)));
    /// # Ok::<(), Refusal>(())
    /// ```
    pub fn set_value(&mut self, key: &[u8], expected: u64, new: u64) -> Result<u64, Refusal> {
        let answer = c::set_value(self.bytes, self.width as u8, key, expected, new);
        Ok(answer.values()?.0)
    }

    /// Gives a slot another key between those of its neighbours, or the same one again. Refuses 3, 5, 8, 9, 10, 12, 13.
    pub fn change_key(&mut self, slot: usize, key: &[u8]) -> Result<(), Refusal> {
        c::change_key(self.bytes, self.width as u8, slot, key).values()?;
        Ok(())
    }

    /// Appends `n` entries of a source page of the same width, from the slot `first` on. With `n` 0 and `first` up to
    /// the source's count it is done and changes nothing. Refuses 5 (this page before the source), 10, then entry by entry
    /// 8, 9, then 12 (the first entry against this page's last one), 13.
    pub fn copy_run(
        &mut self,
        source: &[u8; PAGE_BYTES],
        first: usize,
        n: usize,
    ) -> Result<(), Refusal> {
        c::copy_run(self.bytes, source, self.width as u8, first, n).values()?;
        Ok(())
    }

    /// Files all records of a batch as [`Page::insert`] does, or none, and answers their number. A record is a `u32` key
    /// length, the key and a `u64` value, little-endian, as [`push_record`] writes it. Refused are records that end inside
    /// one; then it is as the first insert that is refused says.
    ///
    /// ```
    /// # use dorgumanna::{push_record, BatchRefusal, Beginning, Page, Refusal, Width, PAGE_BYTES};
    /// # let mut bytes = [0; PAGE_BYTES];
    /// # let mut page = Page::new(&mut bytes, Width::Word);
    /// # page.begin(&Beginning::default())?;
    /// let mut records = Vec::new();
    /// push_record(&mut records, b"a", 1)?;
    /// push_record(&mut records, b"parcel", 2)?;
    /// assert_eq!(page.file_batch(&records), Ok(2));
    ///
    /// let refusal = Refusal::Present;
    /// assert_eq!(page.file_batch(&records), Err(BatchRefusal::Record { place: 0, refusal }));
    /// # Ok::<(), Refusal>(())
    /// ```
    pub fn file_batch(&mut self, records: &[u8]) -> Result<usize, BatchRefusal> {
        c::file_batch(self.bytes, self.width as u8, records).batch()
    }
}

/// The width alone: the bytes are many.
impl fmt::Debug for PageRef<'_> {
    fn fmt(&self, f: &mut fmt::Formatter<'_>) -> fmt::Result {
        f.debug_struct("PageRef")
            .field("width", &self.width)
            .finish_non_exhaustive()
    }
}

/// The width alone: the bytes are many.
impl fmt::Debug for Page<'_> {
    fn fmt(&self, f: &mut fmt::Formatter<'_>) -> fmt::Result {
        f.debug_struct("Page")
            .field("width", &self.width)
            .finish_non_exhaustive()
    }
}

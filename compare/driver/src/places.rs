//! Names of a page's bytes, for reports that a person follows.

use plain::{HEADER, PAGE, USABLE};

/// First byte and name of each header field.
const FIELDS: [(usize, &str); 21] = [
    (0, "height"),
    (2, "count"),
    (4, "start"),
    (6, "end"),
    (8, "timestamp"),
    (16, "lower fence slot"),
    (24, "lower fence value"),
    (32, "upper fence slot"),
    (40, "effective space"),
    (44, "initialized"),
    (45, "hints flag"),
    (46, "prefix length"),
    (48, "inline prefix"),
    (64, "hint 0"),
    (68, "hint 1"),
    (72, "hint 2"),
    (76, "hint 3"),
    (80, "hint 4"),
    (84, "hint 5"),
    (88, "hint 6"),
    (92, "hint 7"),
];

/// Parts of a slot by their first byte in it.
const PARTS: [(usize, &str); 3] = [(0, "length"), (2, "offset"), (4, "head")];

/// What stands at byte `at` of a page with `count` slots.
pub fn name(at: usize, count: usize) -> String {
    if at < HEADER {
        return field(&FIELDS, at);
    }
    let offset = at - HEADER;
    if at < USABLE && offset / 8 < count {
        return format!("slot {}, {}", offset / 8, field(&PARTS, offset % 8));
    }
    match at {
        _ if at < USABLE => format!("body offset {offset}"),
        _ if at < PAGE => format!("footer byte {}", at - USABLE),
        _ => "beyond the page".into(),
    }
}

fn field(fields: &[(usize, &str)], at: usize) -> String {
    let (first, name) = fields
        .iter()
        .rev()
        .find(|(first, _)| *first <= at)
        .expect("starts at 0");
    format!("{name}, byte {}", at - first)
}

/// The slots that a page counts, 0 where it has no header.
pub fn count(page: &[u8]) -> usize {
    page.get(2..4).map_or(0, |bytes| {
        usize::from(u16::from_le_bytes([bytes[0], bytes[1]]))
    })
}

#[cfg(test)]
mod tests {
    use super::name;

    #[test]
    fn names_follow_the_page_of_01() {
        assert_eq!(name(0, 2), "height, byte 0");
        assert_eq!(name(7, 2), "end, byte 1");
        assert_eq!(name(95, 2), "hint 7, byte 3");
        assert_eq!(name(96 + 10, 2), "slot 1, offset, byte 0");
        assert_eq!(name(96 + 16, 2), "body offset 16");
        assert_eq!(name(16_352, 2), "footer byte 0");
        assert_eq!(name(16_384, 2), "beyond the page");
    }
}

//! Bench samples: the listing program.

use crate::calls::{entry, fit, layout, space, Entry, Space};
use crate::refusals::{refuse, Answer};

use crate::page::PAGE;

/// Every slot's key and value in slot order, as read; up to the first slot that is refused.
pub fn listing(page: &[u8], width: u8) -> Vec<Entry> {
    (0..)
        .map_while(|slot| entry(page, width, slot).ok())
        .collect()
}

/// What the listing program prints: "reads a width byte and a page on standard input".
pub fn list(input: &[u8]) -> String {
    match lines(input) {
        Ok(lines) => lines,
        Err(refused) => format!("refused {}\n", refused.number),
    }
}

/// "Input of another length prints `refused 1`, a bad width `refused 2`"; every line ends in a line feed.
fn lines(input: &[u8]) -> Answer<String> {
    refuse(1, input.len() != 1 + PAGE)?;
    let (width, page) = (input[0], &input[1..]);
    let layout = u8::from(layout(page, width)?);
    let fit = fit(page, width)?;
    let mut lines = format!("verdict {layout} {fit}\n");
    if fit == 0 {
        lines += &space_line(&space(page)?);
        for (slot, entry) in listing(page, width).iter().enumerate() {
            lines += &format!("{slot} {} {}\n", hex(&entry.key), entry.value);
        }
    }
    Ok(lines)
}

/// "Line 2: start, end, free, effective, reclaimable."
fn space_line(space: &Space) -> String {
    format!(
        "space {} {} {} {} {}\n",
        space.start, space.end, space.free, space.effective, space.reclaimable
    )
}

/// "key in hex ("-" if empty)".
fn hex(key: &[u8]) -> String {
    if key.is_empty() {
        return "-".to_string();
    }
    key.iter().map(|byte| format!("{byte:02x}")).collect()
}

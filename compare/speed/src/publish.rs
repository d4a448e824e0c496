//! The figures written into a page of the documents, with the plot beside it.

use crate::table::{self, Table};
use crate::{plot, Want};
use std::fs;
use std::path::Path;

const PAGE: &str = "SPEED.md";
const PLOT: &str = "speed.svg";

/// The lines between which the figures stand.
const BEGIN: &str = "<!-- figures: written by `compare bench` -->";
const END: &str = "<!-- end of figures -->";

/// How busy the machine is: its load average over the last minute.
pub fn load() -> String {
    let text = fs::read_to_string("/proc/loadavg").unwrap_or_default();
    text.split(' ').next().unwrap_or_default().to_string()
}

/// Writes tables and plot into a folder; `before` is the load before they were measured.
pub fn publish(folder: &str, want: &Want, tables: &[Table], before: &str) -> Result<(), String> {
    let folder = Path::new(folder);
    let page = folder.join(PAGE);
    let text = match fs::read_to_string(&page) {
        Ok(text) => text,
        Err(_) => format!("{BEGIN}\n{END}\n"),
    };
    let figures = format!(
        "{}\n\n{}\n![Nanoseconds a call against the number of entries]({PLOT})\n\n{}",
        circumstances(want, before),
        table::summary(tables),
        table::folded(tables)
    );
    let text = replaced(&text, &figures).ok_or(format!(
        "{} lacks the line `{BEGIN}` or `{END}`",
        page.display()
    ))?;
    write(&page, &text)?;
    write(&folder.join(PLOT), &plot::svg(tables))
}

/// The text with other figures.
fn replaced(text: &str, figures: &str) -> Option<String> {
    let (head, rest) = text.split_once(BEGIN)?;
    let (_, tail) = rest.split_once(END)?;
    Some(format!("{head}{BEGIN}\n\n{figures}\n{END}{tail}"))
}

/// Where and how the figures were made.
fn circumstances(want: &Want, before: &str) -> String {
    let cores = std::thread::available_parallelism().map_or(0, |n| n.get());
    let quick = if want.quick { "A quick bench. " } else { "" };
    format!(
        "{quick}Both sides native on {}, {cores} cores, load average {before} before and {} after, the bench itself being 1 of it. \
         {}; the library as {}.",
        std::env::consts::ARCH,
        load(),
        env!("SPEED_RUSTC"),
        env!("SPEED_ARCHIVE"),
    )
}

fn write(path: &Path, text: &str) -> Result<(), String> {
    fs::write(path, text).map_err(|error| format!("{}: {error}", path.display()))
}

#[cfg(test)]
mod tests {
    use super::*;

    #[test]
    fn figures_are_replaced_between_their_lines() {
        let text = format!("before\n{BEGIN}\nold\n{END}\nafter\n");
        let once = replaced(&text, "new").unwrap();
        assert_eq!(once, format!("before\n{BEGIN}\n\nnew\n{END}\nafter\n"));
        assert_eq!(replaced(&once, "new").unwrap(), once);
    }

    #[test]
    fn a_page_without_the_lines_is_left_alone() {
        assert_eq!(replaced("before\nafter\n", "new"), None);
        assert_eq!(replaced(&format!("{END}\n{BEGIN}\n"), "new"), None);
    }
}

//! Instructions a call, counted by callgrind: this program is run again under it, and asks it for a dump after each
//! side of each call on each page.

use crate::measure::{cells, Costs};
use crate::pages::Case;
use crate::rows::{Cells, Side, PROBES, SIDES};
use crate::Want;
use std::fs;
use std::hint::black_box;
use std::path::Path;
use std::process::{Command, Stdio};

/// Of the probes for times a quarter is asked, since counts do not waver.
const SHARE: usize = 4;

/// Asks one probe of a case, and then all between two requests to callgrind: forget what was counted, and dump it.
fn dumped(side: &Side, case: &Case) {
    let probes = side.probes(case, SHARE);
    black_box((side.ask)(black_box(case), black_box(&probes[..1])));
    request(ZERO_STATS);
    black_box((side.ask)(black_box(case), black_box(probes)));
    request(DUMP_STATS);
}

const DUMP_STATS: u64 = 0x4354_0000;
const ZERO_STATS: u64 = 0x4354_0001;

/// A request to callgrind, as valgrind's header makes it: a sequence of instructions that changes nothing outside of
/// valgrind.
fn request(number: u64) {
    let words = [number, 0, 0, 0, 0, 0];
    // SAFETY: the instructions leave every register as it was, but for the result register, which is named.
    unsafe {
        #[cfg(target_arch = "aarch64")]
        std::arch::asm!(
            "ror x12, x12, #3",
            "ror x12, x12, #13",
            "ror x12, x12, #51",
            "ror x12, x12, #61",
            "orr x10, x10, x10",
            in("x4") words.as_ptr(),
            inout("x3") 0u64 => _,
        );
        #[cfg(target_arch = "x86_64")]
        std::arch::asm!(
            "rol rdi, 3",
            "rol rdi, 13",
            "rol rdi, 61",
            "rol rdi, 51",
            "xchg rbx, rbx",
            in("rax") words.as_ptr(),
            inout("rdx") 0u64 => _,
        );
    }
}

/// The word by which this program is told that it runs under callgrind.
pub const COUNTED: &str = "counted";

/// Every side of every cell.
pub fn counted(want: &Want) -> Result<(), String> {
    for Cells { row, cases } in cells(want, PROBES / SHARE)? {
        for case in &cases {
            let sides = row.sides(case).into_iter().flatten();
            sides.for_each(|side| dumped(side, case));
        }
    }
    Ok(())
}

/// Instructions of every side of every cell: runs this program under callgrind and reads its dumps.
pub fn counts(cells: &[Cells], want: &Want) -> Result<Vec<Vec<Costs>>, String> {
    let folder = std::env::temp_dir().join(format!("speed-{}", std::process::id()));
    eprintln!("counting instructions");
    fs::create_dir_all(&folder).map_err(|error| format!("{}: {error}", folder.display()))?;
    let counts = run(want, &folder).and_then(|()| read(cells, &folder));
    fs::remove_dir_all(&folder).map_err(|error| format!("{}: {error}", folder.display()))?;
    counts
}

fn run(want: &Want, folder: &Path) -> Result<(), String> {
    let own = std::env::current_exe().map_err(|error| error.to_string())?;
    let out = folder.join("out");
    let status = Command::new("valgrind")
        .arg("--tool=callgrind")
        .arg(format!("--callgrind-out-file={}", out.display()))
        .arg(own)
        .arg(COUNTED)
        .args(want.words())
        .stderr(Stdio::null())
        .status()
        .map_err(|error| format!("valgrind, which counts instructions: {error}"))?;
    match status.success() {
        true => Ok(()),
        false => Err(format!("valgrind: {status}")),
    }
}

fn read(cells: &[Cells], folder: &Path) -> Result<Vec<Vec<Costs>>, String> {
    let mut dump = 0;
    let mut next = |probes: usize| {
        dump += 1;
        let dumped = instructions(&folder.join(format!("out.{dump}")))?;
        Ok::<f64, String>(dumped as f64 / probes as f64)
    };
    let mut counts = Vec::new();
    for Cells { row, cases } in cells {
        let mut lines = Vec::new();
        for case in cases {
            let mut costs: Costs = [None; SIDES];
            for (side, cost) in row.sides(case).into_iter().zip(&mut costs) {
                if let Some(side) = side {
                    *cost = Some(next(side.probes(case, SHARE).len())?);
                }
            }
            lines.push(costs);
        }
        counts.push(lines);
    }
    Ok(counts)
}

/// The instructions of a dump.
fn instructions(path: &Path) -> Result<u64, String> {
    let text = fs::read_to_string(path).map_err(|error| format!("{}: {error}", path.display()))?;
    text.lines()
        .find_map(|line| {
            line.strip_prefix("totals:")
                .or(line.strip_prefix("summary:"))
        })
        .and_then(|n| n.trim().parse().ok())
        .ok_or(format!("{} names no total", path.display()))
}

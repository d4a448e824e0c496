//! Asks the verdict of two sample pages, finds a sender, files another one, and prints what is refused.
//! `sender PAGE BROKEN`: two files of samples/, each a width byte and a page; the second page is not fit.

use dorgumanna::{Found, Page, PageRef, Refusal, Width};
use std::error::Error;
use std::{env, fs};

/// A page and its width, as a sample has them.
struct Sample {
    width: Width,
    bytes: Vec<u8>,
}

fn read_sample(name: &str) -> Result<Sample, Box<dyn Error>> {
    let file = fs::read(name)?;
    let (width, bytes) = file.split_first().ok_or("no width byte")?;
    Ok(Sample {
        width: Width::try_from(*width)?,
        bytes: bytes.to_vec(),
    })
}

fn print_refusal(refusal: Refusal) {
    println!("refused, {}: {refusal}", refusal.number());
}

fn verdict(sample: &Sample, name: &str) {
    print!("verdict of the {name} page: ");
    match PageRef::from_slice(&sample.bytes, sample.width).map(PageRef::fit) {
        Ok(0) => println!("fit"),
        Ok(rule) => println!("not fit (U{rule})"),
        Err(refusal) => print_refusal(refusal),
    }
}

fn find(sample: &Sample, length: usize, key: &str) {
    print!("find {key} in {length} bytes: ");
    let found = PageRef::from_slice(&sample.bytes[..length], sample.width).and_then(|page| {
        Ok(match page.find(key.as_bytes())? {
            Found::Equal(slot) => format!("slot {slot}, value {}", page.entry(slot)?),
            Found::Smaller(keys) => format!("not there, {keys} keys are smaller"),
        })
    });
    match found {
        Ok(text) => println!("{text}"),
        Err(refusal) => print_refusal(refusal),
    }
}

fn file(sample: &mut Sample, key: &str, value: u64) {
    print!("file {key}: ");
    let page = Page::from_slice(&mut sample.bytes, sample.width);
    match page.and_then(|mut page| page.insert(key.as_bytes(), value)) {
        Ok(slot) => println!("slot {slot}"),
        Err(refusal) => print_refusal(refusal),
    }
}

fn main() -> Result<(), Box<dyn Error>> {
    let names: Vec<String> = env::args().skip(1).collect();
    let [page, broken] = names.as_slice() else {
        return Err("usage: sender PAGE BROKEN, each a width byte and a page".into());
    };
    let (mut page, mut broken) = (read_sample(page)?, read_sample(broken)?);
    let length = page.bytes.len();
    verdict(&page, "first");
    verdict(&broken, "second");
    find(&page, length, "hub/osl/sender/00731 Fjordfrakt");
    find(&page, length, "hub/osl/sender/00512 Solheim");
    file(&mut page, "hub/osl/sender/00512 Solheim", 7);
    find(&page, length, "hub/osl/sender/00512 Solheim");
    file(&mut page, "hub/osl/sender/00512 Solheim", 8);
    file(&mut page, "hub/bgo/sender/00512 Solheim", 8);
    find(&page, length - 1, "hub/osl/sender/00512 Solheim");
    file(&mut broken, "075", 8);
    Ok(())
}

//! Pages about the edges of a text: where it just fits, where it just does not, and well off both.

use crate::chance::Chance;
use crate::saving::{Page, Saved};

/// The largest page that the clerk has.
const LARGEST: u64 = 65_536;

/// Pages for a file. One that is refused has no text to fit: any page will do.
pub fn pages(chance: &mut Chance, saved: &Saved) -> Vec<Page> {
    match saved {
        Ok(text) => about(chance, text.len() as u64),
        Err(_) => vec![page(0, 0), anywhere(chance)],
    }
}

fn page(size: u64, place: u64) -> Page {
    Page { size, place }
}

fn anywhere(chance: &mut Chance) -> Page {
    page(chance.between(0, 400), chance.between(0, 400))
}

fn about(chance: &mut Chance, length: u64) -> Vec<Page> {
    let before = chance.between(1, 200);
    let behind = chance.between(1, 200);
    let size = chance.between(0, length + before);
    let mut pages = vec![
        // fits exactly, from the first byte on and from another
        page(length, 0),
        page(before + length, before),
        // one byte too short
        page(length - 1, 0),
        page(before + length - 1, before),
        // room to spare
        page(before + length + behind, before),
        // the place is the page's end, or beyond it
        page(size, size),
        page(size, size + chance.between(1, 200)),
        // so far beyond that place and length together are more than a machine's number
        page(size, chance.between(u64::MAX - length - 1, u64::MAX)),
    ];
    // large pages cost time
    if chance.one_in(16) {
        pages.push(page(LARGEST, LARGEST - length));
        pages.push(page(LARGEST, LARGEST - length + 1));
    }
    pages
}

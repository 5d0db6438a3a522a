//! Writing plans back: what has to be written for a file, alone or into a page (document 02, W-201).

use crate::rules::frames::{read, Refusal};
use crate::writing;

/// A page of so many bytes, and the place in it from which on the text goes.
#[derive(Clone, Copy)]
pub struct Page {
    pub size: u64,
    pub place: u64,
}

/// A file's plan as this program writes it, or the file's refusal.
pub type Saved = Result<Vec<u8>, Refusal>;

/// There are fewer bytes from the place on than the text needs, or the place lies beyond the page's end.
const NO_ROOM: Refusal = Refusal { number: 9, line: 0 };

pub fn saved(text: &[u8]) -> Saved {
    read(text).map(|plan| writing::text(&plan))
}

/// The whole page with the text in it. A refusal of the file comes before that of the page.
pub fn into_page(saved: &Saved, page: Page) -> Saved {
    let text = saved.as_ref().map_err(|refusal| *refusal)?;
    let rest = page.size.checked_sub(page.place).ok_or(NO_ROOM)?;
    if rest < text.len() as u64 {
        return Err(NO_ROOM);
    }
    let mut bytes = vec![b'.'; page.size as usize];
    let from = page.place as usize;
    bytes[from..from + text.len()].copy_from_slice(text);
    Ok(bytes)
}

/// The bytes that are written out.
pub fn written(saved: Saved) -> Vec<u8> {
    match saved {
        Ok(text) => text,
        Err(Refusal { number, line }) => format!("refused {number} line {line}\n").into_bytes(),
    }
}

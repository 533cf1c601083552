//! Script shelves: runs of entries, each a script number and a frame.

use crate::refusal::Refusal;
use crate::script::{HEADER, VERSION};

/// Bytes of an entry before its frame.
const NUMBER: usize = 2;

/// A script number and its frame.
type Entry<'a> = (u16, &'a [u8]);

/// The frame handed out, or an empty part with a refusal.
#[derive(Clone, Copy, PartialEq, Eq, Debug)]
pub struct Found<'a> {
    pub frame: &'a [u8],
    pub refusal: Option<Refusal>,
}

/// Looks a script up, the site's shelf before the works'; refusals 12, 13.
pub fn lookup<'a>(site: &'a [u8], works: &'a [u8], number: u16) -> Found<'a> {
    match search(site, works, number) {
        Ok(frame) => Found { frame, refusal: None },
        Err(refusal) => Found { frame: &[], refusal: Some(refusal) },
    }
}

fn search<'a>(site: &'a [u8], works: &'a [u8], number: u16) -> Result<&'a [u8], Refusal> {
    // Both shelves are checked whole before either is searched, so damage
    // behind the entry sought, or on the other shelf, still refuses.
    let site = entries(site)?;
    let works = entries(works)?;
    site.iter()
        .chain(works.iter())
        .find(|(n, _)| *n == number)
        .map(|(_, frame)| *frame)
        .ok_or(Refusal::NumberOnNeitherShelf)
}

/// All entries of a shelf in order; refusal 12 if any is damaged.
fn entries(mut shelf: &[u8]) -> Result<Vec<Entry<'_>>, Refusal> {
    let mut found = Vec::new();
    while !shelf.is_empty() {
        let (entry, rest) = first_entry(shelf).ok_or(Refusal::ShelfDamaged)?;
        found.push(entry);
        shelf = rest;
    }
    Ok(found)
}

/// The first entry and what follows it; none if it is damaged.
fn first_entry(shelf: &[u8]) -> Option<(Entry<'_>, &[u8])> {
    if shelf.len() < NUMBER + HEADER || shelf[NUMBER] != VERSION {
        return None;
    }
    let number = u16::from_be_bytes([shelf[0], shelf[1]]);
    let length = usize::from(u16::from_be_bytes([shelf[3], shelf[4]]));
    let end = NUMBER + HEADER + length;
    if shelf.len() < end {
        return None;
    }
    Some(((number, &shelf[NUMBER..end]), &shelf[end..]))
}

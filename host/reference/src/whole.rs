//! An index in one reading: its entries and rows as numbers, and the paths of
//! entries.

use crate::extents::Row;
use crate::index::{self, all_entries, extent_elements, Index, Place};
use crate::label::Label;
use crate::structure::{only, read as read_value};
use crate::values::{decode_bytes, number};
use crate::xml::{self, Element};
use crate::{require, Refusal};

/// Kind (1 for a file), parent, files before it, fileuid, where the name stands
/// and its length, length, rows before it, rows.
pub type EntryNumbers = [u64; ENTRY];

const ENTRY: usize = 9;
const PARENT: usize = 1;
const NAME: usize = 4;
const NAME_LENGTH: usize = 5;

#[derive(Clone, Debug, PartialEq, Eq)]
pub struct Whole {
    pub index: Index,
    pub entries: Vec<EntryNumbers>,
    /// Of all files, in text order.
    pub rows: Vec<[u64; 5]>,
}

pub fn read(text: &[u8], label: &Label, place: Place) -> Result<Whole, Refusal> {
    let index = index::read(text, label, place)?;
    let root = xml::parse(text).expect("a text that was read is in the form");
    let rows = index.files.iter().flat_map(|file| &file.rows);
    Ok(Whole {
        entries: entries_of(&root),
        rows: rows.map(Row::numbers).collect(),
        index,
    })
}

/// Of an index that was read. Counts are of what stands before in the text.
fn entries_of(root: &Element) -> Vec<EntryNumbers> {
    let entries = all_entries(root);
    let is_file = |element: &Element| element.name == "file";
    let extents = |element: &Element| extent_elements(element).len() as u64;
    let numbers = |at: usize| {
        let (parent, element) = entries[at];
        let before = || entries[..at].iter().map(|(_, element)| *element);
        let name = only(element, "name");
        let value = |of: &str| read_value(element, of, number).expect("a value that was read");
        [
            u64::from(is_file(element)),
            parent as u64,
            before().filter(|element| is_file(element)).count() as u64,
            value("fileuid"),
            name.text_start as u64,
            name.raw_text.len() as u64,
            if is_file(element) { value("length") } else { 0 },
            before().map(extents).sum(),
            extents(element),
        ]
    };
    (0..entries.len()).map(numbers).collect()
}

/// The decoded names from below the root on, `/` between them. The entries are
/// any numbers, and the text any bytes.
pub fn path(text: &[u8], entries: &[u64], entry: u64) -> Result<Vec<u8>, Refusal> {
    require(entries.len() % ENTRY == 0, Refusal::Argument)?;
    let table: Vec<&[u64]> = entries.chunks(ENTRY).collect();
    require(entry < table.len() as u64, Refusal::Missing)?;
    let mut names = Vec::new();
    let mut at = entry;
    while at != 0 {
        let numbers = table[at as usize];
        require(numbers[PARENT] < at, Refusal::Argument)?;
        names.push(decode_bytes(name_in(text, numbers)?));
        at = numbers[PARENT];
    }
    names.reverse();
    Ok(names.join(&b'/'))
}

fn name_in<'a>(text: &'a [u8], numbers: &[u64]) -> Result<&'a [u8], Refusal> {
    let begin = u128::from(numbers[NAME]);
    let end = begin + u128::from(numbers[NAME_LENGTH]);
    require(end <= text.len() as u128, Refusal::Argument)?;
    Ok(&text[begin as usize..end as usize])
}

#[cfg(test)]
mod tests {
    use super::*;

    const TEXT: &[u8] = b"rootabc&lt;d&amp;gt;";

    fn entry(parent: u64, name: u64, length: u64) -> EntryNumbers {
        [7, parent, 7, 7, name, length, 7, 7, 7]
    }

    /// The root; `ab` in it; `c<` in that; in the root the whole of the rest.
    fn table() -> Vec<EntryNumbers> {
        vec![
            entry(9, 99, 99),
            entry(0, 4, 2),
            entry(1, 6, 5),
            entry(0, 11, 9),
        ]
    }

    fn path_in(table: &[EntryNumbers], entry: u64) -> Result<Vec<u8>, Refusal> {
        path(TEXT, &table.concat(), entry)
    }

    #[test]
    fn paths() {
        let table = table();
        for (entry, wanted) in ["", "ab", "ab/c<", "d&gt;"].iter().enumerate() {
            assert_eq!(path_in(&table, entry as u64), Ok(wanted.as_bytes().into()));
        }
        assert_eq!(path_in(&table, 4), Err(Refusal::Missing));
        assert_eq!(path_in(&table, u64::MAX), Err(Refusal::Missing));
        assert_eq!(path_in(&[], 0), Err(Refusal::Missing));
        let numbers = table.concat();
        assert_eq!(path(TEXT, &numbers[1..], 99), Err(Refusal::Argument));
    }

    #[test]
    fn paths_of_other_tables() {
        let changed = |parent: u64, name: u64, length: u64| {
            let mut table = table();
            table[1] = entry(parent, name, length);
            // The entry itself, one below it, and one beside it.
            [1, 2, 3].map(|number| path_in(&table, number).err())
        };
        let all = [Some(Refusal::Argument), Some(Refusal::Argument), None];
        assert_eq!(changed(1, 4, 2), all);
        assert_eq!(changed(u64::MAX, 4, 2), all);
        assert_eq!(changed(0, 20, 1), all);
        assert_eq!(changed(0, 21, 0), all);
        assert_eq!(changed(0, u64::MAX, 1), all);
        assert_eq!(changed(0, 4, u64::MAX), all);
        assert_eq!(changed(0, 20, 0), [None; 3]);
        assert_eq!(changed(0, 0, 20), [None; 3]);
    }
}

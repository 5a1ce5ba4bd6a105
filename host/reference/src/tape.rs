//! Block lists and stores.

use crate::values::is_letter;
use crate::{require, Refusal};

pub const MAX_ELEMENTS: usize = 65_536;
pub const MAX_BLOCK: usize = 1_048_576;
pub const MAX_STORE: usize = 16_777_216;

const MARK: u8 = 1;
const BLOCK: u8 = 2;
const UNREADABLE: u8 = 3;

#[derive(Clone, Copy, Debug, PartialEq, Eq)]
pub enum Element {
    FileMark,
    /// A block, with the place of its bytes in the store.
    Block {
        start: usize,
        length: usize,
    },
    /// A block that the drive couldn't read: none of its bytes are known, nor how many.
    Unreadable,
}

impl Element {
    /// How many bytes the element takes in the list.
    fn list_length(self) -> usize {
        match self {
            Element::FileMark | Element::Unreadable => 1,
            Element::Block { .. } => 5,
        }
    }

    /// How many bytes the element takes in the store.
    fn store_length(self) -> usize {
        match self {
            Element::FileMark | Element::Unreadable => 0,
            Element::Block { length, .. } => length,
        }
    }
}

/// A well-formed list with its store.
#[derive(Clone, Debug, PartialEq, Eq)]
pub struct Partition<'a> {
    pub list: &'a [u8],
    pub store: &'a [u8],
    pub elements: Vec<Element>,
}

impl<'a> Partition<'a> {
    /// Reads the list; every fault of list or store is refusal 1.
    pub fn read(list: &'a [u8], store: &'a [u8]) -> Result<Self, Refusal> {
        let mut elements = Vec::new();
        let mut stored = 0usize;
        let mut rest = list;
        while let Some((&kind, body)) = rest.split_first() {
            require(elements.len() < MAX_ELEMENTS, Refusal::List)?;
            match kind {
                MARK => {
                    elements.push(Element::FileMark);
                    rest = body;
                }
                BLOCK => {
                    require(body.len() >= 4, Refusal::List)?;
                    let length = u32::from_be_bytes([body[0], body[1], body[2], body[3]]) as usize;
                    require((1..=MAX_BLOCK).contains(&length), Refusal::List)?;
                    elements.push(Element::Block {
                        start: stored,
                        length,
                    });
                    // At most MAX_ELEMENTS * MAX_BLOCK, far below 64 bits.
                    stored += length;
                    rest = &body[4..];
                }
                UNREADABLE => {
                    elements.push(Element::Unreadable);
                    rest = body;
                }
                _ => return Err(Refusal::List),
            }
        }
        require(store.len() <= MAX_STORE, Refusal::List)?;
        require(stored == store.len(), Refusal::List)?;
        Ok(Partition {
            list,
            store,
            elements,
        })
    }

    /// The first `n` elements; all of them when there are fewer.
    pub fn keep(&self, n: usize) -> Partition<'a> {
        let elements = self.elements[..n.min(self.elements.len())].to_vec();
        let list_length: usize = elements.iter().map(|e| e.list_length()).sum();
        Partition {
            list: &self.list[..list_length],
            store: &self.store[..self.stored_before(elements.len())],
            elements,
        }
    }

    /// How many bytes of the store belong to the elements before `number`.
    pub fn stored_before(&self, number: usize) -> usize {
        let before = self.elements[..number].iter();
        before.map(|element| element.store_length()).sum()
    }

    /// The bytes of element `number`; refusal 2 for a file mark or a missing number,
    /// 19 for an unreadable block.
    pub fn block(&self, number: u64) -> Result<&'a [u8], Refusal> {
        let element = usize::try_from(number)
            .ok()
            .and_then(|n| self.elements.get(n));
        match element {
            Some(&Element::Block { start, length }) => Ok(&self.store[start..start + length]),
            Some(Element::Unreadable) => Err(Refusal::Unreadable),
            Some(Element::FileMark) | None => Err(Refusal::Missing),
        }
    }

    /// The part of the store from block `first` to block `last`; none where one of
    /// the blocks is unreadable.
    pub fn blocks(&self, first: usize, last: usize) -> Option<&'a [u8]> {
        let run = &self.elements[first..=last];
        assert!(
            !run.contains(&Element::FileMark),
            "blocks() is asked within a run"
        );
        let is_whole = !run.contains(&Element::Unreadable);
        is_whole.then(|| &self.store[self.stored_before(first)..self.stored_before(last + 1)])
    }
}

/// Checks a list with its store; answers the number of elements.
pub fn check(list: &[u8], store: &[u8]) -> Result<usize, Refusal> {
    Ok(Partition::read(list, store)?.elements.len())
}

/// The fronts of list and store for the first `n` elements, and how many those are.
pub fn keep<'a>(
    list: &'a [u8],
    store: &'a [u8],
    n: u64,
) -> Result<(&'a [u8], &'a [u8], usize), Refusal> {
    let kept = Partition::read(list, store)?.keep(usize::try_from(n).unwrap_or(usize::MAX));
    Ok((kept.list, kept.store, kept.elements.len()))
}

/// The letters of a volume's two partitions.
#[derive(Clone, Copy, Debug, PartialEq, Eq)]
pub struct Letters {
    pub index: u8,
    pub data: u8,
}

impl Letters {
    /// Both `a` to `z`, and different.
    pub fn lawful(self) -> bool {
        is_letter(self.index) && is_letter(self.data) && self.index != self.data
    }

    pub fn contain(self, letter: u8) -> bool {
        letter == self.index || letter == self.data
    }
}

/// A list and a store as a caller gives them.
#[derive(Clone, Copy, Debug)]
pub struct Side<'a> {
    pub list: &'a [u8],
    pub store: &'a [u8],
}

impl<'a> Side<'a> {
    pub fn read(self) -> Result<Partition<'a>, Refusal> {
        Partition::read(self.list, self.store)
    }
}

/// The block `number` on the partition `asked`. Both lists must be well formed,
/// not only the one asked for.
pub fn block<'a>(
    index: Side<'a>,
    data: Side<'a>,
    letters: Letters,
    asked: u8,
    number: u64,
) -> Result<&'a [u8], Refusal> {
    require(
        letters.lawful() && letters.contain(asked),
        Refusal::Argument,
    )?;
    let index = index.read()?;
    let data = data.read()?;
    if asked == letters.index {
        index.block(number)
    } else {
        data.block(number)
    }
}

#[cfg(test)]
mod tests {
    use super::*;

    fn block_entry(length: u32) -> Vec<u8> {
        let mut entry = vec![2];
        entry.extend_from_slice(&length.to_be_bytes());
        entry
    }

    #[test]
    fn empty_list_has_no_elements() {
        assert_eq!(check(&[], &[]), Ok(0));
        assert_eq!(check(&[], &[7]), Err(Refusal::List));
    }

    #[test]
    fn fresh_partition_is_seven_elements_in_nineteen_bytes() {
        let list = [
            &block_entry(80)[..],
            &[1],
            &block_entry(378),
            &[1, 1],
            &block_entry(900),
            &[1],
        ]
        .concat();
        assert_eq!(list.len(), 19);
        assert_eq!(check(&list, &vec![0; 80 + 378 + 900]), Ok(7));
        let store = vec![0; 80 + 378 + 900];
        let partition = Partition::read(&list, &store).unwrap();
        assert!(matches!(
            partition.elements[5],
            Element::Block {
                start: 458,
                length: 900
            }
        ));
    }

    #[test]
    fn faults_of_the_list() {
        assert_eq!(check(&[0], &[]), Err(Refusal::List));
        assert_eq!(check(&[4], &[]), Err(Refusal::List));
        assert_eq!(check(&[255], &[]), Err(Refusal::List));
        assert_eq!(check(&[2, 0, 0, 0], &[]), Err(Refusal::List));
        assert_eq!(check(&[2, 0, 0, 0, 0], &[]), Err(Refusal::List));
        assert_eq!(check(&[2, 0, 0, 0, 1], &[9]), Ok(1));
        assert_eq!(check(&[2, 0, 0, 0, 1], &[9, 9]), Err(Refusal::List));
        assert_eq!(check(&[2, 0, 0, 0, 2], &[9]), Err(Refusal::List));
        assert_eq!(check(&[2, 0, 0x10, 0, 0], &vec![0; MAX_BLOCK]), Ok(1));
        assert_eq!(
            check(&[2, 0, 0x10, 0, 1], &vec![0; MAX_BLOCK + 1]),
            Err(Refusal::List)
        );
    }

    #[test]
    fn unreadable_block_is_one_list_byte_and_no_store_byte() {
        assert_eq!(check(&[3], &[]), Ok(1));
        assert_eq!(check(&[3], &[7]), Err(Refusal::List));
        // No body: what follows is the next element's kind.
        assert_eq!(check(&[3, 0, 0, 0, 1], &[9]), Err(Refusal::List));
        assert_eq!(check(&[3, 1, 3, 3], &[]), Ok(4));
        assert_eq!(check(&[3, 2, 0, 0, 0, 1, 3], &[9]), Ok(3));
        assert_eq!(check(&[3, 2, 0, 0, 0], &[]), Err(Refusal::List));
    }

    #[test]
    fn bounds_of_list_and_store() {
        for kind in [MARK, UNREADABLE] {
            assert_eq!(check(&vec![kind; MAX_ELEMENTS], &[]), Ok(MAX_ELEMENTS));
            let more = vec![kind; MAX_ELEMENTS + 1];
            assert_eq!(check(&more, &[]), Err(Refusal::List));
        }
        let full = block_entry(MAX_BLOCK as u32).repeat(16);
        assert_eq!(check(&full, &vec![0; MAX_STORE]), Ok(16));
        let over = [full, block_entry(1)].concat();
        assert_eq!(check(&over, &vec![0; MAX_STORE + 1]), Err(Refusal::List));
    }

    #[test]
    fn keeping_takes_matching_fronts() {
        let list = [&[1][..], &block_entry(3), &[1], &block_entry(2)].concat();
        let store = b"abcde";
        assert_eq!(keep(&list, store, 0), Ok((&list[..0], &store[..0], 0)));
        assert_eq!(keep(&list, store, 1), Ok((&list[..1], &store[..0], 1)));
        assert_eq!(keep(&list, store, 2), Ok((&list[..6], &store[..3], 2)));
        assert_eq!(keep(&list, store, 3), Ok((&list[..7], &store[..3], 3)));
        assert_eq!(keep(&list, store, 4), Ok((&list[..], &store[..], 4)));
        assert_eq!(keep(&list, store, u64::MAX), Ok((&list[..], &store[..], 4)));
        assert_eq!(keep(&list, b"abcd", 1), Err(Refusal::List));
    }

    #[test]
    fn keeping_an_unreadable_block_takes_no_store_byte() {
        let list = [&[3][..], &block_entry(3), &[3, 3, 1], &block_entry(2)].concat();
        let store = b"abcde";
        for (n, list_length, store_length) in [
            (0, 0, 0),
            (1, 1, 0),
            (2, 6, 3),
            (3, 7, 3),
            (4, 8, 3),
            (5, 9, 3),
            (6, 14, 5),
        ] {
            let kept = (&list[..list_length], &store[..store_length], n as usize);
            assert_eq!(keep(&list, store, n), Ok(kept));
        }
    }

    #[test]
    fn keeping_twice_keeps_the_smaller() {
        let list = [
            &block_entry(1)[..],
            &[1, 3],
            &block_entry(3),
            &[3, 1, 1],
            &block_entry(2),
        ]
        .concat();
        let store = b"abcdef";
        for m in 0..10 {
            let (list_front, store_front, _) = keep(&list, store, m).unwrap();
            for n in 0..10 {
                assert_eq!(
                    keep(list_front, store_front, n),
                    keep(&list, store, m.min(n))
                );
            }
        }
    }

    #[test]
    fn block_by_letter_and_number() {
        let list = [&[1][..], &block_entry(2)].concat();
        let index = Side {
            list: &list,
            store: b"ix",
        };
        let data = Side {
            list: &list,
            store: b"da",
        };
        let broken = Side {
            list: &[9],
            store: b"",
        };
        let letters = Letters {
            index: b'a',
            data: b'b',
        };
        assert_eq!(block(index, data, letters, b'a', 1), Ok(&b"ix"[..]));
        assert_eq!(block(index, data, letters, b'b', 1), Ok(&b"da"[..]));
        assert_eq!(block(index, data, letters, b'b', 0), Err(Refusal::Missing));
        assert_eq!(block(index, data, letters, b'b', 2), Err(Refusal::Missing));
        assert_eq!(
            block(index, data, letters, b'b', u64::MAX),
            Err(Refusal::Missing)
        );
        assert_eq!(block(index, broken, letters, b'a', 1), Err(Refusal::List));
        assert_eq!(block(broken, data, letters, b'b', 0), Err(Refusal::List));
        assert_eq!(
            block(broken, data, letters, b'c', 0),
            Err(Refusal::Argument)
        );
        let equal = Letters {
            index: b'a',
            data: b'a',
        };
        assert_eq!(block(index, data, equal, b'a', 1), Err(Refusal::Argument));
        let capital = Letters {
            index: b'A',
            data: b'b',
        };
        assert_eq!(block(index, data, capital, b'b', 1), Err(Refusal::Argument));
    }

    #[test]
    fn unreadable_block_is_refused_behind_all_else() {
        let list = [&[3, 1][..], &block_entry(2), &[3]].concat();
        let side = Side {
            list: &list,
            store: b"ix",
        };
        let broken = Side {
            list: &[9],
            store: b"",
        };
        let letters = Letters {
            index: b'a',
            data: b'b',
        };
        let ask = |letter: u8, number: u64| block(side, side, letters, letter, number);
        for letter in *b"ab" {
            assert_eq!(ask(letter, 0), Err(Refusal::Unreadable));
            assert_eq!(ask(letter, 1), Err(Refusal::Missing));
            assert_eq!(ask(letter, 2), Ok(&b"ix"[..]));
            assert_eq!(ask(letter, 3), Err(Refusal::Unreadable));
            assert_eq!(ask(letter, 4), Err(Refusal::Missing));
        }
        assert_eq!(ask(b'c', 0), Err(Refusal::Argument));
        assert_eq!(block(side, broken, letters, b'a', 0), Err(Refusal::List));
    }

    #[test]
    fn run_with_an_unreadable_block_has_no_bytes() {
        let list = [&block_entry(1)[..], &block_entry(2), &[3], &block_entry(3)].concat();
        let tape = Partition::read(&list, b"abcdef").unwrap();
        assert_eq!(tape.blocks(0, 1), Some(&b"abc"[..]));
        assert_eq!(tape.blocks(3, 3), Some(&b"def"[..]));
        for (first, last) in [(0, 2), (0, 3), (2, 2), (2, 3)] {
            assert_eq!(tape.blocks(first, last), None);
        }
        let stored: Vec<usize> = (0..=4).map(|at| tape.stored_before(at)).collect();
        assert_eq!(stored, [0, 1, 3, 3, 6]);
    }
}

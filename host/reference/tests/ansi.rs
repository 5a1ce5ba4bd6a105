//! The reference on ANSI labelled tapes: generated ones, held against what the
//! layout says of fronts and of other labels in their place, and the vectors.

use reference::ansi::{self, FILE};
use reference::random::TapeElement::{self, Block, Mark, Unreadable};
use reference::random::{Random, TapeSide};
use reference::tape::{self, Side};
use reference::{random_ansi, Refusal};
use std::collections::BTreeMap;

fn is_laid_out(elements: Vec<TapeElement>) -> bool {
    let tape = TapeSide { elements };
    let (list, store) = (tape.list(), tape.store());
    let side = Side {
        list: &list,
        store: &store,
    };
    ansi::files(&side.read().unwrap()).is_ok()
}

fn is_label(element: &TapeElement, word: &str) -> bool {
    element
        .bytes()
        .is_some_and(|bytes| bytes.len() == 80 && bytes.starts_with(word.as_bytes()))
}

/// A label of spaces behind the text.
fn label(text: &str) -> TapeElement {
    Block(format!("{text:80}").into_bytes())
}

/// EOF1 for a HDR1 and so many data blocks.
fn first_trailer(header: &TapeElement, blocks: usize) -> TapeElement {
    let mut bytes = header.bytes().unwrap().clone();
    bytes[..4].copy_from_slice(b"EOF1");
    bytes[54..60].copy_from_slice(format!("{blocks:06}").as_bytes());
    Block(bytes)
}

/// Every EOF1 that could be due behind a front: of any HDR1, with any of its runs of blocks.
fn first_trailers(front: &[TapeElement]) -> Vec<TapeElement> {
    let fresh = label("HDR1");
    let headers = front.iter().filter(|element| is_label(element, "HDR1"));
    let is_mark = |element: &TapeElement| *element == Mark;
    let runs: Vec<usize> = front.split(is_mark).map(<[_]>::len).collect();
    let counts = runs.iter().rev().take(2).chain([&0]);
    headers
        .chain([&fresh])
        .flat_map(|header| counts.clone().map(|count| first_trailer(header, *count)))
        .collect()
}

/// Whether some tape in the layout begins so, by trying every rest of a plain one.
fn begins(front: &[TapeElement]) -> bool {
    first_trailers(front).into_iter().any(|trailer| {
        let plain = [
            label(&format!("{:79}3", "VOL1")),
            label("HDR1"),
            label("HDR2F0000000000"),
            Mark,
            Mark,
            trailer,
            label("EOF2"),
            Mark,
            Mark,
        ];
        (0..=plain.len()).any(|from| is_laid_out([front, &plain[from..]].concat()))
    })
}

/// The refusal of the element behind a front, from the layout alone.
fn refusal_behind(front: &[TapeElement], element: Option<&TapeElement>) -> Refusal {
    let could_stand = |other: &TapeElement| begins(&[front, std::slice::from_ref(other)].concat());
    let Some(element) = element else {
        return Refusal::AnsiLabels;
    };
    if is_label(element, "EOV1") && first_trailers(front).iter().any(could_stand) {
        return Refusal::EndOfVolume;
    }
    let has_digits = is_label(element, "EOF1")
        && element.bytes().unwrap()[54..60]
            .iter()
            .all(u8::is_ascii_digit);
    let with_digits = |digits: &TapeElement| {
        let mut other = element.bytes().unwrap().clone();
        other[54..60].copy_from_slice(&digits.bytes().unwrap()[54..60]);
        Block(other)
    };
    let is_count = has_digits
        && first_trailers(front)
            .iter()
            .any(|digits| could_stand(&with_digits(digits)));
    match is_count {
        true => Refusal::BlockCount,
        false => Refusal::AnsiLabels,
    }
}

/// The elements of a list that is well formed.
fn elements_of(side: Side) -> Option<Vec<TapeElement>> {
    let tape = side.read().ok()?;
    let element = |element: &tape::Element| match *element {
        tape::Element::FileMark => Mark,
        tape::Element::Block { start, length } => Block(side.store[start..start + length].to_vec()),
        tape::Element::Unreadable => Unreadable,
    };
    Some(tape.elements.iter().map(element).collect())
}

#[test]
fn tapes_in_the_layout_are_read() {
    let mut random = Random::new(11);
    for case in 0..1_000 {
        let tape = random_ansi::tape(&mut random);
        let side = tape.side();
        let (list, store) = (side.list(), side.store());
        let given = Side {
            list: &list,
            store: &store,
        };
        let length = FILE * tape.files();
        let mut buffer = vec![9; length + 5];
        assert_eq!(
            ansi::read(given, &mut buffer),
            Ok(tape.files()),
            "case {case}"
        );
        assert_eq!(buffer[length..], [9; 5]);
        assert_eq!(ansi::place(given), Ok(side.elements.len()));
        for file in buffer[..length].chunks(FILE) {
            let element = u64::from_be_bytes(file[28..].try_into().unwrap()) as usize;
            assert_eq!(side.elements[element - 1], Mark);
            let header = side.elements[..element]
                .iter()
                .rev()
                .filter_map(TapeElement::bytes)
                .find(|bytes| bytes.starts_with(b"HDR1"))
                .unwrap();
            assert_eq!(file[..17], header[4..21]);
        }
        let mut short = vec![9; random.below(length)];
        let before = short.clone();
        assert_eq!(ansi::read(given, &mut short), Err(Refusal::ShortOutput));
        assert_eq!(short, before);
    }
}

#[test]
fn place_and_refusal_are_those_of_the_layout() {
    let mut random = Random::new(12);
    for case in 0..1_500 {
        let case_of = random_ansi::case(&mut random);
        let given = Side {
            list: &case_of.list,
            store: &case_of.store,
        };
        let Some(elements) = elements_of(given) else {
            assert_eq!(ansi::place(given), Err(Refusal::List));
            continue;
        };
        let place = ansi::place(given).unwrap();
        assert!(begins(&elements[..place]), "case {case}");
        if place < elements.len() {
            assert!(!begins(&elements[..=place]), "case {case}");
        }
        let refusal = match is_laid_out(elements.clone()) {
            true => None,
            false => Some(refusal_behind(&elements[..place], elements.get(place))),
        };
        let read = ansi::files(&given.read().unwrap());
        assert_eq!(
            read.err().map(|wrong| wrong.refusal),
            refusal,
            "case {case}"
        );
    }
}

/// So that a run of the tests in C meets each of them often.
#[test]
fn every_refusal_is_frequent() {
    const CASES: usize = 4_000;
    let mut shares = BTreeMap::new();
    for seed in 0..CASES as u64 {
        let case = random_ansi::case(&mut Random::new(seed));
        let side = Side {
            list: &case.list,
            store: &case.store,
        };
        let mut buffer = vec![9; case.room];
        let refusal = ansi::read(side, &mut buffer)
            .err()
            .map_or(0, Refusal::number);
        *shares.entry(refusal).or_insert(0) += 1;
    }
    println!("{shares:?} of {CASES}");
    assert_eq!(
        shares.keys().copied().collect::<Vec<_>>(),
        [0, 1, 10, 16, 17, 18]
    );
    assert!(shares.values().all(|count| count * 20 >= CASES));
}

// ---- Vectors ----

/// What is left of a file in the manner of crates/case_files.
struct CaseFile<'a>(&'a [u8]);

impl CaseFile<'_> {
    fn number(&mut self) -> u64 {
        let (number, rest) = self.0.split_at(8);
        self.0 = rest;
        u64::from_le_bytes(number.try_into().unwrap())
    }

    fn bytes(&mut self) -> Vec<u8> {
        let length = self.number() as usize;
        let (bytes, rest) = self.0.split_at(length);
        self.0 = rest;
        bytes.to_vec()
    }
}

/// One of the files in crates/ansi_cases.
fn data(name: &str) -> Vec<u8> {
    let folder = concat!(env!("CARGO_MANIFEST_DIR"), "/../../crates/ansi_cases/data/");
    std::fs::read(format!("{folder}{name}")).expect("the cases")
}

/// List and store; the refusal where there is room enough, and the place.
fn check_places(name: &str) {
    let whole = data(name);
    let mut file = CaseFile(&whole);
    for case in 0..file.number() {
        let (list, store) = (file.bytes(), file.bytes());
        let (refusal, place) = (file.number(), file.number());
        let side = Side {
            list: &list,
            store: &store,
        };
        let mut buffer = vec![9; FILE * list.len()];
        let read = ansi::read(side, &mut buffer);
        assert_eq!(
            read.err().map_or(0, Refusal::number),
            refusal,
            "case {case}"
        );
        assert_eq!(ansi::place(side).unwrap_or(0) as u64, place, "case {case}");
    }
    assert!(file.0.is_empty());
}

#[test]
fn places_are_answered() {
    check_places("places");
    check_places("unreadable");
}

/// List, store and lent buffer; the refusal, the files and the buffer after.
#[test]
fn vectors_are_answered() {
    let whole = data("vectors");
    let mut file = CaseFile(&whole);
    let cases = file.number();
    assert_eq!(cases, 110);
    for case in 0..cases {
        let (list, store) = (file.bytes(), file.bytes());
        let mut buffer = file.bytes();
        let (refusal, files, after) = (file.number(), file.number(), file.bytes());
        let side = Side {
            list: &list,
            store: &store,
        };
        let read = ansi::read(side, &mut buffer);
        assert_eq!(
            (
                read.err().map_or(0, Refusal::number),
                read.unwrap_or(0) as u64
            ),
            (refusal, files),
            "case {case}"
        );
        assert_eq!(buffer, after, "case {case}");
    }
    assert!(file.0.is_empty());
}

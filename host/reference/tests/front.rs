//! The front that goes with refusal 4 and the side that goes with it, as numbers
//! that C is handed. A zero byte stands nowhere in a text in the form, so a lawful
//! text with one set in has its front there.

use reference::c_functions::*;
use reference::index::Place;
use reference::label::Label;
use reference::random::{self, Random, TapeElement, TapeSide, VolumeFiles};
use reference::tape::{Letters, Partition};
use reference::volume;
use std::collections::BTreeSet;

/// What a function answers: the refusal, and all numbers that it fills.
type Answer = (u64, Vec<u64>);

/// Numbers that hold something else before the call.
fn filled(numbers: usize, call: impl FnOnce(*mut u64) -> u64) -> Answer {
    let mut out = vec![7; numbers + 1];
    let refusal = call(out.as_mut_ptr());
    assert_eq!(out.pop(), Some(7), "one number too many is written");
    (refusal, out)
}

/// Refusal 4 with zeros, and these last.
fn outside_form(numbers: usize, last: &[u64]) -> Answer {
    let zeros = vec![0; numbers - last.len()];
    (4, [&zeros, last].concat())
}

/// Unless the refusal is 4: zeros with a refusal, and with none in the last `places`.
fn nothing_told(answer: &Answer, places: usize) {
    let (refusal, numbers) = answer;
    if *refusal != 4 {
        let from = match refusal {
            0 => numbers.len() - places,
            _ => 0,
        };
        let zeros = numbers[from..].iter().all(|number| *number == 0);
        assert!(zeros, "{refusal}: {numbers:?}");
    }
}

/// A text with a zero byte set in somewhere, and where that is.
fn with_zero_byte(random: &mut Random, text: &[u8]) -> (Vec<u8>, u64) {
    let at = random.below(text.len() + 1);
    let mut broken = text.to_vec();
    broken.insert(at, 0);
    (broken, at as u64)
}

// ---- Texts ----

fn check_form(text: &[u8]) -> Answer {
    filled(1, |front| unsafe {
        reference_check_form(text.as_ptr(), text.len(), front)
    })
}

fn read_label(text: &[u8]) -> Answer {
    filled(13, |out| unsafe {
        reference_read_label(text.as_ptr(), text.len(), out)
    })
}

/// The four functions that read an index's text, with as many rows lent and for
/// this file: the header, all of the index, the file, the file's rows.
fn read_index(text: &[u8], label: &Label, place: Place, file: u64, lent: usize) -> [Answer; 4] {
    let (uuid, letters, size) = (&label.uuid, label.letters, label.block_size);
    let (mut entries, mut rows) = (vec![7; 9 * 4096], vec![7; 5 * lent]);
    macro_rules! ask {
        ($function:ident, $($more:expr),*) => {
            unsafe {
                $function(
                    text.as_ptr(), text.len(), uuid.as_ptr(), uuid.len(), letters.index, letters.data, size,
                    place.letter, place.start_block, $($more),*
                )
            }
        };
    }
    [
        filled(15, |out| ask!(reference_read_index, out)),
        filled(15, |out| {
            let (entries, rows) = (&mut entries[..], &mut rows[..]);
            ask!(
                reference_read_whole,
                entries.as_mut_ptr(),
                entries.len(),
                rows.as_mut_ptr(),
                rows.len(),
                out
            )
        }),
        filled(5, |out| ask!(reference_read_file, file, out)),
        filled(2, |out| {
            let rows = &mut rows[..];
            ask!(
                reference_read_rows,
                file,
                rows.as_mut_ptr(),
                rows.len(),
                out,
                out.add(1)
            )
        }),
    ]
}

#[test]
fn front_of_a_text() {
    assert_eq!(check_form(b""), (4, vec![0]));
    assert_eq!(check_form(b"<?xml"), (4, vec![5]));
    assert_eq!(check_form(b"<?xMl"), (4, vec![3]));
    assert_eq!(read_label(b""), outside_form(13, &[0]));
    assert_eq!(read_label(b"<?xMl"), outside_form(13, &[3]));
    let mut random = Random::new(21);
    for _ in 0..500 {
        let label = random::label(&mut random);
        let text = random::label_text(&mut random, &label);
        assert_eq!(check_form(&text), (0, vec![0]));
        let (broken, front) = with_zero_byte(&mut random, &text);
        assert_eq!(check_form(&broken), (4, vec![front]));
        assert_eq!(read_label(&broken), outside_form(13, &[front]));
        // One that ends before the root does only ends too early.
        let cut = random.below(text.trim_ascii_end().len());
        assert_eq!(check_form(&text[..cut]), (4, vec![cut as u64]));
        assert_eq!(read_label(&text[..cut]), outside_form(13, &[cut as u64]));
    }
}

#[test]
fn front_of_an_index() {
    let mut random = Random::new(22);
    for _ in 0..500 {
        let (node, label, place) = random::index_case(&mut random);
        let text = random::document(&mut random, &node);
        let (broken, front) = with_zero_byte(&mut random, &text);
        let wanted = [15, 15, 5, 2].map(|numbers| outside_form(numbers, &[front]));
        // Before a place that is another and a file that is not there.
        let elsewhere = Place {
            start_block: place.start_block + 1,
            ..place
        };
        assert_eq!(read_index(&broken, &label, place, 0, 0), wanted);
        assert_eq!(read_index(&broken, &label, elsewhere, u64::MAX, 9), wanted);
    }
}

/// The front goes with no other refusal, and with no reading.
#[test]
fn other_answers_about_a_label_tell_nothing() {
    let mut random = Random::new(23);
    let mut refusals = BTreeSet::new();
    for _ in 0..4_000 {
        let label = random::label(&mut random);
        let mut node = random::label_node(&mut random, &label);
        for _ in 0..random.below(3) {
            random::damage_node(&mut random, &mut node);
        }
        let mut text = random::document(&mut random, &node);
        if random.one_in(20) {
            text.resize(4_097, 0);
        }
        let answer = read_label(&text);
        nothing_told(&answer, 1);
        nothing_told(&check_form(&text), 1);
        refusals.insert(answer.0);
    }
    assert_eq!(refusals, BTreeSet::from([0, 4, 5, 6, 7, 15]));
}

#[test]
fn other_answers_about_an_index_tell_nothing() {
    let mut random = Random::new(24);
    let mut refusals: [BTreeSet<u64>; 4] = Default::default();
    for _ in 0..4_000 {
        let (mut node, mut label, mut place) = random::index_case(&mut random);
        for _ in 0..random.below(3) {
            random::damage_node(&mut random, &mut node);
        }
        let mut text = random::document(&mut random, &node);
        match random.below(60) {
            0 => text.resize(1_048_577, 0),
            1 => label.block_size = 0,
            2 | 3 => place.start_block += 1,
            4..=9 => label.block_size = 4_096,
            10 | 11 => label.uuid = random::another_uuid(&mut random, &label.uuid),
            _ => {}
        }
        let file = random.below(3) as u64;
        let answers = read_index(&text, &label, place, file, random.below(9));
        for (answer, refusals) in answers.iter().zip(&mut refusals) {
            nothing_told(answer, 1);
            refusals.insert(answer.0);
        }
    }
    let of_text = BTreeSet::from([0, 4, 5, 6, 7, 8, 11, 12, 14, 15]);
    let with = |more: &[u64]| &of_text | &more.iter().copied().collect();
    assert_eq!(
        refusals,
        [with(&[]), with(&[10]), with(&[2]), with(&[2, 10])]
    );
}

// ---- Constructs ----

fn index_of_construct(files: &VolumeFiles, label: &Label, letters: Letters, number: u64) -> Answer {
    let side = files.data();
    filled(19, |out| unsafe {
        reference_index(
            side.list.as_ptr(),
            side.list.len(),
            side.store.as_ptr(),
            side.store.len(),
            label.uuid.as_ptr(),
            label.uuid.len(),
            letters.index,
            letters.data,
            label.block_size,
            label.letters.data,
            number,
            out,
        )
    })
}

/// In a text of several blocks that stands in the middle of a store, the front
/// counts from the text's beginning.
#[test]
fn front_of_a_construct() {
    let mut random = Random::new(25);
    let (mut broken_constructs, mut in_later_blocks) = (0, 0);
    for _ in 0..300 {
        let (index, mut data, label) = random::tape(&mut random, 0);
        let (list, store) = (data.list(), data.store());
        let standing =
            volume::layout(&Partition::read(&list, &store).unwrap(), label.block_size).standing;
        let number = random.below(standing.len());
        let construct = standing[number];
        let run = construct.first_block..=construct.last_block;
        let block = construct.first_block + random.below(run.clone().count());
        let before: usize = (construct.first_block..block)
            .filter_map(|at| data.elements[at].bytes())
            .map(Vec::len)
            .sum();
        let is_whole = run
            .into_iter()
            .all(|at| data.elements[at].bytes().is_some());
        let Some(bytes) = data.elements[block].bytes_mut() else {
            continue;
        };
        let at = random.below(bytes.len());
        bytes[at] = 0;
        let files = VolumeFiles::of(&index, &data);
        let ask = |letters, number| index_of_construct(&files, &label, letters, number);
        if is_whole {
            let wanted = outside_form(19, &[(before + at) as u64]);
            assert_eq!(ask(label.letters, number as u64), wanted);
            broken_constructs += 1;
            in_later_blocks += usize::from(before > 0);
        } else {
            assert_eq!(ask(label.letters, number as u64), (19, vec![0; 19]));
        }
        let past = standing.len() as u64;
        assert_eq!(ask(label.letters, past), (2, vec![0; 19]));
        let same = Letters {
            data: label.letters.index,
            ..label.letters
        };
        assert_eq!(ask(same, number as u64), (14, vec![0; 19]));
    }
    assert!(broken_constructs > 200 && in_later_blocks > 20);
}

// ---- Volumes ----

/// The labels checked, the verdict, the rescue.
fn of_volume(index: &TapeSide, data: &TapeSide) -> [Answer; 3] {
    let files = VolumeFiles::of(index, data);
    let (index, data) = (files.index(), files.data());
    macro_rules! ask {
        ($function:ident, $numbers:expr) => {
            filled($numbers, |out| unsafe {
                $function(
                    index.list.as_ptr(),
                    index.list.len(),
                    index.store.as_ptr(),
                    index.store.len(),
                    data.list.as_ptr(),
                    data.list.len(),
                    data.store.as_ptr(),
                    data.store.len(),
                    out,
                )
            })
        };
    }
    [
        ask!(reference_check_labels, 14),
        ask!(reference_verdict, 4),
        ask!(reference_rescue, 7),
    ]
}

fn outside_form_on(side: u64, front: u64) -> [Answer; 3] {
    [14, 4, 7].map(|numbers| outside_form(numbers, &[front, side]))
}

/// Sets a zero byte in the side's label.
fn break_label(random: &mut Random, side: &mut TapeSide) -> u64 {
    let text = side.elements[2].bytes_mut().expect("a label's text");
    let (broken, front) = with_zero_byte(random, text);
    *text = broken;
    front
}

#[test]
fn front_and_side_of_a_label() {
    let mut random = Random::new(26);
    for _ in 0..300 {
        let (index, data, _) = random::tape(&mut random, 0);
        let (mut broken_index, mut broken_data) = (index.clone(), data.clone());
        let of_index = break_label(&mut random, &mut broken_index);
        let of_data = break_label(&mut random, &mut broken_data);
        assert_eq!(
            of_volume(&broken_index, &data),
            outside_form_on(0, of_index)
        );
        assert_eq!(of_volume(&index, &broken_data), outside_form_on(1, of_data));
        assert_eq!(
            of_volume(&broken_index, &broken_data),
            outside_form_on(0, of_index)
        );
        // All of the index side's label goes before, and a VOL1 of the data side.
        let mut other_label = index.clone();
        other_label.elements[2] = TapeElement::Block(with_another_root(&index));
        let refused = |refusal| [14, 4, 7].map(|numbers| (refusal, vec![0; numbers]));
        assert_eq!(of_volume(&other_label, &broken_data), refused(5));
        broken_data.elements[0] = TapeElement::Block(vec![b' '; 80]);
        assert_eq!(of_volume(&broken_index, &broken_data), refused(3));
    }
}

/// The label's text, of an element that no label is.
fn with_another_root(side: &TapeSide) -> Vec<u8> {
    let text = side.elements[2].bytes().expect("a label's text");
    let text = String::from_utf8(text.clone()).expect("a lawful label");
    text.replace("ltfslabel", "label").into_bytes()
}

#[test]
fn other_answers_about_a_volume_tell_nothing() {
    let mut random = Random::new(27);
    let mut refusals = BTreeSet::new();
    for _ in 0..4_000 {
        let (mut index, mut data, _) = random::tape(&mut random, 30);
        let side = match random.one_in(2) {
            true => &mut index,
            false => &mut data,
        };
        match random.below(20) {
            0 => side.elements.truncate(3),
            1 => side.block(Vec::new()),
            2 => side.elements[0] = TapeElement::Block(vec![b' '; 80]),
            3 => side.elements[2] = TapeElement::Block(vec![0; 4_097]),
            _ => {}
        }
        for answer in of_volume(&index, &data) {
            nothing_told(&answer, 2);
            refusals.insert(answer.0);
        }
    }
    for refusal in [0, 1, 3, 8, 9, 13, 15] {
        assert!(refusals.contains(&refusal), "{refusal}: {refusals:?}");
    }
}

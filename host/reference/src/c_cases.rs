//! Random input for tests in C: what `random` makes from a seed, as buffers.

use crate::label::Label;
use crate::random::{self, Random, VolumeFiles};
use crate::random_ansi;
use crate::tape::Element;
use std::ptr;

/// Buffers and numbers of one case; which is which, each function says.
#[repr(C)]
pub struct Case {
    pub bytes: [*mut u8; 4],
    pub lengths: [usize; 4],
    pub rows: *mut u64,
    pub row_numbers: usize,
    pub numbers: [u64; 6],
}

/// A buffer that `random_free` gives back.
fn hand_out<T>(items: Vec<T>) -> (*mut T, usize) {
    let length = items.len();
    (Box::into_raw(items.into_boxed_slice()).cast(), length)
}

fn case_of(buffers: Vec<Vec<u8>>, rows: Vec<u64>, numbers: &[u64]) -> Case {
    let mut case = Case {
        bytes: [ptr::null_mut(); 4],
        lengths: [0; 4],
        rows: ptr::null_mut(),
        row_numbers: 0,
        numbers: [0; 6],
    };
    for (at, buffer) in buffers.into_iter().enumerate() {
        (case.bytes[at], case.lengths[at]) = hand_out(buffer);
    }
    (case.rows, case.row_numbers) = hand_out(rows);
    case.numbers[..numbers.len()].copy_from_slice(numbers);
    case
}

/// Damage by the seed: none, of the tree, of the text, or of both.
fn damaged_document(random: &mut Random, mut node: random::Node) -> Vec<u8> {
    for _ in 0..random.below(3) {
        random::damage_node(random, &mut node);
    }
    let mut text = random::document(random, &node);
    if random.one_in(3) {
        random::damage_text(random, &mut text);
    }
    text
}

/// One field in a few is damaged.
fn damaged_field(random: &mut Random, mut field: Vec<u8>) -> Vec<u8> {
    if random.one_in(8) {
        random::damage_bytes(random, &mut field);
    }
    field
}

fn damaged_number(random: &mut Random, number: u64) -> u64 {
    match random.below(12) {
        0 => number.wrapping_add(1),
        1 => *random.pick(&[&0u64, &65, &122, &123, &4_095, &1_048_577, &u64::MAX]),
        _ => number,
    }
}

fn label_letters(label: &Label) -> [u64; 3] {
    [
        u64::from(label.letters.index),
        u64::from(label.letters.data),
        label.block_size,
    ]
}

/// The number of an element that is there or nearly; where blocks are unreadable,
/// as often one of them.
fn element_number(random: &mut Random, files: &VolumeFiles, bound: usize) -> u64 {
    let sides = [files.index(), files.data()];
    let tapes = sides.iter().filter_map(|side| side.read().ok());
    let lost: Vec<usize> = tapes
        .flat_map(|tape| {
            let numbered = tape.elements.into_iter().enumerate();
            numbered.filter(|(_, element)| *element == Element::Unreadable)
        })
        .map(|(number, _)| number)
        .collect();
    match lost.is_empty() || random.one_in(2) {
        true => random.below(bound) as u64,
        false => lost[random.below(lost.len())] as u64,
    }
}

/// A volume, often damaged. Bytes: index list, index store, data list, data
/// store. Numbers: two that are small, for elements and constructs; then any.
#[no_mangle]
pub extern "C" fn random_volume(seed: u64) -> Case {
    let mut random = Random::new(seed);
    let files = match random.below(4) {
        0 => random::volume(&mut random),
        _ => random::damaged_volume(&mut random),
    };
    let numbers = [
        element_number(&mut random, &files, 12),
        element_number(&mut random, &files, 40),
        random.draw(),
    ];
    let buffers = vec![
        files.index_list,
        files.index_store,
        files.data_list,
        files.data_store,
    ];
    case_of(buffers, Vec::new(), &numbers)
}

/// A text of any elements, in the form or broken. Bytes: the text.
#[no_mangle]
pub extern "C" fn random_form(seed: u64) -> Case {
    let text = random::form_text(&mut Random::new(seed));
    case_of(vec![text], Vec::new(), &[])
}

/// A label. Bytes: a text; creator, time and UUID to write. Numbers: location,
/// letters, block size, compression.
#[no_mangle]
pub extern "C" fn random_label(seed: u64) -> Case {
    let mut random = Random::new(seed);
    let random = &mut random;
    let label = random::label(random);
    let node = random::label_node(random, &label);
    let text = damaged_document(random, node);
    let fields = [
        label.creator.clone(),
        label.format_time.clone(),
        label.uuid.clone(),
    ]
    .map(|field| damaged_field(random, field));
    let [index, data, block_size] = label_letters(&label);
    let location = u64::from(label.location);
    let compression = u64::from(label.compression);
    let numbers = [location, index, data, block_size, compression]
        .map(|number| damaged_number(random, number));
    let buffers = [vec![text], fields.to_vec()].concat();
    case_of(buffers, Vec::new(), &numbers)
}

/// An index. Bytes: a text; the label's UUID. Numbers: letters and block size;
/// the letter and block where it stands.
#[no_mangle]
pub extern "C" fn random_index(seed: u64) -> Case {
    let mut random = Random::new(seed);
    let random = &mut random;
    let (node, label, place) = random::index_case(random);
    let text = damaged_document(random, node);
    let mut uuid = label.uuid.clone();
    let [index, data, block_size] = label_letters(&label);
    let mut numbers = [
        index,
        data,
        block_size,
        u64::from(place.letter),
        place.start_block,
    ];
    if random.one_in(8) {
        numbers = numbers.map(|number| damaged_number(random, number));
        uuid = damaged_field(random, uuid);
    } else if random.one_in(16) {
        uuid = random::another_uuid(random, &uuid);
    }
    case_of(vec![text, uuid], Vec::new(), &numbers)
}

/// A VOL1 block. Bytes: a block; identifier and owner to write.
#[no_mangle]
pub extern "C" fn random_vol1(seed: u64) -> Case {
    let mut random = Random::new(seed);
    let random = &mut random;
    let vol1 = random::vol1(random);
    let fields = [
        vol1.bytes().to_vec(),
        vol1.identifier.to_vec(),
        vol1.owner.to_vec(),
    ];
    let damaged = fields.map(|field| damaged_field(random, field));
    case_of(damaged.to_vec(), Vec::new(), &[])
}

/// Rows of a file. Numbers: length, block size, position.
#[no_mangle]
pub extern "C" fn random_rows(seed: u64) -> Case {
    let mut random = Random::new(seed);
    let map = random::map_case(&mut random);
    let numbers = [map.length, map.block_size, map.position];
    case_of(Vec::new(), map.numbers, &numbers)
}

/// An ANSI labelled tape. Bytes: list, store. Number: bytes lent for its files.
#[no_mangle]
pub extern "C" fn random_ansi(seed: u64) -> Case {
    let mut random = Random::new(seed);
    let case = random_ansi::case(&mut random);
    case_of(vec![case.list, case.store], Vec::new(), &[case.room as u64])
}

/// Gives a case's buffers back.
///
/// # Safety
/// The case is one that a function above answered, and is not used again.
#[no_mangle]
pub unsafe extern "C" fn random_free(case: Case) {
    for (start, length) in case.bytes.into_iter().zip(case.lengths) {
        if !start.is_null() {
            drop(Box::from_raw(ptr::slice_from_raw_parts_mut(start, length)));
        }
    }
    drop(Box::from_raw(ptr::slice_from_raw_parts_mut(
        case.rows,
        case.row_numbers,
    )));
}

//! The library's exported functions, answered by the reference under the prefix
//! `reference_`, so that C can call both with the same arguments.
//!
//! # Safety
//! A slice is a pointer and a length, NULL only with length 0; an array is a
//! pointer to as many numbers as its comment says.

#![allow(clippy::too_many_arguments, clippy::missing_safety_doc)]

use crate::ansi;
use crate::extents::{self, FileByte};
use crate::index::{self, Index, Place};
use crate::label::{self, Label};
use crate::structure::only;
use crate::tape::{self, Letters, Partition, Side};
use crate::values::{decode_bytes, Version};
use crate::vol1::Vol1;
use crate::volume::{self, Verdict};
use crate::whole::{self, Whole};
use crate::xml::{self, Element};
use crate::{require, Refusal};
use std::slice;

// ---- Arguments and answers ----

unsafe fn shared<'a, T>(start: *const T, length: usize) -> &'a [T] {
    match length {
        0 => &[],
        _ => slice::from_raw_parts(start, length),
    }
}

unsafe fn lent<'a, T>(start: *mut T, length: usize) -> &'a mut [T] {
    match length {
        0 => &mut [],
        _ => slice::from_raw_parts_mut(start, length),
    }
}

unsafe fn side<'a>(
    list: *const u8,
    list_length: usize,
    store: *const u8,
    store_length: usize,
) -> Side<'a> {
    Side {
        list: shared(list, list_length),
        store: shared(store, store_length),
    }
}

/// The refusal's number, and the values or zeros.
unsafe fn answer<const N: usize>(result: Result<[u64; N], Refusal>, out: *mut u64) -> u64 {
    let (number, values) = match result {
        Ok(values) => (0, values),
        Err(refusal) => (refusal.number(), [0; N]),
    };
    out.copy_from_nonoverlapping(values.as_ptr(), N);
    number
}

/// With refusal 4 the front of the text, and 1 where it is the data partition's
/// label; else zeros.
fn front_and_side<T>(result: &Result<T, Refusal>) -> [u64; 2] {
    match result {
        Err(Refusal::Form {
            front,
            of_data_label,
        }) => [*front as u64, u64::from(*of_data_label)],
        _ => [0; 2],
    }
}

/// An answer about a text, and behind its values the front.
unsafe fn answer_of_text<const N: usize>(result: Result<[u64; N], Refusal>, out: *mut u64) -> u64 {
    let [front, _] = front_and_side(&result);
    out.add(N).write(front);
    answer(result, out)
}

/// An answer about a volume, and behind its values the front and the side.
unsafe fn answer_of_volume<const N: usize>(
    result: Result<[u64; N], Refusal>,
    out: *mut u64,
) -> u64 {
    let [front, side] = front_and_side(&result);
    out.add(N).write(front);
    out.add(N + 1).write(side);
    answer(result, out)
}

/// Where `part`, which is a part of `whole`, begins.
fn offset(whole: &[u8], part: &[u8]) -> u64 {
    (part.as_ptr() as usize - whole.as_ptr() as usize) as u64
}

/// Offset and length of a value as it is spelled.
fn spelled(element: &Element) -> [u64; 2] {
    [element.text_start as u64, element.raw_text.len() as u64]
}

fn tree(text: &[u8]) -> Element {
    xml::parse(text).expect("a text that was read is in the form")
}

// ---- Lists ----

#[no_mangle]
pub unsafe extern "C" fn reference_check_list(
    list: *const u8,
    list_length: usize,
    store: *const u8,
    store_length: usize,
    count: *mut u64,
) -> u64 {
    let side = side(list, list_length, store, store_length);
    answer(side.read().map(|tape| [tape.elements.len() as u64]), count)
}

#[no_mangle]
pub unsafe extern "C" fn reference_keep(
    list: *const u8,
    list_length: usize,
    store: *const u8,
    store_length: usize,
    n: u64,
    out: *mut u64,
) -> u64 {
    let side = side(list, list_length, store, store_length);
    let kept = tape::keep(side.list, side.store, n);
    answer(
        kept.map(|(list, store, _)| [list.len() as u64, store.len() as u64]),
        out,
    )
}

#[no_mangle]
pub unsafe extern "C" fn reference_block(
    index_list: *const u8,
    index_list_length: usize,
    index_store: *const u8,
    index_store_length: usize,
    data_list: *const u8,
    data_list_length: usize,
    data_store: *const u8,
    data_store_length: usize,
    index_letter: u8,
    data_letter: u8,
    letter: u8,
    number: u64,
    out: *mut u64,
) -> u64 {
    let index = side(
        index_list,
        index_list_length,
        index_store,
        index_store_length,
    );
    let data = side(data_list, data_list_length, data_store, data_store_length);
    let letters = Letters {
        index: index_letter,
        data: data_letter,
    };
    let found = tape::block(index, data, letters, letter, number).map(|block| {
        let (which, store) = match letter == index_letter {
            true => (0, index.store),
            false => (1, data.store),
        };
        [which, offset(store, block), block.len() as u64]
    });
    answer(found, out)
}

#[no_mangle]
pub unsafe extern "C" fn reference_constructs(
    list: *const u8,
    list_length: usize,
    store: *const u8,
    store_length: usize,
    block_size: u64,
    table: *mut u32,
    count: *mut u64,
) -> u64 {
    let rows = require(extents::is_block_size(block_size), Refusal::Argument)
        .and_then(|()| side(list, list_length, store, store_length).read())
        .map(|tape| construct_rows(&tape, block_size));
    if let Ok(rows) = &rows {
        let numbers = rows.concat();
        lent(table, numbers.len()).copy_from_slice(&numbers);
    }
    answer(rows.map(|rows| [rows.len() as u64]), count)
}

fn construct_rows(tape: &Partition, block_size: u64) -> Vec<[u32; 4]> {
    let standing = volume::layout(tape, block_size).standing;
    standing
        .iter()
        .map(|construct| {
            let text = tape.blocks(construct.first_block, construct.last_block);
            let begin = tape.stored_before(construct.first_block);
            // Without a text the row ends where it begins.
            let end = begin + text.map_or(0, <[u8]>::len);
            [
                construct.first_block as u32,
                construct.closing_mark as u32 + 1,
                begin as u32,
                end as u32,
            ]
        })
        .collect()
}

// ---- Texts and labels ----

#[no_mangle]
pub unsafe extern "C" fn reference_check_form(
    text: *const u8,
    length: usize,
    front: *mut u64,
) -> u64 {
    let form = xml::check_form(shared(text, length)).map_err(Refusal::form);
    answer_of_text(form.map(|()| []), front)
}

#[no_mangle]
pub unsafe extern "C" fn reference_read_vol1(
    block: *const u8,
    length: usize,
    out: *mut u64,
) -> u64 {
    let read = Vol1::read(shared(block, length));
    answer(read.map(|_| [4, 6, 37, 14]), out)
}

#[no_mangle]
pub unsafe extern "C" fn reference_write_vol1(
    buffer: *mut u8,
    buffer_length: usize,
    identifier: *const u8,
    identifier_length: usize,
    owner: *const u8,
    owner_length: usize,
    length: *mut u64,
) -> u64 {
    let written = Vol1::write(
        shared(identifier, identifier_length),
        shared(owner, owner_length),
        lent(buffer, buffer_length),
    );
    answer(written.map(|length| [length as u64]), length)
}

#[no_mangle]
pub unsafe extern "C" fn reference_read_label(
    text: *const u8,
    length: usize,
    out: *mut u64,
) -> u64 {
    let text = shared(text, length);
    answer_of_text(
        label::read(text).map(|label| label_numbers(text, &label, 0)),
        out,
    )
}

/// The label's numbers; offsets count from `before` bytes before the text.
fn label_numbers(text: &[u8], label: &Label, before: u64) -> [u64; 12] {
    let root = tree(text);
    let [creator, time, uuid] =
        ["creator", "formattime", "volumeuuid"].map(|name| spelled(only(&root, name)));
    [
        u64::from(label.version.2),
        before + creator[0],
        creator[1],
        before + time[0],
        time[1],
        before + uuid[0],
        uuid[1],
        u64::from(label.location),
        u64::from(label.letters.index),
        u64::from(label.letters.data),
        label.block_size,
        u64::from(label.compression),
    ]
}

#[no_mangle]
pub unsafe extern "C" fn reference_write_label(
    buffer: *mut u8,
    buffer_length: usize,
    creator: *const u8,
    creator_length: usize,
    time: *const u8,
    time_length: usize,
    uuid: *const u8,
    uuid_length: usize,
    location: u8,
    index_letter: u8,
    data_letter: u8,
    block_size: u64,
    compression: u64,
    length: *mut u64,
) -> u64 {
    let label = Label {
        version: Version(2, 0, 1),
        creator: shared(creator, creator_length).to_vec(),
        format_time: shared(time, time_length).to_vec(),
        uuid: shared(uuid, uuid_length).to_vec(),
        location,
        letters: Letters {
            index: index_letter,
            data: data_letter,
        },
        block_size,
        compression: compression == 1,
    };
    let written = require(compression <= 1, Refusal::Argument)
        .and_then(|()| label.write(lent(buffer, buffer_length)));
    answer(written.map(|length| [length as u64]), length)
}

// ---- Indexes ----

/// What a caller gives of the label; the rest of it is not asked for.
unsafe fn given_label(
    uuid: *const u8,
    uuid_length: usize,
    index_letter: u8,
    data_letter: u8,
    block_size: u64,
) -> Label {
    Label {
        version: Version(2, 0, 1),
        creator: Vec::new(),
        format_time: Vec::new(),
        uuid: shared(uuid, uuid_length).to_vec(),
        location: index_letter,
        letters: Letters {
            index: index_letter,
            data: data_letter,
        },
        block_size,
        compression: false,
    }
}

fn place_at(letter: u8, block: u64) -> Place {
    Place {
        letter,
        start_block: block,
    }
}

fn index_numbers(text: &[u8], index: &Index) -> [u64; 14] {
    let time = spelled(only(&tree(text), "updatetime"));
    let back = index.back_pointer.unwrap_or(place_at(0, 0));
    [
        u64::from(index.version.2),
        index.generation,
        time[0],
        time[1],
        u64::from(index.location.letter),
        index.location.start_block,
        u64::from(index.back_pointer.is_some()),
        u64::from(back.letter),
        back.start_block,
        u64::from(index.allow_policy_update),
        index.highest_file_uid,
        index.directories.len() as u64,
        index.files.len() as u64,
        index.files.iter().map(|file| file.rows.len() as u64).sum(),
    ]
}

#[no_mangle]
pub unsafe extern "C" fn reference_read_index(
    text: *const u8,
    length: usize,
    uuid: *const u8,
    uuid_length: usize,
    index_letter: u8,
    data_letter: u8,
    block_size: u64,
    letter: u8,
    block: u64,
    out: *mut u64,
) -> u64 {
    let text = shared(text, length);
    let label = given_label(uuid, uuid_length, index_letter, data_letter, block_size);
    let place = place_at(letter, block);
    let read = index::read(text, &label, place);
    answer_of_text(read.map(|index| index_numbers(text, &index)), out)
}

#[no_mangle]
pub unsafe extern "C" fn reference_read_file(
    text: *const u8,
    length: usize,
    uuid: *const u8,
    uuid_length: usize,
    index_letter: u8,
    data_letter: u8,
    block_size: u64,
    letter: u8,
    block: u64,
    file: u64,
    out: *mut u64,
) -> u64 {
    let text = shared(text, length);
    let label = given_label(uuid, uuid_length, index_letter, data_letter, block_size);
    let place = place_at(letter, block);
    let read = index::read(text, &label, place);
    answer_of_text(read.and_then(|index| file_numbers(text, &index, file)), out)
}

fn file_numbers(text: &[u8], index: &Index, number: u64) -> Result<[u64; 4], Refusal> {
    let at = usize::try_from(number).map_err(|_| Refusal::Missing)?;
    let file = index.files.get(at).ok_or(Refusal::Missing)?;
    let root = tree(text);
    let entries = index::all_entries(&root);
    let mut elements = entries.iter().filter(|(_, entry)| entry.name == "file");
    let (_, element) = elements.nth(at).expect("a file that was read");
    let name = spelled(only(element, "name"));
    Ok([file.length, name[0], name[1], file.rows.len() as u64])
}

#[no_mangle]
pub unsafe extern "C" fn reference_read_rows(
    text: *const u8,
    length: usize,
    uuid: *const u8,
    uuid_length: usize,
    index_letter: u8,
    data_letter: u8,
    block_size: u64,
    letter: u8,
    block: u64,
    file: u64,
    rows: *mut u64,
    rows_length: usize,
    count: *mut u64,
    front: *mut u64,
) -> u64 {
    let label = given_label(uuid, uuid_length, index_letter, data_letter, block_size);
    let place = place_at(letter, block);
    let read = index::file_rows(
        shared(text, length),
        &label,
        place,
        file,
        lent(rows, rows_length),
    );
    let [of_text, _] = front_and_side(&read);
    front.write(of_text);
    answer(read.map(|(rows, _)| [rows as u64]), count)
}

#[no_mangle]
pub unsafe extern "C" fn reference_read_whole(
    text: *const u8,
    length: usize,
    uuid: *const u8,
    uuid_length: usize,
    index_letter: u8,
    data_letter: u8,
    block_size: u64,
    letter: u8,
    block: u64,
    entries: *mut u64,
    entries_length: usize,
    rows: *mut u64,
    rows_length: usize,
    out: *mut u64,
) -> u64 {
    let text = shared(text, length);
    let label = given_label(uuid, uuid_length, index_letter, data_letter, block_size);
    let read = whole::read(text, &label, place_at(letter, block)).and_then(|whole| {
        put_whole(
            &whole,
            lent(entries, entries_length),
            lent(rows, rows_length),
        )?;
        Ok(index_numbers(text, &whole.index))
    });
    answer_of_text(read, out)
}

/// Both or none.
fn put_whole(whole: &Whole, entries: &mut [u64], rows: &mut [u64]) -> Result<(), Refusal> {
    let (entry_numbers, row_numbers) = (whole.entries.concat(), whole.rows.concat());
    require(rows.len() >= row_numbers.len(), Refusal::ShortOutput)?;
    index::put(&entry_numbers, entries)?;
    index::put(&row_numbers, rows)
}

/// Bytes at the front of a lent buffer, and how many.
unsafe fn answer_bytes(
    found: Result<Vec<u8>, Refusal>,
    buffer: *mut u8,
    buffer_length: usize,
    count: *mut u64,
) -> u64 {
    let written = found.and_then(|bytes| {
        index::put(&bytes, lent(buffer, buffer_length))?;
        Ok([bytes.len() as u64])
    });
    answer(written, count)
}

#[no_mangle]
pub unsafe extern "C" fn reference_decode(
    text: *const u8,
    length: usize,
    buffer: *mut u8,
    buffer_length: usize,
    count: *mut u64,
) -> u64 {
    let decoded = decode_bytes(shared(text, length));
    answer_bytes(Ok(decoded), buffer, buffer_length, count)
}

#[no_mangle]
pub unsafe extern "C" fn reference_path(
    text: *const u8,
    length: usize,
    entries: *const u64,
    entries_length: usize,
    entry: u64,
    buffer: *mut u8,
    buffer_length: usize,
    count: *mut u64,
) -> u64 {
    let entries = shared(entries, entries_length);
    let path = whole::path(shared(text, length), entries, entry);
    answer_bytes(path, buffer, buffer_length, count)
}

#[no_mangle]
pub unsafe extern "C" fn reference_index(
    list: *const u8,
    list_length: usize,
    store: *const u8,
    store_length: usize,
    uuid: *const u8,
    uuid_length: usize,
    index_letter: u8,
    data_letter: u8,
    block_size: u64,
    letter: u8,
    number: u64,
    out: *mut u64,
) -> u64 {
    let side = side(list, list_length, store, store_length);
    let label = given_label(uuid, uuid_length, index_letter, data_letter, block_size);
    let read = volume::index_of_construct(side, &label, letter, number);
    let numbers = read.map(|(index, construct)| {
        let tape = side.read().expect("the list was read");
        let text = tape
            .blocks(construct.first_block, construct.last_block)
            .expect("the text was read");
        let place = [
            construct.first_block as u64,
            construct.closing_mark as u64 + 1,
            offset(side.store, text),
            text.len() as u64,
        ];
        let mut numbers = [0; 18];
        numbers[..4].copy_from_slice(&place);
        numbers[4..].copy_from_slice(&index_numbers(text, &index));
        numbers
    });
    answer_of_text(numbers, out)
}

#[no_mangle]
pub unsafe extern "C" fn reference_byte_at(
    rows: *const u64,
    rows_length: usize,
    length: u64,
    block_size: u64,
    position: u64,
    out: *mut u64,
) -> u64 {
    let place = extents::byte_map(shared(rows, rows_length), length, block_size, position);
    let numbers = place.map(|place| match place {
        FileByte::Stored {
            letter,
            block,
            byte,
        } => [1, u64::from(letter), block, byte],
        FileByte::Zero => [0; 4],
    });
    answer(numbers, out)
}

// ---- Volumes ----

/// A function of a volume's two sides that answers numbers.
macro_rules! of_volume {
    ($name:ident, $numbers:expr) => {
        #[no_mangle]
        pub unsafe extern "C" fn $name(
            index_list: *const u8,
            index_list_length: usize,
            index_store: *const u8,
            index_store_length: usize,
            data_list: *const u8,
            data_list_length: usize,
            data_store: *const u8,
            data_store_length: usize,
            out: *mut u64,
        ) -> u64 {
            let index = side(
                index_list,
                index_list_length,
                index_store,
                index_store_length,
            );
            let data = side(data_list, data_list_length, data_store, data_store_length);
            answer_of_volume($numbers(index, data), out)
        }
    };
}

of_volume!(reference_check_labels, check_labels);
of_volume!(reference_verdict, verdict);
of_volume!(reference_rescue, rescue);

fn check_labels(index: Side, data: Side) -> Result<[u64; 12], Refusal> {
    let labels = volume::check_labels(index, data)?;
    let text = index.read()?.block(2)?;
    let before = offset(index.store, text);
    Ok(label_numbers(text, &labels.index.label, before))
}

fn verdict(index: Side, data: Side) -> Result<[u64; 2], Refusal> {
    Ok(match volume::verdict(index, data)? {
        Verdict::Consistent => [0, 0],
        Verdict::Break { which, number } => [which, number],
    })
}

fn rescue(index: Side, data: Side) -> Result<[u64; 5], Refusal> {
    let cut = volume::rescue(index, data)?;
    Ok([
        cut.index_construct,
        cut.data_construct,
        cut.index_kept,
        cut.data_kept,
        cut.generation,
    ])
}

// ---- ANSI labelled tapes ----

#[no_mangle]
pub unsafe extern "C" fn reference_ansi(
    list: *const u8,
    list_length: usize,
    store: *const u8,
    store_length: usize,
    buffer: *mut u8,
    buffer_length: usize,
    count: *mut u64,
) -> u64 {
    let side = side(list, list_length, store, store_length);
    let read = ansi::read(side, lent(buffer, buffer_length));
    answer(read.map(|files| [files as u64]), count)
}

#[no_mangle]
pub unsafe extern "C" fn reference_ansi_place(
    list: *const u8,
    list_length: usize,
    store: *const u8,
    store_length: usize,
    place: *mut u64,
) -> u64 {
    let side = side(list, list_length, store, store_length);
    answer(ansi::place(side).map(|place| [place as u64]), place)
}

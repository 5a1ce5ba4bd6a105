//! Labels of two sides, constructs, verdict, rescue and the program, on volumes
//! written out by hand.

use reference::index::Place;
use reference::label::Label;
use reference::random::TapeElement::{Block, Unreadable};
use reference::random::{TapeSide, VolumeFiles};
use reference::tape::{Letters, Partition};
use reference::values::Version;
use reference::vol1::Vol1;
use reference::volume::{self, check_labels, layout, Construct, Cut, Verdict};
use reference::xml::DECLARATION;
use reference::{program, Refusal};

const B: u64 = 4096;
const UUID: &str = "30a91a08-daae-48d1-ae75-69804e61d2ea";
const TIME: &str = "2010-01-28T19:39:57.245954278Z";

fn label(location: u8) -> Label {
    Label {
        version: Version(2, 0, 1),
        creator: b"LTFS".to_vec(),
        format_time: TIME.into(),
        uuid: UUID.into(),
        location,
        letters: Letters {
            index: b'a',
            data: b'b',
        },
        block_size: B,
        compression: true,
    }
}

fn label_text(location: u8) -> Vec<u8> {
    let mut buffer = vec![0; 1000];
    let length = label(location).write(&mut buffer).unwrap();
    buffer.truncate(length);
    buffer
}

fn vol1() -> Vol1 {
    Vol1 {
        identifier: *b"ABC123",
        owner: [b' '; 14],
    }
}

fn labelled(location: u8) -> TapeSide {
    let mut side = TapeSide::default();
    side.labels(&vol1(), label_text(location));
    side
}

/// Rows: letter, start block, byte offset, byte count; each is a file's only one.
type Row = (char, u64, u64, u64);

fn index_text(
    letter: char,
    at: u64,
    generation: u64,
    back: Option<(char, u64)>,
    rows: &[Row],
) -> String {
    let back = match back {
        None => String::new(),
        Some((letter, at)) => format!(
            "<previousgenerationlocation><partition>{letter}</partition><startblock>{at}</startblock>\
             </previousgenerationlocation>"
        ),
    };
    let entry = |uid: usize, more: String| {
        let times: String = ["creation", "change", "modify", "access", "backup"]
            .iter()
            .map(|time| format!("<{time}time>{TIME}</{time}time>"))
            .collect();
        format!("<fileuid>{uid}</fileuid><name>n</name><readonly>0</readonly>{times}{more}")
    };
    let files: String = rows
        .iter()
        .enumerate()
        .map(|(at, (letter, start, offset, count))| {
            let extent = format!(
                "<length>{count}</length><extentinfo><extent><partition>{letter}</partition><startblock>{start}</startblock>\
                 <byteoffset>{offset}</byteoffset><bytecount>{count}</bytecount><fileoffset>0</fileoffset></extent></extentinfo>"
            );
            format!("<file>{}</file>", entry(at + 2, extent))
        })
        .collect();
    format!(
        "{DECLARATION}<ltfsindex version=\"2.0.1\"><creator>LTFS</creator><volumeuuid>{UUID}</volumeuuid>\
         <generationnumber>{generation}</generationnumber><updatetime>{TIME}</updatetime>\
         <location><partition>{letter}</partition><startblock>{at}</startblock></location>{back}\
         <allowpolicyupdate>1</allowpolicyupdate><highestfileuid>9</highestfileuid>\
         <directory>{}</directory></ltfsindex>",
        entry(1, format!("<contents>{files}</contents>"))
    )
}

/// Writes an index construct that says truly where it stands; answers that place.
fn write_index(
    side: &mut TapeSide,
    letter: char,
    generation: u64,
    back: Option<(char, u64)>,
    rows: &[Row],
) -> u64 {
    let at = side.elements.len() as u64 + 1;
    side.index(index_text(letter, at, generation, back, rows).as_bytes(), B);
    at
}

/// The fresh volume: one index construct on each side.
fn fresh() -> (TapeSide, TapeSide) {
    let mut index = labelled(b'a');
    let mut data = labelled(b'b');
    assert_eq!(write_index(&mut data, 'b', 1, None, &[]), 5);
    assert_eq!(write_index(&mut index, 'a', 1, Some(('b', 5)), &[]), 5);
    (index, data)
}

fn verdict(index: &TapeSide, data: &TapeSide) -> Result<Verdict, Refusal> {
    let files = VolumeFiles::of(index, data);
    volume::verdict(files.index(), files.data())
}

fn broken(which: u64, number: u64) -> Result<Verdict, Refusal> {
    Ok(Verdict::Break { which, number })
}

fn rescue(index: &TapeSide, data: &TapeSide) -> Result<Cut, Refusal> {
    let files = VolumeFiles::of(index, data);
    let cut = volume::rescue(files.index(), files.data());
    assert_eq!(
        cut,
        volume::rescue_by_every_pair(files.index(), files.data())
    );
    cut
}

fn answer(index: &TapeSide, data: &TapeSide) -> String {
    program::answer(&index.list(), &index.store(), &data.list(), &data.store())
}

fn cut(
    index_construct: u64,
    data_construct: u64,
    index_kept: u64,
    data_kept: u64,
    generation: u64,
) -> Result<Cut, Refusal> {
    Ok(Cut {
        index_construct,
        data_construct,
        index_kept,
        data_kept,
        generation,
    })
}

// ---- The program ----

#[test]
fn fresh_volume() {
    let (index, mut data) = fresh();
    assert_eq!(index.list().len(), 19);
    assert_eq!(
        answer(&index, &data),
        "verdict consistent\ncut 0 0 keep 7 7 generation 1\n"
    );
    data.elements.truncate(6);
    assert_eq!(answer(&index, &data), "verdict break 2 0\ncut none\n");
}

#[test]
fn program_bounds() {
    let (index, data) = fresh();
    let mut list = index.list();
    assert_eq!(program::answer(&[], &[], &[], &[]), "refused 9\n");
    list.resize(4096, 1);
    assert_ne!(
        program::answer(&list, &index.store(), &data.list(), &data.store()),
        "refused 15\n"
    );
    list.push(1);
    assert_eq!(
        program::answer(&list, &index.store(), &data.list(), &data.store()),
        "refused 15\n"
    );
    assert_eq!(program::answer(&list, &[], &[], &[]), "refused 15\n");
    assert_eq!(
        program::answer(&[], &[], &[9], &vec![0; 24_577]),
        "refused 15\n"
    );
    assert_eq!(
        program::answer(&[], &[], &[9], &vec![0; 24_576]),
        "refused 1\n"
    );
}

// ---- Labels in the volume order ----

#[test]
fn label_refusals_in_volume_order() {
    let (index, data) = fresh();
    let refusal = |index: &TapeSide, data: &TapeSide| {
        let files = VolumeFiles::of(index, data);
        check_labels(files.index(), files.data()).err()
    };
    assert_eq!(refusal(&index, &data), None);
    // Faults of the data side, each giving an earlier refusal than the one before.
    let mut data = data;
    data.elements[2] = Block(label_text(b'a'));
    assert_eq!(refusal(&index, &data), Some(Refusal::Disagreement));
    data.elements[2] = Block(b"<?x".to_vec());
    let of_data = Refusal::Form {
        front: 3,
        of_data_label: true,
    };
    assert_eq!(refusal(&index, &data), Some(of_data));
    data.elements[2] = Block(vec![b'x'; 4097]);
    assert_eq!(refusal(&index, &data), Some(Refusal::TooLong));
    data.elements[0] = Block(b"VOL1".to_vec());
    assert_eq!(refusal(&index, &data), Some(Refusal::Vol1));
    data.elements[1] = Block(b"x".to_vec());
    assert_eq!(refusal(&index, &data), Some(Refusal::LabelConstruct));
    data.elements[1] = Block(vec![]);
    assert_eq!(refusal(&index, &data), Some(Refusal::List));
}

#[test]
fn index_side_goes_first() {
    let (mut index, mut data) = fresh();
    let refusal = |index: &TapeSide, data: &TapeSide| {
        let files = VolumeFiles::of(index, data);
        check_labels(files.index(), files.data()).err()
    };
    index.elements[2] = Block(b"<x".to_vec());
    data.elements[2] = Block(b"<?x".to_vec());
    assert_eq!(refusal(&index, &data), Some(Refusal::form(1)));
    data.elements[2] = Block(vec![b'x'; 4097]);
    assert_eq!(refusal(&index, &data), Some(Refusal::form(1)));
    // VOL1 of the data side comes before the label text of the index side.
    data.elements[0] = Block(b"VOL1".to_vec());
    assert_eq!(refusal(&index, &data), Some(Refusal::Vol1));
    // The data side's elements come before the index side's VOL1.
    index.elements[0] = Block(b"VOL1".to_vec());
    data.elements.truncate(3);
    assert_eq!(refusal(&index, &data), Some(Refusal::LabelConstruct));
}

#[test]
fn swapped_sides_disagree() {
    let (index, data) = fresh();
    assert_eq!(verdict(&data, &index), Err(Refusal::Disagreement));
    assert_eq!(rescue(&data, &index), Err(Refusal::Disagreement));
}

#[test]
fn labels_agree_by_value() {
    let (index, mut data) = fresh();
    let text = String::from_utf8(label_text(b'b')).unwrap();
    data.elements[2] = Block(
        text.replace("<compression>true", "<compression>1")
            .into_bytes(),
    );
    assert_eq!(verdict(&index, &data), Ok(Verdict::Consistent));
    data.elements[2] = Block(text.replace("2.0.1", "2.0.2").into_bytes());
    assert_eq!(verdict(&index, &data), Err(Refusal::Disagreement));
}

// ---- Constructs ----

/// Stands for an unreadable block among lengths of blocks.
const LOST: usize = usize::MAX;

/// A label construct, then blocks of these lengths; 0 is a mark.
fn side_of(lengths: &[usize]) -> TapeSide {
    let mut side = labelled(b'a');
    for length in lengths {
        match *length {
            0 => side.mark(),
            LOST => side.unreadable(),
            length => side.block(vec![b'x'; length]),
        }
    }
    side
}

fn layout_of(lengths: &[usize]) -> volume::Layout {
    let side = side_of(lengths);
    let (list, store) = (side.list(), side.store());
    layout(&Partition::read(&list, &store).unwrap(), B)
}

fn construct(first_block: usize, last_block: usize) -> Construct {
    Construct {
        first_block,
        last_block,
        closing_mark: last_block + 1,
    }
}

#[test]
fn constructs_and_data_runs() {
    let found = layout_of(&[0, 9, 0, 5, 4096, 0, 4096, 4096, 1, 0, 0, 4096, 0]);
    assert_eq!(
        found.standing,
        [construct(5, 5), construct(10, 12), construct(15, 15)]
    );
    assert_eq!(found.data_blocks, [7, 8]);
    assert_eq!(found.first_defect, None);
    assert_eq!(layout_of(&[]).standing, []);
    assert_eq!(layout_of(&[5]).data_blocks, [4]);
    assert_eq!(layout_of(&[0, 9]).standing, []);
}

#[test]
fn defects() {
    // A block longer than the block size, in a data run and in an index run.
    let found = layout_of(&[0, 9, 0, 4097, 0, 9, 0]);
    assert_eq!(
        (found.standing, found.first_defect),
        (vec![construct(5, 5)], Some(7))
    );
    let found = layout_of(&[0, 9, 0, 0, 4097, 0]);
    assert_eq!(
        (found.standing, found.first_defect),
        (vec![construct(5, 5)], Some(8))
    );
    // An empty index run.
    let found = layout_of(&[0, 0, 0, 9, 0]);
    assert_eq!((found.standing, found.first_defect), (vec![], Some(5)));
    // A short block before the last.
    let found = layout_of(&[0, 9, 0, 0, 9, 4096, 0, 0, 9, 0]);
    assert_eq!(
        (found.standing, found.first_defect),
        (vec![construct(5, 5)], Some(9))
    );
    // A short block that nothing follows is none.
    let found = layout_of(&[0, 9, 0, 0, 4096, 9]);
    assert_eq!(
        (found.standing, found.first_defect),
        (vec![construct(5, 5)], None)
    );
    // Short blocks in a data run are none.
    assert_eq!(layout_of(&[1, 2, 3, 0, 9, 0]).first_defect, None);
}

#[test]
fn index_by_construct_number() {
    let (index, _) = fresh();
    let files = VolumeFiles::of(&index, &TapeSide::default());
    let ask = |letter: u8, number: u64| {
        volume::index_of_construct(files.index(), &label(b'a'), letter, number)
    };
    let (read, found) = ask(b'a', 0).unwrap();
    assert_eq!(
        read.location,
        Place {
            letter: b'a',
            start_block: 5
        }
    );
    assert_eq!(found, construct(5, 5));
    assert_eq!(ask(b'a', 1), Err(Refusal::Missing));
    assert_eq!(ask(b'a', u64::MAX), Err(Refusal::Missing));
    assert_eq!(ask(b'b', 0), Err(Refusal::Location));
    assert_eq!(ask(b'c', 1), Err(Refusal::Argument));
    let broken_list = reference::tape::Side {
        list: &[9],
        store: &[],
    };
    assert_eq!(
        volume::index_of_construct(broken_list, &label(b'a'), b'a', 9),
        Err(Refusal::List)
    );
    assert_eq!(
        volume::index_of_construct(broken_list, &label(b'a'), b'c', 9),
        Err(Refusal::Argument)
    );
}

#[test]
fn index_over_several_blocks() {
    let (mut index, data) = fresh();
    index.elements.truncate(4);
    let long = index_text('a', 5, 1, Some(('b', 5)), &[]).replace(
        "<updatetime>",
        &format!("<comment>{}</comment><updatetime>", "c".repeat(9000)),
    );
    index.index(long.as_bytes(), B);
    assert_eq!(index.elements.len(), 9);
    assert_eq!(
        answer(&index, &data),
        "verdict consistent\ncut 0 0 keep 9 7 generation 1\n"
    );
}

// ---- Unreadable blocks ----

#[test]
fn unreadable_block_in_a_label_construct() {
    let (index, data) = fresh();
    for at in 0..4 {
        let (mut lost_index, mut lost_data) = (index.clone(), data.clone());
        lost_index.elements[at] = Unreadable;
        lost_data.elements[at] = Unreadable;
        for (index, data) in [(&lost_index, &data), (&index, &lost_data)] {
            assert_eq!(verdict(index, data), Err(Refusal::LabelConstruct));
            assert_eq!(rescue(index, data), Err(Refusal::LabelConstruct));
        }
    }
    // Before the other side's VOL1, and behind its list.
    let mut lost = data.clone();
    lost.elements[0] = Unreadable;
    let mut wrong = index.clone();
    wrong.elements[0] = Block(b"VOL1".to_vec());
    assert_eq!(verdict(&wrong, &lost), Err(Refusal::LabelConstruct));
    wrong.block(vec![]);
    assert_eq!(verdict(&wrong, &lost), Err(Refusal::List));
}

#[test]
fn unreadable_blocks_in_data_runs_are_no_defect() {
    let found = layout_of(&[LOST, 5, LOST, LOST, 0, 9, 0, LOST, 0, 9, 0]);
    assert_eq!(found.standing, [construct(9, 9), construct(13, 13)]);
    assert_eq!(found.data_blocks, [4, 5, 6, 7, 11]);
    assert_eq!(found.first_defect, None);
    assert_eq!(layout_of(&[LOST, 4097]).first_defect, Some(5));
}

#[test]
fn unreadable_blocks_in_an_index_run_that_stands() {
    for run in [
        &[LOST][..],
        &[LOST, LOST, LOST],
        &[LOST, 9],
        &[LOST, 4096],
        &[4096, LOST],
        &[4096, LOST, 4096, 9],
        &[4096, LOST, LOST, 9],
        &[LOST, 4096, LOST],
    ] {
        let last = 4 + run.len();
        let found = layout_of(&[&[0][..], run, &[0, 0, 9, 0]].concat());
        let next = construct(last + 3, last + 3);
        assert_eq!(found.standing, [construct(5, last), next], "{run:?}");
        assert_eq!(found.first_defect, None, "{run:?}");
        assert_eq!(found.data_blocks, [], "{run:?}");
    }
    assert_eq!(layout_of(&[0, LOST]).standing, []);
}

#[test]
fn defects_beside_unreadable_blocks() {
    for (run, defect) in [
        (&[9, LOST][..], 6),
        (&[4095, LOST], 6),
        (&[4096, 9, LOST, LOST], 7),
        (&[LOST, 9, LOST], 7),
        (&[LOST, 9, 4096], 7),
        (&[LOST, 9, 9], 7),
        (&[4096, LOST, 9, 9], 8),
        (&[LOST, 4097], 6),
        (&[4097, LOST], 5),
    ] {
        for closed in [&[][..], &[0]] {
            let found = layout_of(&[&[0][..], run, closed].concat());
            assert_eq!(found.standing, [], "{run:?}");
            assert_eq!(found.first_defect, Some(defect), "{run:?}");
        }
    }
}

/// The rows that C is handed.
fn construct_rows(lengths: &[usize]) -> Vec<[u32; 4]> {
    let side = side_of(lengths);
    let (list, store) = (side.list(), side.store());
    let (mut table, mut count) = (vec![7; 40], [9]);
    let refusal = unsafe {
        reference::c_functions::reference_constructs(
            list.as_ptr(),
            list.len(),
            store.as_ptr(),
            store.len(),
            B,
            table.as_mut_ptr(),
            count.as_mut_ptr(),
        )
    };
    assert_eq!(refusal, 0);
    let (rows, rest) = table.split_at(4 * count[0] as usize);
    assert!(rest.iter().all(|number| *number == 7));
    rows.chunks(4).map(|row| row.try_into().unwrap()).collect()
}

#[test]
fn row_of_a_construct_without_a_text_ends_where_it_begins() {
    let labels = labelled(b'a').store().len() as u32;
    let found = construct_rows(&[
        5, LOST, 0, LOST, 0, 4096, 0, 4096, LOST, 9, 0, 0, 7, 0, 0, LOST, 4096, 0, 0, 1, 0,
    ]);
    let begins = [5, 4101, 8206, 8213, 12309].map(|begin| labels + begin);
    assert_eq!(
        found,
        [
            [7, 9, begins[0], begins[0]],
            [11, 15, begins[1], begins[1]],
            [16, 18, begins[2], begins[2] + 7],
            [19, 22, begins[3], begins[3]],
            [23, 25, begins[4], begins[4] + 1],
        ]
    );
}

/// The fresh volume's index side with its index in three full blocks, and an
/// unreadable one behind so many of them.
fn index_in_blocks(before: usize) -> TapeSide {
    let mut side = labelled(b'a');
    let text = index_text('a', 5, 1, Some(('b', 5)), &[]);
    // Spaces behind the root element make the last block full too.
    let text = format!("{text:12288}");
    side.index(text.as_bytes(), B);
    side.elements.insert(5 + before, Unreadable);
    side
}

#[test]
fn index_is_not_read_round_an_unreadable_block() {
    let (whole, data) = fresh();
    for before in 0..=3 {
        let index = index_in_blocks(before);
        let files = VolumeFiles::of(&index, &data);
        let ask = |letter: u8, number: u64| {
            volume::index_of_construct(files.index(), &label(b'a'), letter, number)
        };
        assert_eq!(ask(b'a', 0), Err(Refusal::Unreadable));
        // Before the place, which is another here.
        assert_eq!(ask(b'b', 0), Err(Refusal::Unreadable));
        assert_eq!(ask(b'a', 1), Err(Refusal::Missing));
        assert_eq!(ask(b'c', 0), Err(Refusal::Argument));
        assert_eq!(verdict(&index, &data), broken(4, 0));
        assert_eq!(rescue(&index, &data), Err(Refusal::NoCut));
    }
    let mut readable = index_in_blocks(0);
    readable.elements.remove(5);
    assert_eq!(verdict(&readable, &data), Ok(Verdict::Consistent));
    let mut alone = whole.clone();
    alone.elements[5] = Unreadable;
    assert_eq!(verdict(&alone, &data), broken(4, 0));
}

#[test]
fn unreadable_data_index_ends_the_chain() {
    let (mut index, mut data) = fresh();
    let second = write_index(&mut data, 'b', 2, Some(('b', 5)), &[]);
    write_index(&mut index, 'a', 2, Some(('b', second)), &[]);
    let third = write_index(&mut data, 'b', 3, Some(('b', second)), &[]);
    write_index(&mut index, 'a', 3, Some(('b', third)), &[]);
    assert_eq!(rescue(&index, &data), cut(2, 2, 13, 13, 3));
    for (number, kept) in [
        (0, Err(Refusal::NoCut)),
        (1, cut(0, 0, 7, 7, 1)),
        (2, cut(1, 1, 10, 10, 2)),
    ] {
        let mut lost = data.clone();
        lost.elements[5 + 3 * number] = Unreadable;
        assert_eq!(verdict(&index, &lost), broken(3, number as u64));
        assert_eq!(rescue(&index, &lost), kept);
    }
}

#[test]
fn earlier_index_of_the_index_partition_may_be_unreadable() {
    let (mut index, data) = fresh();
    write_index(&mut index, 'a', 1, Some(('b', 5)), &[]);
    index.elements[5] = Unreadable;
    assert_eq!(verdict(&index, &data), Ok(Verdict::Consistent));
    assert_eq!(rescue(&index, &data), cut(1, 0, 10, 7, 1));
    // One behind, whose number the index construct's counts.
    index.mark();
    index.unreadable();
    index.mark();
    assert_eq!(verdict(&index, &data), broken(4, 2));
    assert_eq!(rescue(&index, &data), cut(1, 0, 10, 7, 1));
    index.unreadable();
    assert_eq!(verdict(&index, &data), broken(1, 0));
    assert_eq!(rescue(&index, &data), cut(1, 0, 10, 7, 1));
}

#[test]
fn unreadable_block_keeps_the_numbers_behind_it() {
    // The file lies behind an unreadable block, and so do the indexes.
    let mut index = labelled(b'a');
    let mut data = labelled(b'b');
    data.unreadable();
    data.block(vec![9; 10]);
    index.unreadable();
    let at = write_index(&mut data, 'b', 1, None, &[]);
    assert_eq!(at, 7);
    write_index(&mut index, 'a', 1, Some(('b', at)), &[('b', 5, 0, 10)]);
    assert_eq!(verdict(&index, &data), Ok(Verdict::Consistent));
    assert_eq!(rescue(&index, &data), cut(0, 0, 8, 9, 1));
}

#[test]
fn extent_on_an_unreadable_block_is_not_on_the_tape() {
    // Data blocks 4 (full), 5 (unreadable), 6 (full), 7 (100 bytes).
    let with_row = |row: Row| {
        let mut index = labelled(b'a');
        let mut data = labelled(b'b');
        data.block(vec![1; 4096]);
        data.unreadable();
        data.block(vec![2; 4096]);
        data.block(vec![3; 100]);
        let at = write_index(&mut data, 'b', 1, None, &[]);
        write_index(&mut index, 'a', 1, Some(('b', at)), &[row]);
        verdict(&index, &data)
    };
    for row in [('b', 4, 0, 4096), ('b', 6, 0, 4196), ('b', 7, 99, 1)] {
        assert_eq!(with_row(row), Ok(Verdict::Consistent), "{row:?}");
    }
    for row in [
        ('b', 4, 0, 4097),
        ('b', 4, 4095, 2),
        ('b', 4, 0, 8193),
        ('b', 5, 0, 1),
        ('b', 5, 0, 4096),
        ('b', 5, 4095, 2),
    ] {
        assert_eq!(with_row(row), broken(5, 0), "{row:?}");
    }
}

// ---- Verdict ----

#[test]
fn breaks_one_and_two() {
    let (index, data) = fresh();
    for kept in [4, 5, 6] {
        let front = TapeSide {
            elements: index.elements[..kept].to_vec(),
        };
        assert_eq!(verdict(&front, &data), broken(1, 0));
        let front = TapeSide {
            elements: data.elements[..kept].to_vec(),
        };
        assert_eq!(verdict(&index, &front), broken(2, 0));
    }
    let mut longer = index.clone();
    longer.block(b"d".to_vec());
    assert_eq!(verdict(&longer, &data), broken(1, 0));
    assert_eq!(rescue(&longer, &data), cut(0, 0, 7, 7, 1));
    longer.elements.truncate(4);
    assert_eq!(rescue(&longer, &data), Err(Refusal::NoCut));
}

#[test]
fn break_three() {
    // The first has a back pointer.
    let mut index = labelled(b'a');
    let mut data = labelled(b'b');
    write_index(&mut data, 'b', 1, Some(('b', 5)), &[]);
    write_index(&mut index, 'a', 1, Some(('b', 5)), &[]);
    assert_eq!(verdict(&index, &data), broken(3, 0));
    // A later one: no back pointer, one elsewhere, one with the index letter, a lower generation.
    for (generation, back) in [
        (2, None),
        (2, Some(('b', 6))),
        (2, Some(('a', 5))),
        (1, Some(('b', 5))),
    ] {
        let mut index = labelled(b'a');
        let mut data = labelled(b'b');
        write_index(&mut data, 'b', 2, None, &[]);
        let last = write_index(&mut data, 'b', generation, back, &[]);
        write_index(&mut index, 'a', 2, Some(('b', last)), &[]);
        assert_eq!(verdict(&index, &data), broken(3, 1));
    }
    // Not sound: a wrong self pointer.
    let (index, mut data) = fresh();
    data.elements.truncate(4);
    data.index(index_text('b', 6, 1, None, &[]).as_bytes(), B);
    assert_eq!(verdict(&index, &data), broken(3, 0));
}

#[test]
fn equal_generations_chain() {
    let mut index = labelled(b'a');
    let mut data = labelled(b'b');
    let first = write_index(&mut data, 'b', 2, None, &[]);
    let second = write_index(&mut data, 'b', 2, Some(('b', first)), &[]);
    write_index(&mut index, 'a', 2, Some(('b', second)), &[]);
    assert_eq!(verdict(&index, &data), Ok(Verdict::Consistent));
}

#[test]
fn break_four() {
    for (generation, back) in [
        (2, None),
        (2, Some(('b', 6))),
        (2, Some(('a', 5))),
        (1, Some(('b', 5))),
    ] {
        let mut index = labelled(b'a');
        let mut data = labelled(b'b');
        write_index(&mut data, 'b', 2, None, &[]);
        // An earlier index of the index partition is not read for the verdict.
        index.index(b"not an index", B);
        write_index(&mut index, 'a', generation, back, &[]);
        assert_eq!(verdict(&index, &data), broken(4, 1));
        assert_eq!(rescue(&index, &data), Err(Refusal::NoCut));
    }
    let mut index = labelled(b'a');
    let mut data = labelled(b'b');
    write_index(&mut data, 'b', 2, None, &[]);
    index.index(b"not an index", B);
    write_index(&mut index, 'a', 2, Some(('b', 5)), &[]);
    assert_eq!(verdict(&index, &data), Ok(Verdict::Consistent));
    index.index(b"not an index", B);
    assert_eq!(verdict(&index, &data), broken(4, 2));
    assert_eq!(rescue(&index, &data), cut(1, 0, 10, 7, 2));
}

/// A volume with data blocks 4 (full), 5 (full), 6 (100 bytes) on the data side
/// and 4 (50 bytes) on the index side, and one index with these rows.
fn with_rows(rows: &[Row]) -> Result<Verdict, Refusal> {
    let mut index = labelled(b'a');
    let mut data = labelled(b'b');
    data.block(vec![1; 4096]);
    data.block(vec![2; 4096]);
    data.block(vec![3; 100]);
    index.block(vec![4; 50]);
    let at = write_index(&mut data, 'b', 1, None, &[]);
    assert_eq!(at, 8);
    write_index(&mut index, 'a', 1, Some(('b', at)), rows);
    verdict(&index, &data)
}

#[test]
fn break_five() {
    for row in [
        ('b', 4, 0, 8292),
        ('b', 4, 4095, 1),
        ('b', 4, 4095, 2),
        ('b', 5, 0, 4096),
        ('b', 6, 99, 1),
        ('a', 4, 0, 50),
        ('a', 4, 10, 40),
    ] {
        assert_eq!(with_rows(&[row]), Ok(Verdict::Consistent), "{row:?}");
    }
    for row in [
        ('b', 4, 0, 8293),
        ('b', 6, 100, 1),
        ('b', 6, 99, 2),
        ('b', 6, 0, 4097),
        ('b', 7, 0, 1),
        ('b', 8, 0, 1),
        ('b', 2, 0, 1),
        ('b', 3, 0, 1),
        ('b', 10, 0, 1),
        ('b', u64::MAX, 0, 1),
        ('a', 4, 0, 51),
        ('a', 5, 0, 1),
        ('a', 6, 0, 1),
    ] {
        assert_eq!(with_rows(&[row]), broken(5, 0), "{row:?}");
        assert_eq!(
            with_rows(&[('b', 4, 0, 1), row, row]),
            broken(5, 1),
            "{row:?}"
        );
    }
}

// ---- Rescue ----

#[test]
fn extent_past_the_cut() {
    // The older index names the right data index, but its file lies in a block
    // that the cut would drop.
    let mut index = labelled(b'a');
    let mut data = labelled(b'b');
    let first = write_index(&mut data, 'b', 1, None, &[]);
    data.block(vec![9; 10]);
    let second = write_index(&mut data, 'b', 2, Some(('b', first)), &[]);
    write_index(&mut index, 'a', 1, Some(('b', first)), &[]);
    write_index(&mut index, 'a', 1, Some(('b', first)), &[('b', 7, 0, 10)]);
    assert_eq!(second, 9);
    assert_eq!(verdict(&index, &data), broken(4, 1));
    assert_eq!(rescue(&index, &data), cut(0, 0, 7, 7, 1));
    write_index(&mut index, 'a', 2, Some(('b', second)), &[('b', 7, 0, 10)]);
    assert_eq!(rescue(&index, &data), cut(2, 1, 13, 11, 2));
}

#[test]
fn most_index_constructs_of_the_index_partition() {
    // An older index names a newer data index: the cut with more constructs in
    // the index partition is taken though it keeps fewer in the data partition.
    let mut index = labelled(b'a');
    let mut data = labelled(b'b');
    let first = write_index(&mut data, 'b', 1, None, &[]);
    let second = write_index(&mut data, 'b', 1, Some(('b', first)), &[]);
    let third = write_index(&mut data, 'b', 1, Some(('b', second)), &[]);
    write_index(&mut index, 'a', 1, Some(('b', third)), &[]);
    write_index(&mut index, 'a', 1, Some(('b', first)), &[]);
    let files = VolumeFiles::of(&index, &data);
    assert_eq!(
        volume::consistent_pairs(files.index(), files.data())
            .unwrap()
            .len(),
        2
    );
    assert_eq!(rescue(&index, &data), cut(1, 0, 10, 7, 1));
}

#[test]
fn cut_before_a_defect() {
    let (mut index, mut data) = fresh();
    data.mark();
    data.mark();
    write_index(&mut data, 'b', 2, Some(('b', 5)), &[]);
    write_index(&mut index, 'a', 2, Some(('b', 10)), &[]);
    assert_eq!(verdict(&index, &data), broken(2, 0));
    assert_eq!(rescue(&index, &data), cut(0, 0, 7, 7, 1));
}

#[test]
fn unsound_data_index_ends_the_chain() {
    let (mut index, mut data) = fresh();
    data.index(b"not an index", B);
    let at = write_index(&mut data, 'b', 2, Some(('b', 8)), &[]);
    write_index(&mut index, 'a', 2, Some(('b', at)), &[]);
    assert_eq!(verdict(&index, &data), broken(3, 1));
    assert_eq!(rescue(&index, &data), cut(0, 0, 7, 7, 1));
}

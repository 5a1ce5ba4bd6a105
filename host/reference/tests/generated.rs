//! The reference on generated volumes, labels, indexes and rows.

use reference::index::Place;
use reference::random::{self, Random, VolumeFiles};
use reference::tape::{Element, Partition};
use reference::volume::{self, Layout, Verdict};
use reference::{extents, index, label, program, xml, Refusal};
use std::collections::BTreeSet;

fn answer(files: &VolumeFiles) -> String {
    program::answer(
        &files.index_list,
        &files.index_store,
        &files.data_list,
        &files.data_store,
    )
}

#[test]
fn lawful_labels_read_back() {
    let mut random = Random::new(1);
    for case in 0..2_000 {
        let label = random::label(&mut random);
        let text = random::label_text(&mut random, &label);
        assert_eq!(
            label::read(&text),
            Ok(label),
            "case {case}: {}",
            String::from_utf8_lossy(&text)
        );
    }
}

#[test]
fn written_labels_read_back() {
    let mut random = Random::new(2);
    for _ in 0..500 {
        let label = random::label(&mut random);
        let mut buffer = vec![7; 2_000];
        let length = label.write(&mut buffer).unwrap();
        assert!(buffer[length..].iter().all(|byte| *byte == 7));
        let expected = label::Label {
            version: reference::values::Version(2, 0, 1),
            ..label.clone()
        };
        assert_eq!(label::read(&buffer[..length]), Ok(expected));
        let mut short = vec![7; random.below(length)];
        let before = short.clone();
        assert_eq!(label.write(&mut short), Err(Refusal::ShortOutput));
        assert_eq!(short, before);
    }
}

#[test]
fn lawful_indexes_read() {
    let mut random = Random::new(3);
    for case in 0..1_000 {
        let (node, label, place) = random::index_case(&mut random);
        let text = random::document(&mut random, &node);
        let read = index::read(&text, &label, place);
        assert!(
            read.is_ok(),
            "case {case}: {read:?} {}",
            String::from_utf8_lossy(&text)
        );
        let read = read.unwrap();
        assert_eq!(read.location, place);
        let elsewhere = Place {
            start_block: place.start_block + 1,
            ..place
        };
        assert_eq!(
            index::read(&text, &label, elsewhere),
            Err(Refusal::Location)
        );
        for (number, file) in read.files.iter().enumerate() {
            let mut buffer = vec![9; 5 * file.rows.len() + 1];
            let rows = index::file_rows(&text, &label, place, number as u64, &mut buffer);
            assert_eq!(rows, Ok((file.rows.len(), file.length)));
            assert_eq!(buffer.last(), Some(&9));
            if !file.rows.is_empty() {
                let mut short = vec![9; 5 * file.rows.len() - 1];
                let refused = index::file_rows(&text, &label, place, number as u64, &mut short);
                assert_eq!(refused, Err(Refusal::ShortOutput));
                assert!(short.iter().all(|number| *number == 9));
            }
        }
        let past = read.files.len() as u64;
        assert_eq!(
            index::file_rows(&text, &label, place, past, &mut []),
            Err(Refusal::Missing)
        );
    }
}

/// The tree reader and the byte-by-byte reader agree, and a refused text's front
/// is the longest by the byte reader's own account.
fn check_form_readings(text: &[u8]) {
    let form = xml::check_form(text);
    assert_eq!(
        form.is_ok(),
        xml::parse(text).is_some(),
        "{}",
        String::from_utf8_lossy(text)
    );
    if let Err(front) = form {
        assert!(front <= text.len());
        let of_front = xml::check_form(&text[..front]);
        assert!(of_front == Ok(()) || of_front == Err(front));
        if front < text.len() {
            assert_eq!(xml::check_form(&text[..front + 1]), Err(front));
        }
    }
}

#[test]
fn damaged_texts_are_refused_without_panic() {
    let mut random = Random::new(4);
    let mut label_refusals = BTreeSet::new();
    let mut index_refusals = BTreeSet::new();
    for _ in 0..12_000 {
        let label = random::label(&mut random);
        let mut node = random::label_node(&mut random, &label);
        for _ in 0..random.below(3) {
            random::damage_node(&mut random, &mut node);
        }
        let mut text = random::document(&mut random, &node);
        for _ in 0..random.below(3) {
            random::damage_text(&mut random, &mut text);
        }
        check_form_readings(&text);
        if let Err(refusal) = label::read(&text) {
            label_refusals.insert(refusal.number());
        }

        let (mut node, label, place) = random::index_case(&mut random);
        for _ in 0..random.below(3) {
            random::damage_node(&mut random, &mut node);
        }
        let mut text = random::document(&mut random, &node);
        if random.one_in(3) {
            random::damage_text(&mut random, &mut text);
        }
        check_form_readings(&text);
        if let Err(refusal) = index::read(&text, &label, place) {
            index_refusals.insert(refusal.number());
        }
    }
    assert_eq!(label_refusals, BTreeSet::from([4, 5, 6, 7]));
    assert_eq!(index_refusals, BTreeSet::from([4, 5, 6, 7, 8, 11, 12]));
}

#[test]
fn arbitrary_bytes_are_refused_without_panic() {
    let mut random = Random::new(8);
    for _ in 0..20_000 {
        let bytes = |random: &mut Random, alphabet: &[u8]| -> Vec<u8> {
            let length = random.below(30);
            (0..length)
                .map(|_| alphabet[random.below(alphabet.len())])
                .collect()
        };
        let list = bytes(&mut random, &[0, 1, 1, 2, 2, 3, 3, 4]);
        let other = bytes(&mut random, &[0, 1, 1, 2, 0, 0, 0, 1]);
        let store = bytes(&mut random, &[1, 2, 3]);
        let files = VolumeFiles {
            index_list: list,
            index_store: store.clone(),
            data_list: other,
            data_store: store,
        };
        assert!(answer(&files).starts_with("refused "));
        let rest = bytes(&mut random, b"<>/=' \"&;]a1\xc3\xa9\xef\xbf\xbe");
        let text = [xml::DECLARATION.as_bytes(), &rest].concat();
        check_form_readings(&text);
        check_form_readings(&rest);
        assert!(label::read(&text).is_err());
    }
}

#[test]
fn byte_map_gives_a_place_or_a_refusal() {
    let mut random = Random::new(5);
    let mut outcomes = BTreeSet::new();
    for _ in 0..20_000 {
        let case = random::map_case(&mut random);
        match extents::byte_map(&case.numbers, case.length, case.block_size, case.position) {
            Ok(extents::FileByte::Zero) => outcomes.insert("zero".to_string()),
            Ok(extents::FileByte::Stored { byte, .. }) => {
                assert!(byte < case.block_size);
                outcomes.insert("stored".to_string())
            }
            Err(refusal) => outcomes.insert(refusal.number().to_string()),
        };
    }
    let expected = ["11", "14", "2", "stored", "zero"].map(String::from);
    assert_eq!(outcomes, BTreeSet::from(expected));
}

#[test]
fn written_volumes_are_consistent_and_kept_whole() {
    let mut random = Random::new(6);
    let mut places = BTreeSet::new();
    for case in 0..500 {
        let files = random::volume(&mut random);
        assert_eq!(
            volume::verdict(files.index(), files.data()),
            Ok(Verdict::Consistent),
            "case {case}"
        );
        let cut = volume::rescue(files.index(), files.data()).unwrap();
        let tapes = [files.index(), files.data()].map(|side| side.read().unwrap());
        let all = |tape: &Partition| tape.elements.len() as u64;
        assert_eq!(
            (cut.index_kept, cut.data_kept),
            (all(&tapes[0]), all(&tapes[1]))
        );
        let labels = volume::check_labels(files.index(), files.data()).unwrap();
        for tape in &tapes {
            let layout = volume::layout(tape, labels.index.label.block_size);
            lost_places(tape, &layout, &mut places);
        }
    }
    // Also with blocks lost that the verdict doesn't ask for.
    let expected = ["alone", "data run", "first", "last", "within"];
    assert_eq!(places, BTreeSet::from(expected));
}

/// Adds the places in which unreadable blocks stand on a partition.
fn lost_places(tape: &Partition, layout: &Layout, found: &mut BTreeSet<&'static str>) {
    let is_lost = |at: &usize| tape.elements[*at] == Element::Unreadable;
    if (0..tape.elements.len().min(4)).any(|at| is_lost(&at)) {
        found.insert("labels");
    }
    if layout.data_blocks.iter().any(is_lost) {
        found.insert("data run");
    }
    if layout.first_defect.as_ref().is_some_and(is_lost) {
        found.insert("behind a short block");
    }
    for construct in &layout.standing {
        let (first, last) = (construct.first_block, construct.last_block);
        if first == last && is_lost(&first) {
            found.insert("alone");
        } else if is_lost(&first) {
            found.insert("first");
        } else if is_lost(&last) {
            found.insert("last");
        } else if (first..=last).any(|at| is_lost(&at)) {
            found.insert("within");
        }
    }
}

/// Most volumes have no unreadable block, many have some in every place, and many
/// of these have a cut.
#[test]
fn unreadable_blocks_are_frequent() {
    const CASES: usize = 4_000;
    let mut random = Random::new(9);
    let (mut with, mut cut) = (0, 0);
    let mut places = BTreeSet::new();
    for _ in 0..CASES {
        let files = random::damaged_volume(&mut random);
        let (Ok(index), Ok(data)) = (files.index().read(), files.data().read()) else {
            continue;
        };
        let has_lost = [&index, &data].map(|tape| tape.elements.contains(&Element::Unreadable));
        if has_lost == [false, false] {
            continue;
        }
        with += 1;
        cut += usize::from(volume::rescue(files.index(), files.data()).is_ok());
        for tape in [&index, &data] {
            // By the block size that most have, also where the labels are lost.
            lost_places(tape, &volume::layout(tape, 4_096), &mut places);
        }
    }
    println!("{with} of {CASES}, {cut} with a cut");
    assert!(with * 5 >= CASES && with * 2 <= CASES);
    assert!(cut * 4 >= with);
    let expected = [
        "alone",
        "behind a short block",
        "data run",
        "first",
        "labels",
        "last",
        "within",
    ];
    assert_eq!(places, BTreeSet::from(expected));
}

#[test]
fn both_rescues_agree() {
    let mut random = Random::new(7);
    let mut answers = BTreeSet::new();
    for case in 0..3_000 {
        let files = random::damaged_volume(&mut random);
        let direct = volume::rescue(files.index(), files.data());
        let by_pairs = volume::rescue_by_every_pair(files.index(), files.data());
        assert_eq!(direct, by_pairs, "case {case}");
        let verdict = volume::verdict(files.index(), files.data());
        // Refusals before 13 are those of the labels.
        match (direct, verdict) {
            (Ok(_) | Err(Refusal::NoCut), verdict) => assert!(verdict.is_ok(), "case {case}"),
            (Err(refusal), verdict) => {
                assert_eq!(verdict, Err(refusal), "case {case}");
                assert_eq!(
                    volume::check_labels(files.index(), files.data()),
                    Err(refusal),
                    "case {case}"
                );
            }
        }
        if let Ok(cut) = direct {
            let index = files.index().read().unwrap().keep(cut.index_kept as usize);
            let data = files.data().read().unwrap().keep(cut.data_kept as usize);
            let kept = VolumeFiles {
                index_list: index.list.to_vec(),
                index_store: index.store.to_vec(),
                data_list: data.list.to_vec(),
                data_store: data.store.to_vec(),
            };
            assert_eq!(
                volume::verdict(kept.index(), kept.data()),
                Ok(Verdict::Consistent),
                "case {case}"
            );
        }
        // The kind of each line: the refusal, or the verdict with its break, and the cut.
        for line in answer(&files).lines() {
            let words: Vec<&str> = line.split(' ').collect();
            let kept = match words[0] {
                "verdict" => words.len().min(3),
                "cut" => usize::from(words[1] == "none") + 1,
                _ => words.len(),
            };
            answers.insert(words[..kept].join(" "));
        }
    }
    let expected = [
        "verdict consistent",
        "verdict break 1",
        "verdict break 2",
        "verdict break 3",
        "verdict break 4",
        "verdict break 5",
        "cut",
        "cut none",
        "refused 1",
        "refused 3",
        "refused 8",
        "refused 9",
        "refused 15",
    ];
    for answer in expected {
        assert!(
            answers.contains(answer),
            "{answer} is missing from {answers:?}"
        );
    }
}

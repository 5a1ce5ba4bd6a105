//! Reading on never hurts: a longer read of a tape against a shorter one. Where the
//! shorter one has a cut, the longer one has the same or one with more indexes of
//! the index partition, and the shorter one's cut is still one. So it is of any
//! second read that has all that the cut of the first keeps.

use reference::index::Place;
use reference::label::Label;
use reference::random::TapeElement::{Block, Mark, Unreadable};
use reference::random::{self, Header, Random, TapeElement, TapeSide, VolumeFiles};
use reference::tape::Side;
use reference::volume::{self, Cut, Verdict};
use reference::Refusal;
use std::slice;

// ---- Two reads ----

/// Index and data side, as far as they were read.
type Tape = [TapeSide; 2];

/// A read and what is rescued of it.
struct Read {
    files: VolumeFiles,
    cut: Result<Cut, Refusal>,
}

impl Read {
    fn of([index, data]: &Tape) -> Self {
        let files = VolumeFiles::of(index, data);
        let cut = volume::rescue(files.index(), files.data());
        Read { files, cut }
    }

    fn sides(&self) -> [Side<'_>; 2] {
        [self.files.index(), self.files.data()]
    }

    /// What a cut leaves.
    fn kept(&self, cut: &Cut) -> [Side<'_>; 2] {
        let [index, data] = self.sides();
        [(index, cut.index_kept), (data, cut.data_kept)].map(|(side, n)| {
            let (list, store, _) = reference::tape::keep(side.list, side.store, n).unwrap();
            Side { list, store }
        })
    }
}

fn same(one: Side, other: Side) -> bool {
    one.list == other.list && one.store == other.store
}

/// How often the shorter read had a cut, the longer one another, and that one with
/// fewer elements of the data partition and a lower generation.
#[derive(Debug, Default)]
struct Tried {
    cuts: usize,
    others: usize,
    lower: usize,
}

impl Tried {
    fn hold(&mut self, old: &Read, new: &Read) {
        for (before, after) in old.sides().into_iter().zip(new.sides()) {
            assert!(after.list.starts_with(before.list) && after.store.starts_with(before.store));
            assert!(after.read().is_ok());
        }
        self.hold_cut(old, new);
    }

    /// Of a second read that has all that the first one's cut keeps.
    fn hold_cut(&mut self, old: &Read, new: &Read) {
        let Ok(cut) = old.cut else { return };
        let other = new.cut.expect("a cut where the first read has one");
        self.cuts += 1;
        if other != cut {
            assert!(other.index_construct > cut.index_construct);
            let is_lower = other.data_kept < cut.data_kept && other.generation < cut.generation;
            self.others += 1;
            self.lower += usize::from(is_lower);
        }
        let [index, data] = new.kept(&cut);
        let [index_before, data_before] = old.kept(&cut);
        assert!(same(index, index_before) && same(data, data_before));
        assert_eq!(volume::verdict(index, data), Ok(Verdict::Consistent));
    }
}

// ---- Tapes ----

fn front(side: &TapeSide, n: usize) -> TapeSide {
    TapeSide {
        elements: side.elements[..n].to_vec(),
    }
}

fn longer(side: &TapeSide, more: &[TapeElement]) -> TapeSide {
    TapeSide {
        elements: [&side.elements, more].concat(),
    }
}

/// A tape of blocks that are quickly copied, in half of the cases with faults.
fn small_tape(random: &mut Random) -> (Tape, Label) {
    loop {
        let faults = *random.pick(&[&0, &0, &60, &30]);
        let (index, data, label) = random::tape(random, faults);
        if label.block_size <= 5_000 {
            return ([index, data], label);
        }
    }
}

/// Some front of the tape: of a side all, or up to an element not far from its end.
fn some_front(random: &mut Random, [index, data]: &Tape) -> Tape {
    [index, data].map(|side| {
        let dropped = random.below(3) * random.below(8);
        front(side, side.elements.len().saturating_sub(dropped))
    })
}

/// A read with a cut, of any such tape.
fn read_with_cut(random: &mut Random) -> (Tape, Label, Read, Cut) {
    loop {
        let (tape, label) = small_tape(random);
        let tape = some_front(random, &tape);
        let read = Read::of(&tape);
        if let Ok(cut) = read.cut {
            return (tape, label, read, cut);
        }
    }
}

/// A sound index behind a side's elements, with extents on none.
fn write_index(
    random: &mut Random,
    side: &mut TapeSide,
    label: &Label,
    letter: u8,
    generation: u64,
    back_pointer: Option<Place>,
) -> Place {
    let location = Place {
        letter,
        start_block: side.elements.len() as u64 + 1,
    };
    let header = Header {
        generation,
        location,
        back_pointer,
    };
    let node = random::index_node(random, label, &header, &[], &random::SHALLOW);
    let text = random::document(random, &node);
    side.index(&text, label.block_size);
    location
}

// ---- Fronts ----

/// Every front of a tape is read on to every front of it that is longer.
fn hold_of_all_fronts(tape: &Tape, tried: &mut Tried) {
    let [index, data] = tape;
    let lengths = [index.elements.len(), data.elements.len()];
    let reads: Vec<Vec<Read>> = (0..=lengths[0])
        .map(|n| {
            let read = |m| Read::of(&[front(index, n), front(data, m)]);
            (0..=lengths[1]).map(read).collect()
        })
        .collect();
    for n in 0..=lengths[0] {
        for m in 0..=lengths[1] {
            for longer in &reads[n..] {
                for new in &longer[m..] {
                    tried.hold(&reads[n][m], new);
                }
            }
        }
    }
}

#[test]
fn every_front_of_small_tapes() {
    const MOST: usize = 16;
    let mut random = Random::new(1);
    let mut tried = Tried::default();
    let mut tapes = 0;
    while tapes < 150 {
        let (tape, _) = small_tape(&mut random);
        if tape.iter().all(|side| side.elements.len() <= MOST) {
            hold_of_all_fronts(&tape, &mut tried);
            tapes += 1;
        }
    }
    println!("{tried:?}");
    assert!(tried.cuts > 10_000 && tried.others > 1_000);
}

/// Fronts of any tape, read on to all of it.
#[test]
fn fronts_of_larger_tapes() {
    let mut random = Random::new(2);
    let mut tried = Tried::default();
    for _ in 0..400 {
        let (tape, _) = small_tape(&mut random);
        let whole = Read::of(&tape);
        for _ in 0..20 {
            let old = Read::of(&some_front(&mut random, &tape));
            tried.hold(&old, &whole);
        }
    }
    println!("{tried:?}");
    assert!(tried.cuts > 1_000 && tried.others > 200);
}

// ---- Elements behind ----

/// All sequences of up to so many elements: marks, blocks below the block size, of
/// it and above it, unreadable blocks.
fn sequences(most: usize, block_size: u64) -> Vec<Vec<TapeElement>> {
    let block = |length: u64| Block(vec![b'x'; length as usize]);
    let kinds = [
        Mark,
        block(9),
        block(block_size),
        block(block_size + 1),
        Unreadable,
    ];
    let mut found = vec![vec![]];
    let mut from = 0;
    for _ in 0..most {
        let last = found[from..].to_vec();
        from = found.len();
        for kind in &kinds {
            let longer = |before: &Vec<_>| [before, slice::from_ref(kind)].concat();
            found.extend(last.iter().map(longer));
        }
    }
    found
}

#[test]
fn elements_of_all_kinds_behind() {
    let mut random = Random::new(3);
    let mut tried = Tried::default();
    for _ in 0..20 {
        let ([index, data], label, old, _) = read_with_cut(&mut random);
        let pairs = sequences(1, label.block_size);
        for more in sequences(3, label.block_size) {
            let index_more = longer(&index, &more);
            let data_more = longer(&data, &more);
            tried.hold(&old, &Read::of(&[index_more.clone(), data.clone()]));
            tried.hold(&old, &Read::of(&[index.clone(), data_more]));
            if more.len() == 1 {
                for other in &pairs {
                    let both = [index_more.clone(), longer(&data, other)];
                    tried.hold(&old, &Read::of(&both));
                }
            }
        }
    }
    println!("{tried:?}");
    assert!(tried.cuts > 5_000);
}

// ---- Constructs behind ----

/// A sound index of the index partition that points at one of the first data
/// indexes which the cut keeps.
fn index_behind(random: &mut Random, tape: &Tape, label: &Label, cut: &Cut) -> Tape {
    let [mut index, mut data] = tape.clone();
    let read = VolumeFiles::of(&index, &data);
    let standing = volume::layout(&read.data().read().unwrap(), label.block_size).standing;
    let target = &standing[random.below(cut.data_construct as usize + 1)];
    let back_pointer = Place {
        letter: label.letters.data,
        start_block: target.first_block as u64,
    };
    let generation = cut.generation - random.draw() % 2 * u64::from(cut.generation > 1);
    let letter = label.letters.index;
    write_index(
        random,
        &mut index,
        label,
        letter,
        generation,
        Some(back_pointer),
    );
    let others = sequences(2, label.block_size);
    data.elements
        .extend(others[random.below(others.len())].clone());
    [index, data]
}

/// Elements of another tape, from any place on.
fn other_behind(random: &mut Random, tape: &Tape) -> Tape {
    let (other, _) = small_tape(random);
    [0, 1].map(|side| {
        let from = random.below(other[side].elements.len() + 1);
        longer(&tape[side], &other[side].elements[from..])
    })
}

#[test]
fn constructs_behind() {
    let mut random = Random::new(4);
    let mut tried = Tried::default();
    for _ in 0..500 {
        let (tape, label, old, cut) = read_with_cut(&mut random);
        let more = index_behind(&mut random, &tape, &label, &cut);
        tried.hold(&old, &Read::of(&more));
        let more = other_behind(&mut random, &tape);
        tried.hold(&old, &Read::of(&more));
    }
    println!("{tried:?}");
    assert_eq!(tried.cuts, 1_000);
    assert!(tried.others > 200 && tried.lower > 20);
}

/// The index that is read on to points at an earlier index of the data partition:
/// the longer read keeps fewer of its elements, and a lower generation.
#[test]
fn more_indexes_with_fewer_data_elements_and_a_lower_generation() {
    let mut random = Random::new(5);
    let random = &mut random;
    let label = Label {
        block_size: 1_048_576,
        ..random::label(random)
    };
    let letters = label.letters;
    let vol1 = random::vol1(random);
    let [mut index, mut data] = [letters.index, letters.data].map(|location| {
        let mut side = TapeSide::default();
        let label = Label {
            location,
            ..label.clone()
        };
        side.labels(&vol1, random::label_text(random, &label));
        side
    });
    let first = write_index(random, &mut data, &label, letters.data, 1, None);
    let second = write_index(random, &mut data, &label, letters.data, 5, Some(first));
    write_index(random, &mut index, &label, letters.index, 5, Some(second));
    let old = Read::of(&[index.clone(), data.clone()]);
    write_index(random, &mut index, &label, letters.index, 2, Some(first));
    let new = Read::of(&[index, data]);
    let cut = |numbers: [u64; 5]| {
        let [index_construct, data_construct, index_kept, data_kept, generation] = numbers;
        Ok(Cut {
            index_construct,
            data_construct,
            index_kept,
            data_kept,
            generation,
        })
    };
    assert_eq!(old.cut, cut([0, 1, 7, 10, 5]));
    assert_eq!(new.cut, cut([1, 0, 10, 7, 2]));
    let mut tried = Tried::default();
    tried.hold(&old, &new);
    assert_eq!((tried.cuts, tried.others, tried.lower), (1, 1, 1));
}

/// Each element behind the labels as an unreadable block: of the two reads either has
/// all that the other's cut keeps where that ends before the element.
#[test]
fn elements_that_one_read_has_and_the_other_not() {
    let mut random = Random::new(0x5eed_0014);
    let (mut worn_first, mut worn_second) = (Tried::default(), Tried::default());
    for _ in 0..60 {
        let (tape, _, whole, _) = read_with_cut(&mut random);
        for (side, n) in
            (0..2).flat_map(|side| (4..tape[side].elements.len()).map(move |n| (side, n)))
        {
            let mut other = tape.clone();
            other[side].elements[n] = Unreadable;
            let worn = Read::of(&other);
            let ends_before = |read: &Read| {
                read.cut
                    .is_ok_and(|cut| [cut.index_kept, cut.data_kept][side] <= n as u64)
            };
            if ends_before(&worn) {
                worn_first.hold_cut(&worn, &whole);
            }
            if ends_before(&whole) {
                worn_second.hold_cut(&whole, &worn);
            }
        }
    }
    assert!(
        worn_first.others > 20 && worn_second.cuts > 20,
        "{worn_first:?} {worn_second:?}"
    );
}

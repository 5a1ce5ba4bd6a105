//! Random ANSI labelled tapes from a seed: in the layout, and with one thing or
//! two wrong that are near to it.

// What `Tape::change` calls may change a block's length, and not all do.
#![allow(clippy::ptr_arg)]

use crate::ansi;
use crate::random::{damage_bytes, Random, TapeElement, TapeSide};

/// What is asked of the reader: a list, a store, and how many bytes are lent.
#[derive(Clone, Debug, PartialEq, Eq)]
pub struct AnsiCase {
    pub list: Vec<u8>,
    pub store: Vec<u8>,
    pub room: usize,
}

/// One tape in four is in the layout; the list of one in twelve is malformed.
pub fn case(random: &mut Random) -> AnsiCase {
    let mut tape = tape(random);
    let room = room(random, tape.files());
    if !random.one_in(4) {
        for _ in 0..1 + random.below(4) / 3 {
            damage(random, &mut tape);
        }
    }
    let side = tape.side();
    let (mut list, mut store) = (side.list(), side.store());
    if random.one_in(12) {
        damage_list(random, &mut list, &mut store);
    }
    AnsiCase { list, store, room }
}

/// Mostly about as many bytes as the files need.
fn room(random: &mut Random, files: usize) -> usize {
    let exact = ansi::FILE * files;
    match random.below(8) {
        0 => 0,
        1 => exact - 1,
        2 => exact - 1 - random.below(exact),
        3 => exact + 1,
        4 => exact + random.below(100),
        5 => exact + ansi::FILE,
        _ => exact,
    }
}

// ---- Tapes in the layout ----

/// What an element of a tape is there for.
#[derive(Clone, Copy, Debug, PartialEq, Eq)]
pub enum Role {
    Volume,
    FirstHeader,
    SecondHeader,
    FirstTrailer,
    SecondTrailer,
    Numbered,
    User,
    Data,
    Mark,
}

/// A tape being written.
#[derive(Clone, Debug, Default)]
pub struct Tape {
    elements: Vec<(Role, TapeElement)>,
}

impl Tape {
    pub fn side(&self) -> TapeSide {
        TapeSide {
            elements: self.elements.iter().map(|(_, it)| it.clone()).collect(),
        }
    }

    /// How many files it was written with.
    pub fn files(&self) -> usize {
        self.places(&[Role::FirstHeader]).len()
    }

    fn block(&mut self, role: Role, bytes: Vec<u8>) {
        self.elements.push((role, TapeElement::Block(bytes)));
    }

    fn mark(&mut self) {
        self.elements.push((Role::Mark, TapeElement::Mark));
    }

    /// The places of elements in one of these roles.
    fn places(&self, roles: &[Role]) -> Vec<usize> {
        let is_one = |at: &usize| roles.contains(&self.elements[*at].0);
        (0..self.elements.len()).filter(is_one).collect()
    }

    /// One of these places, if there are any.
    fn place(&self, random: &mut Random, roles: &[Role]) -> Option<usize> {
        let places = self.places(roles);
        (!places.is_empty()).then(|| places[random.below(places.len())])
    }

    /// Changes one of the blocks in these roles. Labels that are cut short already, and
    /// tapes without such a block, are left as they are.
    fn change(
        &mut self,
        random: &mut Random,
        roles: &[Role],
        with: impl Fn(&mut Random, &mut Vec<u8>),
    ) {
        if let Some(at) = self.place(random, roles) {
            let (role, element) = &mut self.elements[at];
            let least = if *role == Role::Data { 1 } else { 80 };
            if let Some(bytes) = element.bytes_mut().filter(|bytes| bytes.len() >= least) {
                with(random, bytes);
            }
        }
    }
}

/// A label: the word, and any bytes or what looks like them.
fn label(random: &mut Random, word: &str) -> Vec<u8> {
    let plain = random.one_in(2);
    let mut bytes = word.as_bytes().to_vec();
    while bytes.len() < 80 {
        bytes.push(match plain {
            true => b' ' + random.below(64) as u8,
            false => random.draw() as u8,
        });
    }
    bytes
}

fn set_digits(random: &mut Random, bytes: &mut [u8]) {
    bytes.fill_with(|| b'0' + random.below(10) as u8);
}

fn set_count(label: &mut [u8], count: usize) {
    label[54..60].copy_from_slice(format!("{:06}", count % 1_000_000).as_bytes());
}

/// Some of the labels with the word and a number from `lowest` on, then user labels.
fn optional(random: &mut Random, tape: &mut Tape, word: &str, lowest: usize, user: &str) {
    let one_in = *random.pick(&[&1, &3, &8, &100]);
    for number in lowest..=9 {
        if random.one_in(one_in) {
            let bytes = label(random, &format!("{word}{number}"));
            tape.block(Role::Numbered, bytes);
        }
    }
    if random.one_in(3) {
        for _ in 0..1 + random.below(3) {
            let bytes = label(random, user);
            tape.block(Role::User, bytes);
        }
    }
}

fn data_block(random: &mut Random, header: &[u8]) -> Vec<u8> {
    match random.below(12) {
        0 => {
            let word = random.pick(&["EOF1", "EOV1", "HDR1", "UTL1"]);
            label(random, word)
        }
        1 => {
            // The trailer that the file could have.
            let mut bytes = header.to_vec();
            bytes[..4].copy_from_slice(b"EOF1");
            set_count(&mut bytes, random.below(3));
            bytes
        }
        2 if random.one_in(4) => vec![random.draw() as u8; 20_480],
        3 => vec![random.draw() as u8; 18],
        _ => vec![random.draw() as u8; 18 + random.below(90)],
    }
}

fn file(random: &mut Random, tape: &mut Tape) {
    let header = label(random, "HDR1");
    let mut second = label(random, "HDR2");
    second[4] = *random.pick(&[&b'F', &b'D', &b'S']);
    set_digits(random, &mut second[5..15]);
    tape.block(Role::FirstHeader, header.clone());
    tape.block(Role::SecondHeader, second);
    optional(random, tape, "HDR", 3, "UHL");
    tape.mark();
    let blocks = *random.pick(&[&0, &1, &2, &3, &11]);
    for _ in 0..blocks {
        let bytes = data_block(random, &header);
        tape.block(Role::Data, bytes);
    }
    tape.mark();
    let mut trailer = header;
    trailer[..4].copy_from_slice(b"EOF1");
    set_count(&mut trailer, blocks);
    tape.block(Role::FirstTrailer, trailer);
    let second = label(random, "EOF2");
    tape.block(Role::SecondTrailer, second);
    optional(random, tape, "EOF", 3, "UTL");
    tape.mark();
}

/// A tape in the layout, of one to three files.
pub fn tape(random: &mut Random) -> Tape {
    let mut tape = Tape::default();
    let mut volume = label(random, "VOL1");
    volume[79] = *random.pick(&[&b'3', &b'4']);
    tape.block(Role::Volume, volume);
    optional(random, &mut tape, "VOL", 2, "UVL");
    for _ in 0..*random.pick(&[&1, &1, &2, &3]) {
        file(random, &mut tape);
    }
    tape.mark();
    tape
}

// ---- Damage ----

const LABELS: [Role; 7] = [
    Role::Volume,
    Role::FirstHeader,
    Role::SecondHeader,
    Role::FirstTrailer,
    Role::SecondTrailer,
    Role::Numbered,
    Role::User,
];

/// Something that is wrong, or nearly.
pub fn damage(random: &mut Random, tape: &mut Tape) {
    match random.below(23) {
        0 | 1 => damage_trailer(random, tape),
        2 | 3 => tape.change(random, &[Role::FirstTrailer], other_count),
        4 => drop_or_add_data(random, tape),
        5..=7 | 21 => end_of_volume(random, tape),
        8 => tape.change(random, &LABELS, other_word),
        9 => tape.change(random, &LABELS, other_length),
        10 => tape.change(random, &[Role::Data], other_data_length),
        11 | 12 => damage_numbering(random, tape),
        13 => damage_end(random, tape),
        14 => tape.change(random, &[Role::Volume, Role::SecondHeader], other_value),
        15 => damage_elements(random, tape),
        16 => few_elements(random, tape),
        17 | 18 => stray_label(random, tape),
        19 | 20 => lose_block(random, tape),
        _ => tape.change(random, &LABELS, |random, bytes| {
            bytes[random.below(80)] = random.draw() as u8;
        }),
    }
}

/// Six other digits, most of them near the right number.
fn other_count(random: &mut Random, label: &mut Vec<u8>) {
    let told = label[54..60]
        .iter()
        .fold(0, |value, digit| 10 * value + usize::from(digit % 16));
    match random.below(5) {
        0 => set_digits(random, &mut label[54..60]),
        1 => label[54] ^= 1,
        2 => set_count(label, told.saturating_sub(1)),
        _ => set_count(label, told + 1),
    }
}

/// A byte that must be HDR1's, or one of the digits; at times the count too.
fn damage_trailer(random: &mut Random, tape: &mut Tape) {
    tape.change(random, &[Role::FirstTrailer], |random, label| {
        if random.one_in(2) {
            other_count(random, label);
        }
        match random.below(3) {
            0 => label[54 + random.below(6)] = *random.pick(&[&b'/', &b':', &b' ', &b'+', &0xb0]),
            1 => label[*random.pick(&[&4, &53, &60, &79])] ^= 1,
            _ => label[4 + random.below(76)] ^= 1 << random.below(8),
        }
    });
}

fn drop_or_add_data(random: &mut Random, tape: &mut Tape) {
    let Some(at) = tape.place(random, &[Role::Data]) else {
        return;
    };
    if random.one_in(2) {
        tape.elements.remove(at);
    } else {
        let again = tape.elements[at].clone();
        tape.elements.insert(at, again);
    }
}

/// EOV1, mostly in EOF1's place.
fn end_of_volume(random: &mut Random, tape: &mut Tape) {
    let roles = match random.below(6) {
        0 => &LABELS[..],
        1 => &[Role::SecondTrailer][..],
        _ => &[Role::FirstTrailer],
    };
    tape.change(random, roles, |random, bytes| {
        bytes[..4].copy_from_slice(b"EOV1");
        match random.below(8) {
            0 => other_length(random, bytes),
            1 => bytes[3] = b'2',
            2 => bytes[10] ^= 1,
            _ => {}
        }
    });
}

fn other_word(random: &mut Random, bytes: &mut Vec<u8>) {
    const WORDS: [&str; 20] = [
        "VOL1", "VOL2", "VOL9", "UVL1", "HDR1", "HDR2", "HDR3", "HDR9", "UHL1", "EOF1", "EOF2",
        "EOF3", "EOF9", "EOF:", "UTL1", "EOV1", "EOV2", "eof1", "ULT1", "    ",
    ];
    if random.one_in(2) {
        bytes[random.below(4)] ^= 1 << random.below(8);
    } else {
        bytes[..4].copy_from_slice(random.pick(&WORDS).as_bytes());
    }
}

fn other_length(random: &mut Random, bytes: &mut Vec<u8>) {
    match random.below(3) {
        0 => bytes.truncate(79),
        1 => bytes.push(b'3'),
        _ => bytes.truncate(1 + random.below(79)),
    }
}

fn other_data_length(random: &mut Random, bytes: &mut Vec<u8>) {
    bytes.resize(*random.pick(&[&1, &17, &17, &18, &20_480, &20_481]), b'd');
}

/// The version, the record format, or a digit of a length.
fn other_value(random: &mut Random, label: &mut Vec<u8>) {
    if label.starts_with(b"VOL1") {
        label[79] = *random.pick(&[&b'2', &b'3', &b'4', &b'5', &b' ', &0]);
    } else if random.one_in(2) {
        label[4] = *random.pick(&[&b'F', &b'D', &b'S', &b'U', &b'V', &b'f', &b' ', &b'E']);
    } else {
        label[5 + random.below(11)] = *random.pick(&[&b'/', &b'0', &b'9', &b':', &b' ']);
    }
}

/// Numbers that are equal or fall, or a user label before a numbered one.
fn damage_numbering(random: &mut Random, tape: &mut Tape) {
    const OPTIONAL: [Role; 2] = [Role::Numbered, Role::User];
    const BEFORE: [Role; 3] = [Role::Volume, Role::SecondHeader, Role::SecondTrailer];
    let roles = *random.pick(&[&&OPTIONAL[..], &&OPTIONAL[..], &&BEFORE[..]]);
    let Some(at) = tape.place(random, roles) else {
        return;
    };
    match random.below(4) {
        0 => {
            let again = tape.elements[at].clone();
            tape.elements.insert(at, again);
        }
        1 => {
            let next = (at + 1).min(tape.elements.len() - 1);
            tape.elements.swap(at, next);
        }
        2 => tape.elements.swap(at.saturating_sub(1), at),
        _ => tape.change(random, &OPTIONAL, |random, label| {
            label[3] = b'0' + random.below(11) as u8;
        }),
    }
}

/// An optional label where it may be none.
fn stray_label(random: &mut Random, tape: &mut Tape) {
    const PLACES: [Role; 5] = [
        Role::FirstHeader,
        Role::SecondHeader,
        Role::FirstTrailer,
        Role::SecondTrailer,
        Role::Mark,
    ];
    let place = PLACES[random.below(PLACES.len())];
    if let Some(at) = tape.place(random, &[place]) {
        let word = random.pick(&["VOL9", "UVL1", "HDR9", "UHL1", "EOF9", "UTL1"]);
        let bytes = label(random, word);
        tape.elements
            .insert(at, (Role::Numbered, TapeElement::Block(bytes)));
    }
}

/// The last mark, and what is behind it.
fn damage_end(random: &mut Random, tape: &mut Tape) {
    match random.below(6) {
        0 => {
            tape.elements.pop();
        }
        1 => tape.mark(),
        2 => tape.block(Role::Data, vec![b'x'; 1 + random.below(90)]),
        3 => {
            let bytes = label(random, "HDR1");
            tape.block(Role::FirstHeader, bytes);
        }
        4 => file(random, tape),
        _ => {
            let kept = random.below(tape.elements.len() + 1);
            tape.elements.truncate(kept);
        }
    }
}

/// Elements taken out, put in, repeated or exchanged.
fn damage_elements(random: &mut Random, tape: &mut Tape) {
    let elements = &mut tape.elements;
    if elements.is_empty() {
        return;
    }
    let (at, other) = (random.below(elements.len()), random.below(elements.len()));
    match random.below(5) {
        0 => {
            elements.remove(at);
        }
        1 => elements.insert(at, (Role::Mark, TapeElement::Mark)),
        2 => {
            let again = elements[other].clone();
            elements.insert(at, again);
        }
        3 => elements.swap(at, other),
        _ => elements[at] = (Role::Mark, TapeElement::Mark),
    }
}

/// A block that the drive couldn't read, or one more.
fn lose_block(random: &mut Random, tape: &mut Tape) {
    let at = random.below(tape.elements.len() + 1);
    match tape.elements.get_mut(at) {
        Some((_, element)) if random.one_in(2) => *element = TapeElement::Unreadable,
        _ => tape
            .elements
            .insert(at, (Role::Data, TapeElement::Unreadable)),
    }
}

/// No files, or nothing at all.
fn few_elements(random: &mut Random, tape: &mut Tape) {
    let first = tape.places(&[Role::FirstHeader]).first().copied();
    let volume = first.unwrap_or(0).min(tape.elements.len());
    tape.elements.truncate(random.below(2) * volume);
    for _ in 0..random.below(3) {
        tape.mark();
    }
}

/// A list that is malformed or doesn't fit its store.
fn damage_list(random: &mut Random, list: &mut Vec<u8>, store: &mut Vec<u8>) {
    match random.below(6) {
        0 => store.push(b'x'),
        1 => {
            store.pop();
        }
        2 => list.push(*random.pick(&[&0, &4, &2, &255])),
        3 => list.extend([2, 0, 0, 0, 0]),
        4 => damage_bytes(random, list),
        _ => damage_bytes(random, store),
    }
}

//! Random labels, indexes, rows and volumes from a seed: lawful ones in varied
//! spelling, and damaged ones.

use crate::extents::Row;
use crate::index::Place;
use crate::label::Label;
use crate::tape::{Letters, Side};
use crate::values::Version;
use crate::vol1::Vol1;
use crate::xml::{DECLARATION, MAX_NESTING};

// ---- The generator of numbers ----

/// SplitMix64: small, and the same on every machine.
#[derive(Clone, Debug)]
pub struct Random(u64);

impl Random {
    pub fn new(seed: u64) -> Self {
        Random(seed)
    }

    pub fn draw(&mut self) -> u64 {
        self.0 = self.0.wrapping_add(0x9E37_79B9_7F4A_7C15);
        let mut mixed = self.0;
        mixed = (mixed ^ (mixed >> 30)).wrapping_mul(0xBF58_476D_1CE4_E5B9);
        mixed = (mixed ^ (mixed >> 27)).wrapping_mul(0x94D0_49BB_1331_11EB);
        mixed ^ (mixed >> 31)
    }

    /// From 0 to `bound` - 1.
    pub fn below(&mut self, bound: usize) -> usize {
        (self.draw() % bound as u64) as usize
    }

    pub fn one_in(&mut self, n: usize) -> bool {
        self.below(n) == 0
    }

    pub fn pick<'a, T: ?Sized>(&mut self, from: &[&'a T]) -> &'a T {
        from[self.below(from.len())]
    }

    pub fn shuffle<T>(&mut self, items: &mut [T]) {
        for at in (1..items.len()).rev() {
            items.swap(at, self.below(at + 1));
        }
    }
}

// ---- Elements and their spelling ----

/// An element to be spelled. The text is decoded.
#[derive(Clone, Debug)]
pub struct Node {
    pub name: String,
    pub attribute: Option<(String, String)>,
    pub text: String,
    pub is_number: bool,
    pub children: Vec<Node>,
}

impl Node {
    pub fn value(name: &str, text: impl Into<String>) -> Node {
        Node {
            name: name.into(),
            attribute: None,
            text: text.into(),
            is_number: false,
            children: Vec::new(),
        }
    }

    pub fn number(name: &str, number: u64) -> Node {
        Node {
            is_number: true,
            ..Node::value(name, number.to_string())
        }
    }

    pub fn parent(name: &str, children: Vec<Node>) -> Node {
        Node {
            name: name.into(),
            attribute: None,
            text: String::new(),
            is_number: false,
            children,
        }
    }

    pub fn with_attribute(mut self, name: &str, value: &str) -> Node {
        self.attribute = Some((name.into(), value.into()));
        self
    }
}

/// What a spelling may vary, drawn once for a text.
struct Spelling {
    white_in_tags: bool,
    white_between: bool,
    other_order: bool,
    padded_numbers: bool,
}

/// The text of a document with this root, in a lawful spelling.
pub fn document(random: &mut Random, root: &Node) -> Vec<u8> {
    let spelling = Spelling {
        white_in_tags: random.one_in(3),
        white_between: random.one_in(2),
        other_order: random.one_in(2),
        padded_numbers: random.one_in(3),
    };
    let mut text = DECLARATION.to_string();
    text.push_str(random.pick(&["", "\n", "\r\n \t"]));
    spell(random, root, &spelling, &mut text);
    text.push_str(random.pick(&["", "\n", " \n\t"]));
    text.into_bytes()
}

fn spell(random: &mut Random, node: &Node, spelling: &Spelling, text: &mut String) {
    let tag_white = |random: &mut Random| {
        if spelling.white_in_tags {
            random.pick(&["", "", " ", "\n", "\t "])
        } else {
            ""
        }
    };
    text.push('<');
    text.push_str(&node.name);
    if let Some((name, value)) = &node.attribute {
        text.push_str(random.pick(&[" ", " ", "\n", "  "]));
        text.push_str(name);
        text.push_str(tag_white(random));
        text.push('=');
        text.push_str(tag_white(random));
        let quote = if random.one_in(2) { '"' } else { '\'' };
        text.push(quote);
        for character in value.chars() {
            spell_character(random, character, quote, text);
        }
        text.push(quote);
    }
    text.push_str(tag_white(random));
    if node.children.is_empty() && node.text.is_empty() && random.one_in(2) {
        text.push_str("/>");
        return;
    }
    text.push('>');
    if node.is_number && spelling.padded_numbers {
        text.push_str(&padded(random, &node.text));
    } else {
        for character in node.text.chars() {
            spell_character(random, character, '\0', text);
        }
    }
    let mut children: Vec<&Node> = node.children.iter().collect();
    if spelling.other_order {
        random.shuffle(&mut children);
    }
    for child in children {
        if spelling.white_between {
            text.push_str(random.pick(&["", " ", "\n", "\r\n", "\t", "\n  "]));
        }
        spell(random, child, spelling, text);
    }
    if spelling.white_between && !node.children.is_empty() {
        text.push_str(random.pick(&["", "\n"]));
    }
    text.push_str("</");
    text.push_str(&node.name);
    text.push_str(tag_white(random));
    text.push('>');
}

/// A character as itself where it may stand so, else as a reference.
fn spell_character(random: &mut Random, character: char, quote: char, text: &mut String) {
    let reference = match character {
        '&' => "&amp;",
        '<' => "&lt;",
        '>' => "&gt;",
        '"' => "&quot;",
        '\'' => "&apos;",
        _ => return text.push(character),
    };
    let must = matches!(character, '&' | '<')
        || character == quote
        || (character == '>' && text.ends_with("]]"));
    if must || random.one_in(2) {
        text.push_str(reference);
    } else {
        text.push(character);
    }
}

/// The same number with white space around it, a sign or leading zeros.
fn padded(random: &mut Random, number: &str) -> String {
    let white = ["", "", " ", "\n", "\r\n\t", "  \t"];
    let minus = if number == "0" { "-" } else { "+" };
    format!(
        "{}{}{}{number}{}",
        random.pick(&white),
        random.pick(&["", "", "+", minus]),
        random.pick(&["", "", "0", "00000000000000000000000"]),
        random.pick(&white)
    )
}

/// A text of any elements, in which all that the form has may stand; broken or not.
pub fn form_text(random: &mut Random) -> Vec<u8> {
    let node = match random.one_in(12) {
        true => nested_node(random),
        false => any_node(random, 2),
    };
    let mut text = document(random, &node);
    match random.below(8) {
        0 => {}
        1 => damage_text(random, &mut text),
        _ => break_text(random, &mut text),
    }
    text
}

fn any_node(random: &mut Random, depth: usize) -> Node {
    const NAMES: [&str; 4] = ["a", "ab", "a.b-c_1", "Z"];
    const TEXTS: [&str; 7] = ["", "", "x", "&", "<\"'>]]>", "é\u{D7FF}\u{10FFFF}", "]] >"];
    let mut node = Node::value(random.pick(&NAMES), "");
    if random.one_in(2) {
        node = node.with_attribute(random.pick(&NAMES), random.pick(&TEXTS));
    }
    match depth > 0 && random.one_in(2) {
        true => {
            let children = 1 + random.below(2);
            node.children = (0..children).map(|_| any_node(random, depth - 1)).collect();
        }
        false => node.text = random.pick(&TEXTS).into(),
    }
    node
}

/// Elements one in the other, to the bound or one more.
fn nested_node(random: &mut Random) -> Node {
    let mut node = Node::value("a", "");
    for _ in 0..MAX_NESTING - random.below(2) {
        node = Node::parent("a", vec![node]);
    }
    node
}

// ---- Values ----

fn time(random: &mut Random) -> String {
    match random.below(6) {
        0 => "0000-01-01T00:00:00.000000000Z".into(),
        1 => "9999-12-31T23:59:59.999999999Z".into(),
        _ => format!(
            "{:04}-{:02}-{:02}T{:02}:{:02}:{:02}.{:09}Z",
            1990 + random.below(50),
            1 + random.below(12),
            1 + random.below(31),
            random.below(24),
            random.below(60),
            random.below(60),
            random.below(1_000_000_000)
        ),
    }
}

fn uuid(random: &mut Random) -> String {
    let digits = format!("{:016x}{:016x}", random.draw(), random.draw());
    let text = format!(
        "{}-{}-{}-{}-{}",
        &digits[..8],
        &digits[8..12],
        &digits[12..16],
        &digits[16..20],
        &digits[20..]
    );
    if random.one_in(4) {
        text.to_uppercase()
    } else {
        text
    }
}

/// The same UUID, at times with some of its letters in the other case.
fn respelled(random: &mut Random, uuid: &[u8]) -> Vec<u8> {
    let mut spelled = uuid.to_vec();
    match random.below(6) {
        0 => spelled.make_ascii_uppercase(),
        1 => spelled.make_ascii_lowercase(),
        2 => {
            for byte in spelled.iter_mut().filter(|byte| byte.is_ascii_alphabetic()) {
                if random.one_in(2) {
                    *byte ^= 0x20;
                }
            }
        }
        _ => {}
    }
    spelled
}

/// A UUID that differs in one digit.
pub fn another_uuid(random: &mut Random, uuid: &[u8]) -> Vec<u8> {
    loop {
        let mut other = uuid.to_vec();
        let at = random.below(other.len());
        let digit = b"0123456789abcdefABCDEF"[random.below(22)];
        if other[at] != b'-' && !digit.eq_ignore_ascii_case(&other[at]) {
            other[at] = digit;
            return other;
        }
    }
}

fn creator(random: &mut Random) -> String {
    match random.below(7) {
        0 => "LTFS".into(),
        1 => " ".into(),
        2 => "a&b<c>d\"e'f".into(),
        3 => "]]>".into(),
        4 => "Ünïcode ✓ 𝄞".into(),
        5 => "c".repeat(255),
        _ => "x".into(),
    }
}

fn name(random: &mut Random) -> String {
    match random.below(8) {
        0 => " spaced ".into(),
        1 => "a]]>b".into(),
        2 => ".".into(),
        3 => "A&lt;B&amp;".into(),
        4 => "日本:語".into(),
        5 => "é".repeat(255),
        _ => format!("file{}", random.below(1000)),
    }
}

fn boolean(random: &mut Random, value: bool) -> &'static str {
    match (value, random.one_in(2)) {
        (true, false) => "true",
        (true, true) => "1",
        (false, false) => "false",
        (false, true) => "0",
    }
}

// ---- Labels ----

pub fn vol1(random: &mut Random) -> Vol1 {
    let mut byte = || 32 + random.below(95) as u8;
    let mut identifier = [0; 6];
    identifier.fill_with(&mut byte);
    let mut owner = [0; 14];
    owner.fill_with(&mut byte);
    Vol1 { identifier, owner }
}

/// Lawful values; the label is the index side's.
pub fn label(random: &mut Random) -> Label {
    let letters = if random.one_in(3) {
        let index = random.below(26);
        let data = (index + 1 + random.below(25)) % 26;
        Letters {
            index: b'a' + index as u8,
            data: b'a' + data as u8,
        }
    } else {
        Letters {
            index: b'a',
            data: b'b',
        }
    };
    let block_size = match random.below(8) {
        0 => 4_097,
        1 => 5_000,
        2 => 524_288,
        3 => 1_048_576,
        _ => 4_096,
    };
    Label {
        version: Version(2, 0, *random.pick(&[&0u16, &1, &1, &9, &65_535])),
        creator: creator(random).into_bytes(),
        format_time: time(random).into_bytes(),
        uuid: uuid(random).into_bytes(),
        location: letters.index,
        letters,
        block_size,
        compression: random.one_in(2),
    }
}

fn as_text(bytes: &[u8]) -> String {
    String::from_utf8_lossy(bytes).into_owned()
}

fn letter_text(letter: u8) -> String {
    char::from(letter).to_string()
}

fn version_text(version: Version) -> String {
    format!("{}.{}.{}", version.0, version.1, version.2)
}

pub fn label_node(random: &mut Random, label: &Label) -> Node {
    Node::parent(
        "ltfslabel",
        vec![
            Node::value("creator", as_text(&label.creator)),
            Node::value("formattime", as_text(&label.format_time)),
            Node::value("volumeuuid", as_text(&label.uuid)),
            Node::parent(
                "location",
                vec![Node::value("partition", letter_text(label.location))],
            ),
            Node::parent(
                "partitions",
                vec![
                    Node::value("index", letter_text(label.letters.index)),
                    Node::value("data", letter_text(label.letters.data)),
                ],
            ),
            Node::number("blocksize", label.block_size),
            Node::value("compression", boolean(random, label.compression)),
        ],
    )
    .with_attribute("version", &version_text(label.version))
}

/// The label's text in a lawful spelling.
pub fn label_text(random: &mut Random, label: &Label) -> Vec<u8> {
    let node = label_node(random, label);
    document(random, &node)
}

// ---- Tapes ----

/// An element being written, or one that the drive couldn't read back.
#[derive(Clone, Debug, PartialEq, Eq)]
pub enum TapeElement {
    Mark,
    Block(Vec<u8>),
    Unreadable,
}

impl TapeElement {
    /// A block's bytes, as far as they are known.
    pub fn bytes(&self) -> Option<&Vec<u8>> {
        match self {
            TapeElement::Block(bytes) => Some(bytes),
            TapeElement::Mark | TapeElement::Unreadable => None,
        }
    }

    pub fn bytes_mut(&mut self) -> Option<&mut Vec<u8>> {
        match self {
            TapeElement::Block(bytes) => Some(bytes),
            TapeElement::Mark | TapeElement::Unreadable => None,
        }
    }
}

/// A partition being written.
#[derive(Clone, Debug, Default, PartialEq, Eq)]
pub struct TapeSide {
    pub elements: Vec<TapeElement>,
}

impl TapeSide {
    pub fn list(&self) -> Vec<u8> {
        let mut list = Vec::new();
        for element in &self.elements {
            match element {
                TapeElement::Mark => list.push(1),
                TapeElement::Block(bytes) => {
                    list.push(2);
                    list.extend_from_slice(&(bytes.len() as u32).to_be_bytes());
                }
                TapeElement::Unreadable => list.push(3),
            }
        }
        list
    }

    pub fn store(&self) -> Vec<u8> {
        let blocks = self.elements.iter().filter_map(TapeElement::bytes);
        blocks.flatten().copied().collect()
    }

    pub fn mark(&mut self) {
        self.elements.push(TapeElement::Mark);
    }

    pub fn block(&mut self, bytes: Vec<u8>) {
        self.elements.push(TapeElement::Block(bytes));
    }

    pub fn unreadable(&mut self) {
        self.elements.push(TapeElement::Unreadable);
    }

    /// A label construct.
    pub fn labels(&mut self, vol1: &Vol1, label_text: Vec<u8>) {
        self.block(vol1.bytes().to_vec());
        self.mark();
        self.block(label_text);
        self.mark();
    }

    /// An index construct, the text in blocks of the block size.
    pub fn index(&mut self, text: &[u8], block_size: u64) {
        self.mark();
        for block in text.chunks(block_size as usize) {
            self.block(block.to_vec());
        }
        self.mark();
    }
}

/// The four files of a volume.
#[derive(Clone, Debug, PartialEq, Eq)]
pub struct VolumeFiles {
    pub index_list: Vec<u8>,
    pub index_store: Vec<u8>,
    pub data_list: Vec<u8>,
    pub data_store: Vec<u8>,
}

impl VolumeFiles {
    pub fn of(index: &TapeSide, data: &TapeSide) -> Self {
        VolumeFiles {
            index_list: index.list(),
            index_store: index.store(),
            data_list: data.list(),
            data_store: data.store(),
        }
    }

    pub fn index(&self) -> Side<'_> {
        Side {
            list: &self.index_list,
            store: &self.index_store,
        }
    }

    pub fn data(&self) -> Side<'_> {
        Side {
            list: &self.data_list,
            store: &self.data_store,
        }
    }
}

// ---- Indexes ----

/// A data block on a tape: its partition, element number and length.
#[derive(Clone, Copy, Debug)]
pub struct DataBlock {
    pub letter: u8,
    pub number: u64,
    pub length: u64,
}

/// What an index says of itself and its volume.
#[derive(Clone, Debug)]
pub struct Header {
    pub generation: u64,
    pub location: Place,
    pub back_pointer: Option<Place>,
}

/// An extent of at least one byte on the given data blocks, which are in order of
/// partition and number; file offset 0.
fn extent(random: &mut Random, blocks: &[DataBlock], block_size: u64) -> Option<Row> {
    if blocks.is_empty() {
        return None;
    }
    let first = random.below(blocks.len());
    let start = blocks[first];
    let mut last = first;
    while random.one_in(2)
        && blocks[last].length == block_size
        && last + 1 < blocks.len()
        && blocks[last + 1].letter == start.letter
        && blocks[last + 1].number == blocks[last].number + 1
    {
        last += 1;
    }
    let byte_offset = if random.one_in(2) {
        0
    } else {
        random.draw() % start.length
    };
    let before_last = (last - first) as u64 * block_size;
    // The end must lie in the last block and past the offset.
    let least_end = before_last.max(byte_offset) + 1;
    let greatest_end = before_last + blocks[last].length;
    let end = match random.below(3) {
        0 => least_end,
        1 => greatest_end,
        _ => least_end + random.draw() % (greatest_end - least_end + 1),
    };
    Some(Row {
        letter: start.letter,
        start_block: start.number,
        byte_offset,
        byte_count: end - byte_offset,
        file_offset: 0,
    })
}

/// Lawful rows on the blocks, and a lawful length for them.
fn rows(random: &mut Random, blocks: &[DataBlock], block_size: u64) -> (Vec<Row>, u64) {
    let mut rows = Vec::new();
    let mut position = 0;
    for _ in 0..random.below(4) {
        if random.one_in(3) {
            position += 1 + random.draw() % 20;
        }
        if let Some(row) = extent(random, blocks, block_size) {
            rows.push(Row {
                file_offset: position,
                ..row
            });
            position += row.byte_count;
        }
    }
    random.shuffle(&mut rows);
    let sparse_end = if random.one_in(3) {
        random.draw() % 100
    } else {
        0
    };
    (rows, position + sparse_end)
}

/// Text and elements for a part that readers skip.
fn skipped(random: &mut Random, name: &str) -> Node {
    match random.below(3) {
        0 => Node::parent(name, vec![]),
        1 => Node::value(name, "any & text"),
        _ => Node::parent(
            name,
            vec![Node::parent(
                "xattr",
                vec![
                    Node::value("key", "A&B"),
                    Node::value("value", "/42n2Q==").with_attribute("type", "base64"),
                    Node::parent("file", vec![Node::value("length", "x")]),
                ],
            )],
        ),
    }
}

fn entry_nodes(random: &mut Random, uid: u64, name: String) -> Vec<Node> {
    let read_only = random.one_in(2);
    let mut nodes = vec![
        Node::number("fileuid", uid),
        Node::value("name", name),
        Node::value("readonly", boolean(random, read_only)),
    ];
    for element in [
        "creationtime",
        "changetime",
        "modifytime",
        "accesstime",
        "backuptime",
    ] {
        nodes.push(Node::value(element, time(random)));
    }
    if random.one_in(6) {
        nodes.push(skipped(random, "extendedattributes"));
    }
    nodes
}

/// How deep directories nest, and that one entry in so many is a directory.
pub struct Tree {
    pub depth: usize,
    pub directories: usize,
}

/// That of the indexes of a volume.
pub const SHALLOW: Tree = Tree {
    depth: 3,
    directories: 3,
};

/// What the entries of an index are drawn from.
struct Pool<'a> {
    blocks: &'a [DataBlock],
    block_size: u64,
    next_uid: u64,
    uid_step: u64,
    directories: usize,
}

impl Pool<'_> {
    fn uid(&mut self) -> u64 {
        self.next_uid += self.uid_step;
        self.next_uid
    }
}

fn row_node(row: &Row) -> Node {
    Node::parent(
        "extent",
        vec![
            Node::value("partition", letter_text(row.letter)),
            Node::number("startblock", row.start_block),
            Node::number("byteoffset", row.byte_offset),
            Node::number("bytecount", row.byte_count),
            Node::number("fileoffset", row.file_offset),
        ],
    )
}

fn file_node(random: &mut Random, pool: &mut Pool) -> Node {
    let (uid, file_name) = (pool.uid(), name(random));
    let mut nodes = entry_nodes(random, uid, file_name);
    let (rows, length) = rows(random, pool.blocks, pool.block_size);
    nodes.push(Node::number("length", length));
    if !rows.is_empty() || random.one_in(2) {
        nodes.push(Node::parent(
            "extentinfo",
            rows.iter().map(row_node).collect(),
        ));
    }
    Node::parent("file", nodes)
}

fn directory_node(random: &mut Random, pool: &mut Pool, root: bool, depth: usize) -> Node {
    let (uid, directory_name) = if root {
        (
            1,
            if random.one_in(2) {
                String::new()
            } else {
                name(random)
            },
        )
    } else {
        (pool.uid(), name(random))
    };
    let mut nodes = entry_nodes(random, uid, directory_name);
    let mut contents = Vec::new();
    for _ in 0..random.below(4) {
        if depth > 0 && random.one_in(pool.directories) {
            contents.push(directory_node(random, pool, false, depth - 1));
        } else {
            contents.push(file_node(random, pool));
        }
    }
    nodes.push(Node::parent("contents", contents));
    Node::parent("directory", nodes)
}

fn place_node(element: &str, place: Place) -> Node {
    Node::parent(
        element,
        vec![
            Node::value("partition", letter_text(place.letter)),
            Node::number("startblock", place.start_block),
        ],
    )
}

/// A lawful index of the label's volume, its extents on the given data blocks.
pub fn index_node(
    random: &mut Random,
    label: &Label,
    header: &Header,
    blocks: &[DataBlock],
    tree: &Tree,
) -> Node {
    let update_policy = random.one_in(2);
    let version = Version(2, 0, *random.pick(&[&0u16, &1, &9, &65_535]));
    let mut pool = Pool {
        blocks,
        block_size: label.block_size,
        next_uid: 1,
        uid_step: 1 + random.draw() % 9,
        directories: tree.directories,
    };
    let directory = directory_node(random, &mut pool, true, tree.depth);
    let highest = if random.one_in(4) { 0 } else { pool.next_uid };
    let mut nodes = vec![
        Node::value("creator", creator(random)),
        Node::value("volumeuuid", as_text(&respelled(random, &label.uuid))),
        Node::number("generationnumber", header.generation),
        Node::value("updatetime", time(random)),
        place_node("location", header.location),
        Node::value("allowpolicyupdate", boolean(random, update_policy)),
        Node::number("highestfileuid", highest),
        directory,
    ];
    if let Some(place) = header.back_pointer {
        nodes.push(place_node("previousgenerationlocation", place));
    }
    if random.one_in(3) {
        // A long one makes an index of several blocks.
        let comment = match random.below(5) {
            0 => String::new(),
            1 | 2 => "long ".repeat(900),
            _ => "line\nline & <x>\t".into(),
        };
        nodes.push(Node::value("comment", comment));
    }
    if random.one_in(4) {
        nodes.push(skipped(random, "dataplacementpolicy"));
    }
    Node::parent("ltfsindex", nodes).with_attribute("version", &version_text(version))
}

/// A lawful index text with its label and place, for tests of the reader.
pub fn index_case(random: &mut Random) -> (Node, Label, Place) {
    let label = label(random);
    let letter = if random.one_in(2) {
        label.letters.index
    } else {
        label.letters.data
    };
    let location = Place {
        letter,
        start_block: 5 + random.draw() % 20,
    };
    let back_pointer = Place {
        letter: label.letters.data,
        start_block: random.draw() % 30,
    };
    let header = Header {
        generation: generation(random),
        location,
        back_pointer: random.one_in(2).then_some(back_pointer),
    };
    let blocks: Vec<DataBlock> = (0..6)
        .map(|at| DataBlock {
            letter: if at < 3 {
                label.letters.index
            } else {
                label.letters.data
            },
            number: 4 + at,
            length: if random.one_in(2) {
                label.block_size
            } else {
                1 + random.draw() % 4_096
            },
        })
        .collect();
    let tree = Tree {
        depth: *random.pick(&[&3, &3, &12]),
        directories: 2 + random.below(3),
    };
    let node = index_node(random, &label, &header, &blocks, &tree);
    (node, label, location)
}

fn generation(random: &mut Random) -> u64 {
    match random.below(4) {
        0 => 1,
        1 => u64::MAX - 40 + random.draw() % 20,
        _ => 1 + random.draw() % 10,
    }
}

// ---- Volumes ----

/// A volume being written, with what was written so far.
struct Writer<'a> {
    random: &'a mut Random,
    label: Label,
    index: TapeSide,
    data: TapeSide,
    blocks: Vec<DataBlock>,
    generation: u64,
    /// The data partition's indexes, oldest first.
    data_indexes: Vec<Place>,
    /// One in how many chances something unlawful is written; 0 for never.
    faults: usize,
    /// One in how many data blocks and indexes are not read back whole; 0 for none.
    lost: usize,
    /// Whether the index being written is the index partition's last.
    is_last: bool,
    /// Indexes of the index partition point at any of the data partition's. Each
    /// can still end a consistent cut, so several cuts compete.
    any_back_pointer: bool,
}

impl Writer<'_> {
    fn fault(&mut self) -> bool {
        self.faults > 0 && self.random.one_in(self.faults)
    }

    fn is_lost(&mut self) -> bool {
        self.lost > 0 && self.random.one_in(self.lost)
    }

    fn side(&mut self, letter: u8) -> &mut TapeSide {
        if letter == self.label.letters.index {
            &mut self.index
        } else {
            &mut self.data
        }
    }

    /// The label construct of the partition that the label is for.
    fn write_labels(&mut self, vol1: &Vol1, label: &Label) {
        let mut label = label.clone();
        let letter = label.location;
        let mut vol1 = vol1.clone();
        label.uuid = respelled(self.random, &label.uuid);
        if self.fault() {
            match self.random.below(6) {
                0 => vol1.owner[0] ^= 1,
                1 => label.creator = b"another".to_vec(),
                2 => label.compression = !label.compression,
                3 => label.version.2 ^= 1,
                4 => label.uuid = another_uuid(self.random, &label.uuid),
                _ => std::mem::swap(&mut label.letters.index, &mut label.letters.data),
            }
        }
        let mut node = label_node(self.random, &label);
        if self.fault() {
            damage_node(self.random, &mut node);
        }
        let text = document(self.random, &node);
        self.side(letter).labels(&vol1, text);
    }

    /// Data blocks for a data run, some of them full.
    fn write_data(&mut self, letter: u8) {
        for _ in 0..self.random.below(3) {
            let small = self.label.block_size == 4_096;
            let mut length = match self.random.below(4) {
                0 if small => 4_096,
                _ => 1 + self.random.draw() % 60,
            };
            if small && self.fault() {
                length = self.label.block_size + 1;
            }
            let number = self.side(letter).elements.len() as u64;
            let byte = self.random.draw() as u8;
            let is_lost = self.is_lost();
            match is_lost {
                true => self.side(letter).unreadable(),
                false => self.side(letter).block(vec![byte; length as usize]),
            }
            // An extent on a lost block is a fault of the volume.
            if !is_lost || (self.faults > 0 && self.random.one_in(3)) {
                self.blocks.push(DataBlock {
                    letter,
                    number,
                    length,
                });
            }
        }
        self.blocks
            .sort_by_key(|block| (block.letter, block.number));
    }

    fn write_index(&mut self, letter: u8) {
        let on_data = letter == self.label.letters.data;
        let place = Place {
            letter,
            start_block: self.side(letter).elements.len() as u64 + 1,
        };
        let mut header = Header {
            generation: self.generation,
            location: place,
            back_pointer: self.data_indexes.last().copied(),
        };
        if !on_data && self.any_back_pointer {
            let at = self.random.below(self.data_indexes.len());
            header.back_pointer = Some(self.data_indexes[at]);
        }
        if self.fault() {
            self.spoil_header(&mut header);
        }
        let mut blocks = self.blocks.clone();
        // More often than other faults: few indexes end a volume and have rows.
        if self.faults > 0 && self.random.one_in(10) {
            // Extents on blocks that are not there, not data, or shorter than told.
            let other = *self
                .random
                .pick(&[&self.label.letters.index, &self.label.letters.data]);
            let number = self.random.draw() % (self.side(other).elements.len() as u64 + 4);
            blocks = vec![DataBlock {
                letter: other,
                number,
                length: 1 + self.random.draw() % 70,
            }];
        }
        let mut label = self.label.clone();
        if self.fault() {
            label.uuid = another_uuid(self.random, &label.uuid);
        }
        let mut node = index_node(self.random, &label, &header, &blocks, &SHALLOW);
        if self.fault() {
            damage_node(self.random, &mut node);
        }
        let mut text = document(self.random, &node);
        if self.fault() {
            match self.random.one_in(2) {
                true => damage_text(self.random, &mut text),
                false => spoil_text(self.random, &mut text),
            }
        }
        let mut construct = self.construct_of(text, on_data || self.is_last);
        self.side(letter).elements.append(&mut construct.elements);
        if on_data {
            self.data_indexes.push(place);
        }
    }

    /// The construct of a text, as it is read back. Without faults it is whole where
    /// a verdict asks for it.
    fn construct_of(&mut self, mut text: Vec<u8>, is_asked_for: bool) -> TapeSide {
        let block_size = self.label.block_size;
        // White space that fills the last block: an unreadable one behind it is no defect.
        if block_size <= 5_000 && self.random.one_in(10) {
            text.resize(text.len().next_multiple_of(block_size as usize), b' ');
        }
        let mut construct = TapeSide::default();
        construct.index(&text, block_size);
        if self.fault() {
            self.spoil_construct(&mut construct);
        }
        if self.is_lost() && (!is_asked_for || (self.faults > 0 && self.random.one_in(2))) {
            let may_spoil = self.faults > 0;
            lose_block(self.random, &mut construct.elements, may_spoil);
        }
        construct
    }

    fn spoil_header(&mut self, header: &mut Header) {
        let place = Place {
            letter: *self.random.pick(&[
                &self.label.letters.index,
                &self.label.letters.data,
                &b'q',
            ]),
            start_block: self.random.draw() % 12,
        };
        match self.random.below(6) {
            0 => header.location.start_block += 1,
            1 => header.location = place,
            2 => header.generation = self.random.draw() % 3,
            3 => header.back_pointer = None,
            4 => header.back_pointer = Some(place),
            _ => {
                // An index written some generations ago.
                if !self.data_indexes.is_empty() {
                    let at = self.random.below(self.data_indexes.len());
                    header.back_pointer = Some(self.data_indexes[at]);
                }
            }
        }
    }

    fn spoil_construct(&mut self, construct: &mut TapeSide) {
        let elements = &mut construct.elements;
        let at = self.random.below(elements.len());
        match self.random.below(5) {
            0 => {
                elements.remove(at);
            }
            1 => elements.retain(|element| *element == TapeElement::Mark),
            2 => elements.insert(at, TapeElement::Mark),
            3 => elements.insert(at, TapeElement::Block(vec![b'x'; 7])),
            _ => elements.truncate(at),
        }
    }
}

/// The two sides of a volume and the index side's label. With `faults` 0 the
/// volume is consistent; else about one in `faults` chances something is
/// written wrong.
pub fn tape(random: &mut Random, faults: usize) -> (TapeSide, TapeSide, Label) {
    let label = label(random);
    let data_label = Label {
        location: label.letters.data,
        ..label.clone()
    };
    let vol1 = vol1(random);
    let generation = generation(random);
    let any_back_pointer = faults > 0 && random.one_in(3);
    let lost = *random.pick(&[&0, &0, &0, &0, &5, &10]);
    let mut writer = Writer {
        random,
        label: label.clone(),
        index: TapeSide::default(),
        data: TapeSide::default(),
        blocks: Vec::new(),
        generation,
        data_indexes: Vec::new(),
        faults,
        lost,
        is_last: false,
        any_back_pointer,
    };
    writer.write_labels(&vol1, &label);
    writer.write_labels(&vol1, &data_label);
    let letters = label.letters;
    if writer.random.one_in(2) {
        writer.write_data(letters.data);
    }
    writer.write_index(letters.data);
    for _ in 0..writer.random.below(7) {
        writer.generation = writer.generation.saturating_add(writer.random.draw() % 3);
        let letter = if writer.random.one_in(2) {
            letters.index
        } else {
            letters.data
        };
        writer.write_data(letter);
        writer.write_index(letter);
    }
    if !writer.fault() {
        writer.is_last = true;
        writer.write_data(letters.index);
        writer.write_index(letters.index);
    }
    let Writer { index, data, .. } = writer;
    (index, data, label)
}

/// A consistent volume.
pub fn volume(random: &mut Random) -> VolumeFiles {
    let (index, data, _) = tape(random, 0);
    VolumeFiles::of(&index, &data)
}

/// A volume with damage of one kind or several.
pub fn damaged_volume(random: &mut Random) -> VolumeFiles {
    let faults = *random.pick(&[&0, &60, &30]);
    let (mut index, mut data, _) = tape(random, faults);
    for _ in 0..random.below(3) {
        let side = if random.one_in(2) {
            &mut index
        } else {
            &mut data
        };
        damage_elements(random, side);
    }
    if random.one_in(16) {
        break_labels(random, &mut index, &mut data);
    }
    let mut files = VolumeFiles::of(&index, &data);
    if random.one_in(8) {
        damage_files(random, &mut files);
    }
    files
}

// ---- Damage ----

/// A block that the drive couldn't read: one of these elements' blocks, all of
/// them, one more before it, or one behind it. That is a defect where it is short.
fn lose_block(random: &mut Random, elements: &mut Vec<TapeElement>, may_spoil: bool) {
    let is_block = |at: &usize| elements[*at].bytes().is_some();
    let blocks: Vec<usize> = (0..elements.len()).filter(is_block).collect();
    if blocks.is_empty() {
        return;
    }
    let at = blocks[random.below(blocks.len())];
    match random.below(6) {
        0 => elements.insert(at, TapeElement::Unreadable),
        1 if may_spoil => elements.insert(at + 1, TapeElement::Unreadable),
        2 => {
            for at in blocks {
                elements[at] = TapeElement::Unreadable;
            }
        }
        _ => elements[at] = TapeElement::Unreadable,
    }
}

/// Changes elements of a tape, list and store together.
fn damage_elements(random: &mut Random, side: &mut TapeSide) {
    let elements = &mut side.elements;
    if elements.is_empty() {
        return;
    }
    // Mostly past the label construct, so that most volumes still have labels.
    let labels = if elements.len() > 4 && !random.one_in(8) {
        4
    } else {
        0
    };
    let at = labels + random.below(elements.len() - labels);
    match random.below(11) {
        0 | 1 => elements.truncate(at),
        8 => elements[at] = TapeElement::Unreadable,
        9 => elements.insert(at, TapeElement::Unreadable),
        10 => {
            // What the drive still counts behind a tear.
            let counted = at + 1 + random.below(3);
            elements.truncate(at);
            elements.resize(counted, TapeElement::Unreadable);
        }
        2 => {
            elements.remove(at);
        }
        3 => {
            let again = elements[at].clone();
            elements.insert(at, again);
        }
        4 => elements.insert(at, TapeElement::Mark),
        5 => elements.push(TapeElement::Block(vec![b'y'; 1 + random.below(50)])),
        6 => {
            let other = labels + random.below(elements.len() - labels);
            elements.swap(at, other);
        }
        _ => {
            if let Some(bytes) = elements[at].bytes_mut() {
                damage_text(random, bytes);
                if bytes.is_empty() {
                    bytes.push(0);
                }
            }
        }
    }
}

/// The text of one label or of both broken.
fn break_labels(random: &mut Random, index: &mut TapeSide, data: &mut TapeSide) {
    let sides = match random.below(3) {
        0 => vec![index],
        1 => vec![data],
        _ => vec![index, data],
    };
    for side in sides {
        if let Some(text) = side.elements.get_mut(2).and_then(TapeElement::bytes_mut) {
            spoil_text(random, text);
        }
    }
}

/// The text broken, or any other in its place; a block has a byte at least.
fn spoil_text(random: &mut Random, text: &mut Vec<u8>) {
    match random.below(6) {
        0 | 1 => *text = form_text(random),
        // In the form, but of other elements.
        2 => *text = document(random, &Node::value("a", "")),
        _ => break_text(random, text),
    }
    if text.is_empty() {
        text.push(b'<');
    }
}

/// Changes one of the four files by itself, or exchanges the sides.
pub fn damage_files(random: &mut Random, files: &mut VolumeFiles) {
    match random.below(6) {
        0 => {
            std::mem::swap(&mut files.index_list, &mut files.data_list);
            std::mem::swap(&mut files.index_store, &mut files.data_store);
        }
        1 => files.data_store = files.index_store.clone(),
        2 => damage_bytes(random, &mut files.index_list),
        3 => damage_bytes(random, &mut files.data_list),
        4 => damage_bytes(random, &mut files.index_store),
        _ => damage_bytes(random, &mut files.data_store),
    }
}

/// Changes, removes, repeats or cuts bytes.
pub fn damage_bytes(random: &mut Random, bytes: &mut Vec<u8>) {
    let at = random.below(bytes.len() + 1);
    let end = (at + random.below(9)).min(bytes.len());
    match random.below(6) {
        0 => bytes.truncate(at),
        1 => {
            bytes.drain(at..end);
        }
        2 => {
            let again = bytes[at..end].to_vec();
            bytes.splice(at..at, again);
        }
        3 => bytes.insert(at, random.draw() as u8),
        _ => {
            if let Some(byte) = bytes.get_mut(at) {
                *byte = if random.one_in(2) {
                    *byte ^ (1 << random.below(8))
                } else {
                    random.draw() as u8
                };
            }
        }
    }
}

/// Breaks a text at any of its bytes: it ends there, or a byte is set in, another
/// one or missing. It may still be in the form.
pub fn break_text(random: &mut Random, text: &mut Vec<u8>) {
    const BYTES: &[u8] = b"<>&;/='\"]!?: \nax0\0\x1f\x7f\x80\xbf\xc3\xed\xef\xf4\xff";
    // Mostly behind the declaration, and often where tags and references begin and end.
    let behind = DECLARATION.len().min(text.len());
    let marks: Vec<usize> = (behind..text.len())
        .filter(|at| !text[*at].is_ascii_alphanumeric())
        .collect();
    let at = match random.below(8) {
        0 => random.below(text.len() + 1),
        1..=3 if !marks.is_empty() => marks[random.below(marks.len())] + random.below(2),
        _ => behind + random.below(text.len() - behind + 1),
    };
    let end = (at + 1).min(text.len());
    let byte = BYTES[random.below(BYTES.len())];
    match random.below(4) {
        0 => text.truncate(at),
        1 => text.insert(at, byte),
        2 => {
            text.drain(at..end);
        }
        _ => {
            text.splice(at..end, [byte]);
        }
    }
}

/// Damage that a text may suffer: of its bytes, or a piece of XML set in.
pub fn damage_text(random: &mut Random, text: &mut Vec<u8>) {
    if random.one_in(3) {
        return damage_bytes(random, text);
    }
    const PIECES: [&[u8]; 31] = [
        b"<!--x-->",
        b"<![CDATA[x]]>",
        b"<?x?>",
        b"<!DOCTYPE a>",
        b"&#65;",
        b"&amp;",
        b"&",
        b"&foo;",
        b"&quot",
        b"<",
        b">",
        b"</a>",
        b"<a/>",
        b"<a></a>",
        b"]]>",
        b"]]",
        b" a='b'",
        b" a=\"b\"",
        b"/",
        b"'",
        b"\"",
        b" ",
        b"\n",
        b"x",
        b"0",
        b"\x00",
        b"\x7f",
        b"\xff",
        b"\xed\xa0\x80",
        b"\xef\xbf\xbe",
        "é".as_bytes(),
    ];
    let piece = PIECES[random.below(PIECES.len())];
    // Half the time at a tag, where most places of interest are.
    let tags: Vec<usize> = text
        .iter()
        .enumerate()
        .filter(|(_, byte)| matches!(byte, b'<' | b'>'))
        .map(|(at, _)| at)
        .collect();
    let at = if random.one_in(2) && !tags.is_empty() {
        tags[random.below(tags.len())] + random.below(2)
    } else {
        random.below(text.len() + 1)
    };
    text.splice(at..at, piece.iter().copied());
}

/// Damage that keeps the XML form: elements dropped, repeated, renamed or set
/// in, attributes set, values changed.
pub fn damage_node(random: &mut Random, node: &mut Node) {
    // Down to a random element.
    if !node.children.is_empty() && !random.one_in(6) {
        let at = random.below(node.children.len());
        return match random.below(8) {
            0 => {
                node.children.remove(at);
            }
            1 => {
                let again = node.children[at].clone();
                node.children.push(again);
            }
            _ => damage_node(random, &mut node.children[at]),
        };
    }
    let values = [
        "",
        "0",
        "1",
        "2",
        "5",
        "007",
        "+1",
        "-1",
        "-0",
        "+",
        "-",
        "+ 5",
        "5 5",
        "--0",
        "+005",
        " 7",
        "7 ",
        "\r\n\t5 ",
        "18446744073709551615",
        "18446744073709551616",
        "4095",
        "a",
        "b",
        "c",
        "z",
        "A",
        "ab",
        "true",
        "TRUE",
        "yes",
        "a/b",
        "a\tb",
        "\n",
        " ",
        "&",
        "2.0.1",
        "2.0.01",
        "2.1.0",
        "2.0",
        "2.0.65536",
        "2010-13-01T18:35:47.866846222Z",
        "2010-02-31T18:35:47.866846222Z",
        "30A91A08-DAAE-48D1-AE75-69804E61D2EA",
        "30a91a08-daae-48d1-ae75-69804e61d2e",
    ];
    match random.below(9) {
        0 => {
            let names = [
                "x",
                "file",
                "directory",
                "extent",
                "comment",
                "name",
                "Creator",
            ];
            node.name = random.pick(&names).into();
        }
        1 => node.attribute = None,
        2 => node.attribute = Some(("version".into(), random.pick(&values).into())),
        3 => node.attribute = Some(("a".into(), "b".into())),
        4 if node.text.is_empty() => node.children.push(Node::value("x", "y")),
        5 if node.children.is_empty() => node.text = "n".repeat(255 + random.below(2)),
        _ if node.children.is_empty() => node.text = random.pick(&values).into(),
        _ => {
            let at = random.below(node.children.len());
            let moved = node.children.remove(at);
            if let Some(other) = node
                .children
                .last_mut()
                .filter(|other| other.text.is_empty())
            {
                other.children.push(moved);
            }
        }
    }
}

// ---- Rows for the byte map ----

/// What the byte map is asked.
#[derive(Clone, Debug)]
pub struct MapCase {
    pub numbers: Vec<u64>,
    pub length: u64,
    pub block_size: u64,
    pub position: u64,
}

/// Rows that are mostly lawful, with numbers up to the limits of 64 bits.
pub fn map_case(random: &mut Random) -> MapCase {
    let block_size = *random.pick(&[&4_096u64, &4_097, &5_000, &524_288, &1_048_576]);
    let mut rows = Vec::new();
    let mut position = 0u64;
    for _ in 0..random.below(5) {
        position = position.saturating_add(*random.pick(&[&0u64, &0, &1, &100]));
        let row = Row {
            letter: *random.pick(&[&b'a', &b'b', &b'z']),
            start_block: *random.pick(&[&0u64, &4, &10, &(u64::MAX - 1), &u64::MAX]),
            byte_offset: *random.pick(&[&0u64, &1, &100, &4_095, &(block_size - 1), &block_size]),
            byte_count: *random.pick(&[
                &1u64,
                &5,
                &100,
                &block_size,
                &(block_size + 1),
                &(1 << 63),
                &0,
            ]),
            file_offset: position,
        };
        position = position.saturating_add(row.byte_count);
        if random.one_in(12) {
            position = position.saturating_sub(1);
        }
        rows.push(row);
    }
    random.shuffle(&mut rows);
    let length = match random.below(6) {
        0 => position.saturating_sub(1),
        1 => u64::MAX,
        2 => position.saturating_add(10),
        _ => position,
    };
    let near = match random.below(3) {
        0 => length,
        1 => rows.first().map_or(0, |row| row.file_offset),
        _ => rows
            .first()
            .map_or(0, |row| row.file_offset.saturating_add(row.byte_count)),
    };
    let mut case = MapCase {
        numbers: rows.iter().flat_map(|row| row.numbers()).collect(),
        length,
        block_size,
        position: if random.one_in(2) {
            near.saturating_sub(random.draw() % 3)
        } else {
            random.draw() % length.max(1)
        },
    };
    match random.below(16) {
        0 => {
            case.numbers.pop();
        }
        1 => case.block_size = *random.pick(&[&0, &4_095, &1_048_577, &u64::MAX]),
        2 => {
            if let Some(number) = case.numbers.first_mut() {
                *number = *random.pick(&[&0, &65, &96, &123, &353, &u64::MAX]);
            }
        }
        _ => {}
    }
    case
}

//! The XML form: a tree of elements for a text in the form, and for any text
//! the longest front that a text in the form could begin with.
//!
//! The two are written apart. `parse` is a recursive descent over a whole text;
//! `check_form` advances one byte at a time through states each of which can
//! still be completed. Tests hold them against each other.

use crate::values::is_xml_char;

pub const DECLARATION: &str = "<?xml version=\"1.0\" encoding=\"UTF-8\"?>";
pub const MAX_NESTING: usize = 64;

/// Those of `&`, `<`, `>`, `"` and `'`.
pub(crate) const REFERENCES: [&str; 5] = ["&amp;", "&lt;", "&gt;", "&quot;", "&apos;"];

#[derive(Clone, Debug, PartialEq, Eq)]
pub struct Attribute {
    pub name: String,
    /// As spelled, without the quotes.
    pub raw: String,
}

#[derive(Clone, Debug, PartialEq, Eq)]
pub struct Element {
    pub name: String,
    pub attribute: Option<Attribute>,
    /// As spelled. White space only when there are children.
    pub raw_text: String,
    /// Where in the whole text the start tag ends.
    pub text_start: usize,
    pub children: Vec<Element>,
}

pub fn is_white(byte: u8) -> bool {
    matches!(byte, b' ' | b'\t' | b'\r' | b'\n')
}

fn is_name_start(byte: u8) -> bool {
    byte.is_ascii_alphabetic()
}

fn is_name_part(byte: u8) -> bool {
    byte.is_ascii_alphanumeric() || matches!(byte, b'_' | b'-' | b'.')
}

// ---- The tree of a whole text ----

/// The root element, or nothing when the text is not in the form.
pub fn parse(text: &[u8]) -> Option<Element> {
    let text = std::str::from_utf8(text).ok()?;
    if !text.chars().all(is_xml_char) {
        return None;
    }
    let mut cursor = Cursor {
        whole: text.len(),
        rest: text.strip_prefix(DECLARATION)?,
    };
    cursor.skip_white();
    let root = cursor.element(1)?;
    cursor.skip_white();
    cursor.rest.is_empty().then_some(root)
}

struct Cursor<'a> {
    /// The length of the whole text.
    whole: usize,
    rest: &'a str,
}

impl<'a> Cursor<'a> {
    fn peek(&self) -> Option<u8> {
        self.rest.bytes().next()
    }

    /// Takes `expected` off the front.
    fn eat(&mut self, expected: &str) -> Option<()> {
        self.rest = self.rest.strip_prefix(expected)?;
        Some(())
    }

    /// Takes the longest front whose bytes all pass; `part` must pass only ASCII
    /// or stop only at ASCII, so that the split falls between characters.
    fn take_while(&mut self, part: impl Fn(u8) -> bool) -> &'a str {
        let length = self.rest.bytes().take_while(|byte| part(*byte)).count();
        let (front, rest) = self.rest.split_at(length);
        self.rest = rest;
        front
    }

    /// Whether there was any white space.
    fn skip_white(&mut self) -> bool {
        !self.take_while(is_white).is_empty()
    }

    fn name(&mut self) -> Option<&'a str> {
        if !is_name_start(self.peek()?) {
            return None;
        }
        Some(self.take_while(is_name_part))
    }

    /// An element at nesting `depth`, from its `<` on.
    fn element(&mut self, depth: usize) -> Option<Element> {
        if depth > MAX_NESTING {
            return None;
        }
        self.eat("<")?;
        let name = self.name()?.to_string();
        let attribute = if self.skip_white() && self.peek().is_some_and(is_name_start) {
            let attribute = self.attribute()?;
            self.skip_white();
            Some(attribute)
        } else {
            None
        };
        let mut element = Element {
            name,
            attribute,
            raw_text: String::new(),
            text_start: 0,
            children: Vec::new(),
        };
        let is_empty = self.eat("/>").is_some();
        if !is_empty {
            self.eat(">")?;
        }
        element.text_start = self.whole - self.rest.len();
        if is_empty {
            return Some(element);
        }
        self.content(&mut element, depth)?;
        Some(element)
    }

    fn attribute(&mut self) -> Option<Attribute> {
        let name = self.name()?.to_string();
        self.skip_white();
        self.eat("=")?;
        self.skip_white();
        let quote = self.peek()?;
        if quote != b'"' && quote != b'\'' {
            return None;
        }
        self.rest = &self.rest[1..];
        let raw = self.take_while(|byte| byte != quote);
        self.rest = self.rest.get(1..)?;
        if raw.contains('<') || !only_known_references(raw) {
            return None;
        }
        Some(Attribute {
            name,
            raw: raw.to_string(),
        })
    }

    /// Text and children up to and with the end tag.
    fn content(&mut self, element: &mut Element, depth: usize) -> Option<()> {
        loop {
            let text = self.take_while(|byte| byte != b'<');
            if text.contains("]]>") || !only_known_references(text) {
                return None;
            }
            element.raw_text.push_str(text);
            if self.eat("</").is_some() {
                break;
            }
            element.children.push(self.element(depth + 1)?);
        }
        if self.name()? != element.name {
            return None;
        }
        self.skip_white();
        self.eat(">")?;
        let mixed = !element.children.is_empty() && !element.raw_text.bytes().all(is_white);
        (!mixed).then_some(())
    }
}

fn only_known_references(text: &str) -> bool {
    text.match_indices('&').all(|(at, _)| {
        REFERENCES
            .iter()
            .any(|reference| text[at..].starts_with(reference))
    })
}

// ---- The longest front ----

/// Good, or refused with the length of the longest front of the text that some
/// text in the form begins with.
pub fn check_form(text: &[u8]) -> Result<(), usize> {
    let mut reader = FormReader::new();
    for (at, byte) in text.iter().enumerate() {
        if !reader.step(*byte) {
            return Err(at);
        }
    }
    match reader.state {
        State::AfterRoot => Ok(()),
        _ => Err(text.len()),
    }
}

/// An element whose end tag has not been read.
struct OpenElement {
    name: Vec<u8>,
    has_child: bool,
    /// Has text that is not white space, or a reference.
    has_text: bool,
}

#[derive(Debug)]
enum State {
    /// This many bytes of the declaration are read.
    Declaration(usize),
    BeforeRoot,
    /// After the `<` of the root.
    RootTag,
    /// In the name of a start tag; the name so far is the last open element's.
    StartName,
    /// In a start tag where an attribute may begin.
    BeforeAttribute,
    AttributeName,
    AfterAttributeName,
    BeforeValue,
    Value {
        quote: u8,
    },
    ValueReference {
        quote: u8,
        read: Vec<u8>,
    },
    ValueCharacter {
        quote: u8,
        read: Vec<u8>,
    },
    /// In a start tag after its attribute.
    AfterValue,
    /// After the `/` of an empty-element tag.
    EmptySlash,
    /// In an element; `brackets` counts the `]` directly before, up to two.
    Content {
        brackets: usize,
    },
    ContentReference {
        read: Vec<u8>,
    },
    ContentCharacter {
        read: Vec<u8>,
    },
    /// After a `<` in an element.
    ContentTag,
    /// This many bytes of the end tag's name are read.
    EndName(usize),
    /// After the whole name of the end tag.
    AfterEndName,
    AfterRoot,
}

struct FormReader {
    state: State,
    open: Vec<OpenElement>,
}

impl FormReader {
    fn new() -> Self {
        FormReader {
            state: State::Declaration(0),
            open: Vec::new(),
        }
    }

    /// Reads one byte. False when nothing in the form begins with what is read
    /// and this byte; the reader is of no use after that.
    fn step(&mut self, byte: u8) -> bool {
        let state = std::mem::replace(&mut self.state, State::AfterRoot);
        match self.next(state, byte) {
            Some(state) => {
                self.state = state;
                true
            }
            None => false,
        }
    }

    fn next(&mut self, state: State, byte: u8) -> Option<State> {
        match state {
            State::Declaration(read) => {
                if byte != DECLARATION.as_bytes()[read] {
                    None
                } else if read + 1 == DECLARATION.len() {
                    Some(State::BeforeRoot)
                } else {
                    Some(State::Declaration(read + 1))
                }
            }
            State::BeforeRoot => match byte {
                b'<' => Some(State::RootTag),
                _ if is_white(byte) => Some(State::BeforeRoot),
                _ => None,
            },
            State::RootTag => self.start_name(byte),
            State::StartName => {
                if is_name_part(byte) {
                    self.top().name.push(byte);
                    Some(State::StartName)
                } else {
                    self.in_start_tag(byte, State::BeforeAttribute)
                }
            }
            State::BeforeAttribute => {
                if is_name_start(byte) {
                    Some(State::AttributeName)
                } else {
                    self.in_start_tag(byte, State::BeforeAttribute)
                }
            }
            State::AttributeName => match byte {
                b'=' => Some(State::BeforeValue),
                _ if is_white(byte) => Some(State::AfterAttributeName),
                _ if is_name_part(byte) => Some(State::AttributeName),
                _ => None,
            },
            State::AfterAttributeName => match byte {
                b'=' => Some(State::BeforeValue),
                _ if is_white(byte) => Some(State::AfterAttributeName),
                _ => None,
            },
            State::BeforeValue => match byte {
                b'"' | b'\'' => Some(State::Value { quote: byte }),
                _ if is_white(byte) => Some(State::BeforeValue),
                _ => None,
            },
            State::Value { quote } => match byte {
                _ if byte == quote => Some(State::AfterValue),
                b'<' => None,
                b'&' => Some(State::ValueReference {
                    quote,
                    read: vec![byte],
                }),
                _ => match character(&[byte]) {
                    Character::Whole => Some(State::Value { quote }),
                    Character::Begun => Some(State::ValueCharacter {
                        quote,
                        read: vec![byte],
                    }),
                    Character::None => None,
                },
            },
            State::ValueReference { quote, mut read } => {
                read.push(byte);
                match reference(&read) {
                    Character::Whole => Some(State::Value { quote }),
                    Character::Begun => Some(State::ValueReference { quote, read }),
                    Character::None => None,
                }
            }
            State::ValueCharacter { quote, mut read } => {
                read.push(byte);
                match character(&read) {
                    Character::Whole => Some(State::Value { quote }),
                    Character::Begun => Some(State::ValueCharacter { quote, read }),
                    Character::None => None,
                }
            }
            State::AfterValue => self.in_start_tag(byte, State::AfterValue),
            State::EmptySlash => match byte {
                b'>' => Some(self.close()),
                _ => None,
            },
            State::Content { brackets } => self.content(byte, brackets),
            State::ContentReference { mut read } => {
                read.push(byte);
                match reference(&read) {
                    Character::Whole => Some(State::Content { brackets: 0 }),
                    Character::Begun => Some(State::ContentReference { read }),
                    Character::None => None,
                }
            }
            State::ContentCharacter { mut read } => {
                read.push(byte);
                match character(&read) {
                    Character::Whole => Some(State::Content { brackets: 0 }),
                    Character::Begun => Some(State::ContentCharacter { read }),
                    Character::None => None,
                }
            }
            State::ContentTag => {
                if byte == b'/' {
                    return Some(State::EndName(0));
                }
                // A child needs room below the nesting bound and a parent without text.
                if self.top().has_text || self.open.len() == MAX_NESTING {
                    return None;
                }
                self.top().has_child = true;
                self.start_name(byte)
            }
            State::EndName(read) => {
                let name = &self.top().name;
                if byte != name[read] {
                    None
                } else if read + 1 == name.len() {
                    Some(State::AfterEndName)
                } else {
                    Some(State::EndName(read + 1))
                }
            }
            State::AfterEndName => match byte {
                b'>' => Some(self.close()),
                _ if is_white(byte) => Some(State::AfterEndName),
                _ => None,
            },
            State::AfterRoot => is_white(byte).then_some(State::AfterRoot),
        }
    }

    fn top(&mut self) -> &mut OpenElement {
        self.open.last_mut().expect("an element is open here")
    }

    fn start_name(&mut self, byte: u8) -> Option<State> {
        if !is_name_start(byte) {
            return None;
        }
        self.open.push(OpenElement {
            name: vec![byte],
            has_child: false,
            has_text: false,
        });
        Some(State::StartName)
    }

    /// The bytes that can follow in a start tag besides names and attributes.
    fn in_start_tag(&mut self, byte: u8, after_white: State) -> Option<State> {
        match byte {
            b'/' => Some(State::EmptySlash),
            b'>' => Some(State::Content { brackets: 0 }),
            _ if is_white(byte) => Some(after_white),
            _ => None,
        }
    }

    fn content(&mut self, byte: u8, brackets: usize) -> Option<State> {
        if byte == b'<' {
            return Some(State::ContentTag);
        }
        if is_white(byte) {
            return Some(State::Content { brackets: 0 });
        }
        if self.top().has_child {
            return None;
        }
        self.top().has_text = true;
        match byte {
            b'&' => Some(State::ContentReference { read: vec![byte] }),
            b']' => Some(State::Content {
                brackets: (brackets + 1).min(2),
            }),
            b'>' if brackets == 2 => None,
            _ => match character(&[byte]) {
                Character::Whole => Some(State::Content { brackets: 0 }),
                Character::Begun => Some(State::ContentCharacter { read: vec![byte] }),
                Character::None => None,
            },
        }
    }

    /// Ends the last open element.
    fn close(&mut self) -> State {
        self.open.pop();
        if self.open.is_empty() {
            State::AfterRoot
        } else {
            State::Content { brackets: 0 }
        }
    }
}

/// What some bytes are to a character or a reference.
enum Character {
    Whole,
    /// A proper front of one.
    Begun,
    None,
}

fn reference(read: &[u8]) -> Character {
    if REFERENCES
        .iter()
        .any(|reference| reference.as_bytes() == read)
    {
        Character::Whole
    } else if REFERENCES
        .iter()
        .any(|reference| reference.as_bytes().starts_with(read))
    {
        Character::Begun
    } else {
        Character::None
    }
}

/// Whether the bytes are, or begin, the UTF-8 form of a character of XML 1.0.
fn character(read: &[u8]) -> Character {
    let (length, payload, least) = match read[0] {
        0x00..=0x7F => (1, u32::from(read[0]), 0),
        0xC0..=0xDF => (2, u32::from(read[0] & 0x1F), 0x80),
        0xE0..=0xEF => (3, u32::from(read[0] & 0x0F), 0x800),
        0xF0..=0xF7 => (4, u32::from(read[0] & 0x07), 0x1_0000),
        _ => return Character::None,
    };
    let mut code = payload;
    for byte in &read[1..] {
        if byte & 0xC0 != 0x80 {
            return Character::None;
        }
        code = code << 6 | u32::from(byte & 0x3F);
    }
    // The code points that the missing continuation bytes can still give.
    let missing_bits = 6 * (length - read.len());
    let first = (code << missing_bits).max(least);
    let last = (code << missing_bits) | ((1 << missing_bits) - 1);
    let allowed = [
        (0x9, 0xA),
        (0xD, 0xD),
        (0x20, 0xD7FF),
        (0xE000, 0xFFFD),
        (0x1_0000, 0x10_FFFF),
    ];
    if !allowed
        .iter()
        .any(|(from, to)| first.max(*from) <= last.min(*to))
    {
        Character::None
    } else if missing_bits == 0 {
        Character::Whole
    } else {
        Character::Begun
    }
}

#[cfg(test)]
mod tests {
    use super::*;

    fn with_declaration(rest: &[u8]) -> Vec<u8> {
        [DECLARATION.as_bytes(), rest].concat()
    }

    fn good(rest: &str) {
        let text = with_declaration(rest.as_bytes());
        assert_eq!(check_form(&text), Ok(()), "{rest}");
        assert!(parse(&text).is_some(), "{rest}");
    }

    /// `front` is what the longest front holds after the declaration.
    fn bad(rest: &[u8], front: usize) {
        let text = with_declaration(rest);
        let shown = String::from_utf8_lossy(rest);
        assert_eq!(check_form(&text), Err(DECLARATION.len() + front), "{shown}");
        assert_eq!(parse(&text), None, "{shown}");
    }

    #[test]
    fn declaration() {
        assert_eq!(DECLARATION.len(), 38);
        assert_eq!(check_form(b""), Err(0));
        assert_eq!(check_form(b"<?xml version='1.0'"), Err(14));
        assert_eq!(check_form(b" <?xml"), Err(0));
        assert_eq!(check_form(DECLARATION.as_bytes()), Err(38));
        assert_eq!(check_form(b"\xef\xbb\xbf<?xml"), Err(0));
    }

    #[test]
    fn one_root_with_white_space_around() {
        good("<a/>");
        good("\r\n\t <a></a> \r\n\t");
        bad(b"", 0);
        bad(b" ", 1);
        bad(b"x<a/>", 0);
        bad(b"<a/>x", 4);
        bad(b"<a/><a/>", 4);
        bad(b"<a/>\0", 4);
        bad(b"&amp;<a/>", 0);
    }

    #[test]
    fn tags() {
        good("<a ></a >");
        good("<a\n/>");
        good("<a.b-c_1></a.b-c_1\t>");
        good("<A1/>");
        bad(b"< a/>", 1);
        bad(b"<a / >", 4);
        bad(b"<a></ a>", 5);
        bad(b"<a></b>", 5);
        bad(b"<a></ab>", 6);
        bad(b"<ab></a>", 7);
        bad(b"<a></a", 6);
        bad(b"<1a/>", 1);
        bad(b"<_a/>", 1);
        bad(b"<a:b/>", 2);
        bad("<é/>".as_bytes(), 1);
        bad(b"<a", 2);
        bad(b"<a><b></a></b>", 8);
    }

    #[test]
    fn attributes() {
        good("<a b=\"c\"/>");
        good("<a b='c'></a>");
        good("<a  b = 'c\"' />");
        good("<a b=\"c'\">t</a>");
        good("<a b=''/>");
        good("<a b='x>y]]>z'/>");
        good("<a b='&amp;&lt;&gt;&quot;&apos;\té'/>");
        bad(b"<a b='c'd='e'/>", 8);
        bad(b"<a b='c' d='e'/>", 9);
        bad(b"<a b=c/>", 5);
        bad(b"<a b/>", 4);
        bad(b"<a b ='<'/>", 7);
        bad(b"<a b='&'/>", 7);
        bad(b"<a b='&#65;'/>", 7);
        bad(b"<a b='\x01'/>", 6);
        bad(b"<a b=\"c'/>", 10);
        bad(b"<a'b'/>", 2);
    }

    #[test]
    fn references_and_text() {
        good("<a>&amp;&lt;&gt;&quot;&apos;</a>");
        good("<a>]]&gt; ]> ]] ></a>");
        good("<a>x>y\"'</a>");
        good("<a>] ]></a>");
        bad(b"<a>]]></a>", 5);
        bad(b"<a>]]]></a>", 6);
        bad(b"<a>&</a>", 4);
        bad(b"<a>&foo;</a>", 4);
        bad(b"<a>&am;</a>", 6);
        bad(b"<a>&apo</a>", 7);
        bad(b"<a>&ax;</a>", 5);
        bad(b"<a>&#65;</a>", 4);
        bad(b"<a>&amp</a>", 7);
    }

    #[test]
    fn characters() {
        good("<a>\t\r\n \u{7F}\u{80}é\u{D7FF}\u{E000}\u{FDD0}\u{FFFD}\u{10000}\u{1FFFE}\u{10FFFF}</a>");
        bad(b"<a>\x00</a>", 3);
        bad(b"<a>\x1f</a>", 3);
        bad(b"<a>\x80</a>", 3);
        bad(b"<a>\xc0\x80</a>", 3);
        bad(b"<a>\xc1\xbf</a>", 3);
        bad(b"<a>\xe0\x9f\xbf</a>", 4);
        bad(b"<a>\xed\xa0\x80</a>", 4);
        bad(b"<a>\xef\xbf\xbe</a>", 5);
        bad(b"<a>\xef\xbf\xbf</a>", 5);
        bad(b"<a>\xf0\x8f\xbf\xbf</a>", 4);
        bad(b"<a>\xf4\x90\x80\x80</a>", 4);
        bad(b"<a>\xf5\x80\x80\x80</a>", 3);
        bad(b"<a>\xff</a>", 3);
        bad(b"<a>\xe2\x9c", 5);
        bad(b"<a>\xe2\x9c<", 5);
        bad(b"<a>\xc3<", 4);
    }

    #[test]
    fn nothing_else_of_xml() {
        bad(b"<!--x--><a/>", 1);
        bad(b"<a><!--x--></a>", 4);
        bad(b"<a><![CDATA[x]]></a>", 4);
        bad(b"<!DOCTYPE a><a/>", 1);
        bad(b"<?x?><a/>", 1);
        bad(b"<a><?x?></a>", 4);
    }

    #[test]
    fn no_mixed_content() {
        good("<a> <b/>\n<c>t</c> </a>");
        bad(b"<a>t<b/></a>", 5);
        bad(b"<a>t<", 5);
        bad(b"<a><b/>t</a>", 7);
        bad(b"<a><b/>&lt;</a>", 7);
        bad(b"<a>&lt;<b/></a>", 8);
        bad(b"<a> <b/>]</a>", 8);
    }

    #[test]
    fn nesting() {
        let nested = |depth: usize| "<a>".repeat(depth) + &"</a>".repeat(depth);
        good(&nested(64));
        bad(nested(65).as_bytes(), 3 * 64 + 1);
        good(&("<a>".repeat(63) + "<a/>" + &"</a>".repeat(63)));
        bad(("<a>".repeat(64) + "<a/>").as_bytes(), 3 * 64 + 1);
        bad("<a>".repeat(64).as_bytes(), 3 * 64);
    }

    /// Bytes that complete what the reader has read to a text in the form.
    fn completion(reader: &FormReader) -> Vec<u8> {
        // To the end of the current character or reference, by trying bytes.
        let rest = |read: &[u8], whole: fn(&[u8]) -> Character| -> Vec<u8> {
            let mut read = read.to_vec();
            let mut added = Vec::new();
            loop {
                match whole(&read) {
                    Character::Whole => return added,
                    Character::None => panic!("a state that cannot be completed"),
                    Character::Begun => {
                        let next = (0..=255u8)
                            .find(|byte| {
                                !matches!(whole(&[&read[..], &[*byte]].concat()), Character::None)
                            })
                            .expect("a byte that goes on");
                        read.push(next);
                        added.push(next);
                    }
                }
            }
        };
        let close_all = |open: &[OpenElement]| -> Vec<u8> {
            open.iter()
                .rev()
                .flat_map(|element| [b"</", &element.name[..], b">"].concat())
                .collect()
        };
        let open = &reader.open[..];
        let inner = open.len().saturating_sub(1);
        match &reader.state {
            State::Declaration(read) => [&DECLARATION.as_bytes()[*read..], b"<a/>"].concat(),
            State::BeforeRoot => b"<a/>".to_vec(),
            State::RootTag => b"a/>".to_vec(),
            State::StartName | State::BeforeAttribute | State::AfterValue => {
                [b"/>".to_vec(), close_all(&open[..inner])].concat()
            }
            State::AttributeName | State::AfterAttributeName => {
                [b"=''/>".to_vec(), close_all(&open[..inner])].concat()
            }
            State::BeforeValue => [b"''/>".to_vec(), close_all(&open[..inner])].concat(),
            State::Value { quote } => {
                [vec![*quote], b"/>".to_vec(), close_all(&open[..inner])].concat()
            }
            State::ValueReference { quote, read } => [
                rest(read, reference),
                vec![*quote],
                b"/>".to_vec(),
                close_all(&open[..inner]),
            ]
            .concat(),
            State::ValueCharacter { quote, read } => [
                rest(read, character),
                vec![*quote],
                b"/>".to_vec(),
                close_all(&open[..inner]),
            ]
            .concat(),
            State::EmptySlash => [b">".to_vec(), close_all(&open[..inner])].concat(),
            State::Content { .. } => close_all(open),
            State::ContentReference { read } => [rest(read, reference), close_all(open)].concat(),
            State::ContentCharacter { read } => [rest(read, character), close_all(open)].concat(),
            State::ContentTag => [
                &b"/"[..],
                &open[inner].name,
                b">",
                &close_all(&open[..inner]),
            ]
            .concat(),
            State::EndName(read) => {
                [&open[inner].name[*read..], b">", &close_all(&open[..inner])].concat()
            }
            State::AfterEndName => [b">".to_vec(), close_all(&open[..inner])].concat(),
            State::AfterRoot => Vec::new(),
        }
    }

    /// Every front that the byte reader takes can be completed, by the tree
    /// reader's account.
    #[test]
    fn fronts_can_be_completed() {
        use crate::random::{damage_text, document, index_case, label, label_text, Random};
        let mut random = Random::new(11);
        for case in 0..400 {
            let mut text = if case % 4 == 0 {
                let (node, ..) = index_case(&mut random);
                document(&mut random, &node)
            } else {
                let label = label(&mut random);
                label_text(&mut random, &label)
            };
            damage_text(&mut random, &mut text);
            text.truncate(3_000);
            let mut reader = FormReader::new();
            for (read, byte) in text.iter().enumerate() {
                // Not after every byte, to save time, but wherever a state is short.
                let short = !matches!(
                    reader.state,
                    State::Content { .. } | State::StartName | State::EndName(_)
                );
                if short || read % 7 == 0 {
                    let whole = [&text[..read], &completion(&reader)].concat();
                    assert!(
                        parse(&whole).is_some(),
                        "{}",
                        String::from_utf8_lossy(&whole)
                    );
                }
                if !reader.step(*byte) {
                    break;
                }
            }
        }
    }

    /// The state in which a text leaves the form, or what else refuses its next byte.
    fn place_of(text: &[u8]) -> Option<(String, &'static str)> {
        let front = check_form(text).err()?;
        let mut reader = FormReader::new();
        assert!(text[..front].iter().all(|byte| reader.step(*byte)));
        let open = reader.open.last();
        let why = match (&reader.state, text.get(front)) {
            (_, None) => "ends",
            (State::ContentTag, _) if reader.open.len() == MAX_NESTING => "too deep",
            (State::ContentTag, _) if open.is_some_and(|open| open.has_text) => "beside text",
            (State::Content { .. }, _) if open.is_some_and(|open| open.has_child) => {
                "beside a child"
            }
            (State::Content { brackets: 2 }, Some(b'>')) => "]]>",
            _ => "goes on",
        };
        let state = format!("{:?}", reader.state);
        let name = state.split([' ', '(']).next().expect("the state's name");
        Some((name.to_string(), why))
    }

    /// The cases of the tests in C have texts that leave the form in every state.
    #[test]
    fn random_texts_leave_the_form_everywhere() {
        use crate::random::{form_text, Random};
        const STATES: [&str; 20] = [
            "Declaration",
            "BeforeRoot",
            "RootTag",
            "StartName",
            "BeforeAttribute",
            "AttributeName",
            "AfterAttributeName",
            "BeforeValue",
            "Value",
            "ValueReference",
            "ValueCharacter",
            "AfterValue",
            "EmptySlash",
            "Content",
            "ContentReference",
            "ContentCharacter",
            "ContentTag",
            "EndName",
            "AfterEndName",
            "AfterRoot",
        ];
        let mut places = std::collections::BTreeMap::new();
        for seed in 0..4_000 {
            if let Some(place) = place_of(&form_text(&mut Random::new(seed))) {
                *places.entry(place).or_insert(0) += 1;
            }
        }
        println!("{places:#?}");
        let found = |state: &str, why| places.contains_key(&(state.to_string(), why));
        for state in STATES {
            // White space may follow a root without end, so that a text may end there.
            assert!(found(state, "ends") != (state == "AfterRoot"), "{state}");
            assert!(found(state, "goes on"), "{state}");
        }
        assert!(found("ContentTag", "too deep") && found("ContentTag", "beside text"));
        assert!(found("Content", "beside a child") && found("Content", "]]>"));
    }

    /// The two readers agree on every text of up to five of these pieces. So no
    /// text in the form is refused on the way, and a refused front is the longest.
    #[test]
    fn readers_agree_on_short_texts() {
        const PIECES: [&str; 13] = [
            "<a", "<b", "</a", "</b", ">", "/>", " ", " x='", "'", "]", "&lt;", "t", "<a>",
        ];
        let mut in_form = 0;
        let mut texts = vec![DECLARATION.to_string()];
        for _ in 0..5 {
            let mut longer = Vec::new();
            for text in &texts {
                for piece in PIECES {
                    let text = format!("{text}{piece}");
                    let form = check_form(text.as_bytes());
                    assert_eq!(form.is_ok(), parse(text.as_bytes()).is_some(), "{text}");
                    in_form += usize::from(form.is_ok());
                    longer.push(text);
                }
            }
            texts = longer;
        }
        assert!(in_form > 100, "{in_form}");
    }

    #[test]
    fn tree() {
        let text = with_declaration(b"\n<r v = '1&amp;2'> <x>a&lt;b</x><y/><z></z></r>");
        let root = parse(&text).unwrap();
        assert_eq!(root.name, "r");
        assert_eq!(
            root.attribute,
            Some(Attribute {
                name: "v".into(),
                raw: "1&amp;2".into()
            })
        );
        let names: Vec<&str> = root
            .children
            .iter()
            .map(|child| child.name.as_str())
            .collect();
        assert_eq!(names, ["x", "y", "z"]);
        assert_eq!(root.children[0].raw_text, "a&lt;b");
        assert_eq!(root.children[1].raw_text, "");
        assert_eq!(root.children[2].children.len(), 0);
    }
}

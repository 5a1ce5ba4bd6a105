//! ANSI labelled tapes: a list and its store laid out with ANSI labels. Bytes of a
//! label are counted from 1, as the papers count them.

use crate::tape::{Element, Partition, Side};
use crate::{require, Refusal};

/// Bytes of a file as it is handed out.
pub const FILE: usize = 36;

const LABEL: usize = 80;

/// What is told of a file.
#[derive(Clone, Debug, PartialEq, Eq)]
pub struct File {
    pub id: Vec<u8>,
    pub format: u8,
    pub block_length: Vec<u8>,
    pub record_length: Vec<u8>,
    /// The number of the element after the header mark.
    pub element: usize,
}

impl File {
    pub fn bytes(&self) -> Vec<u8> {
        [
            &self.id[..],
            &[self.format],
            &self.block_length,
            &self.record_length,
            &(self.element as u64).to_be_bytes(),
        ]
        .concat()
    }
}

/// The element that can't stand where it does, or the tape's end where it comes
/// too early, with the refusal for it.
#[derive(Clone, Copy, Debug, PartialEq, Eq)]
pub struct Wrong {
    pub place: usize,
    pub refusal: Refusal,
}

/// The files of a tape, or where it leaves the layout.
pub fn files(tape: &Partition) -> Result<Vec<File>, Wrong> {
    Reader { tape, at: 0 }.volume()
}

/// How many elements at the front some tape in the layout begins with.
pub fn place(side: Side) -> Result<usize, Refusal> {
    let tape = side.read()?;
    Ok(match files(&tape) {
        Ok(_) => tape.elements.len(),
        Err(wrong) => wrong.place,
    })
}

/// Puts the files' bytes at the front of the buffer; answers how many files.
pub fn read(side: Side, buffer: &mut [u8]) -> Result<usize, Refusal> {
    let tape = side.read()?;
    let files = files(&tape).map_err(|wrong| wrong.refusal)?;
    let bytes: Vec<u8> = files.iter().flat_map(File::bytes).collect();
    require(bytes.len() <= buffer.len(), Refusal::ShortOutput)?;
    buffer[..bytes.len()].copy_from_slice(&bytes);
    Ok(files.len())
}

// ---- Blocks ----

/// Bytes `first` to `last` of a label.
fn part(label: &[u8], first: usize, last: usize) -> &[u8] {
    &label[first - 1..last]
}

fn is_label(block: &[u8], word: &str) -> bool {
    block.len() == LABEL && block.starts_with(word.as_bytes())
}

fn all_digits(bytes: &[u8]) -> bool {
    bytes.iter().all(u8::is_ascii_digit)
}

fn is_volume_label(block: &[u8]) -> bool {
    is_label(block, "VOL1") && matches!(block[79], b'3' | b'4')
}

fn is_second_header(block: &[u8]) -> bool {
    is_label(block, "HDR2")
        && matches!(block[4], b'F' | b'D' | b'S')
        && all_digits(part(block, 6, 15))
}

fn is_data(block: &[u8]) -> bool {
    (18..=20_480).contains(&block.len())
}

/// The refusal of a block in the place of EOF1, if any: the file has this HDR1 and
/// this many data blocks.
fn judge_first_trailer(block: &[u8], header: &[u8], blocks: usize) -> Result<(), Refusal> {
    require(!is_label(block, "EOV1"), Refusal::EndOfVolume)?;
    require(is_label(block, "EOF1"), Refusal::AnsiLabels)?;
    for (first, last) in [(5, 54), (61, 80)] {
        let same = part(block, first, last) == part(header, first, last);
        require(same, Refusal::AnsiLabels)?;
    }
    let count = part(block, 55, 60);
    require(all_digits(count), Refusal::AnsiLabels)?;
    let told = count
        .iter()
        .fold(0, |value, digit| 10 * value + usize::from(digit - b'0'));
    require(told == blocks, Refusal::BlockCount)
}

// ---- The layout, a function to each of its parts ----

/// All before `at` is as it must be.
struct Reader<'a> {
    tape: &'a Partition<'a>,
    at: usize,
}

impl<'a> Reader<'a> {
    fn volume(mut self) -> Result<Vec<File>, Wrong> {
        self.block(is_volume_label)?;
        self.pass_optional("VOL", 2, "UVL");
        let mut files = vec![self.file()?];
        while !self.is_mark() {
            files.push(self.file()?);
        }
        self.mark()?;
        match self.at == self.tape.elements.len() {
            true => Ok(files),
            false => Err(self.wrong(Refusal::AnsiLabels)),
        }
    }

    fn file(&mut self) -> Result<File, Wrong> {
        let first = self.block(|block| is_label(block, "HDR1"))?;
        let second = self.block(is_second_header)?;
        self.pass_optional("HDR", 3, "UHL");
        self.mark()?;
        let element = self.at;
        self.pass_while(is_data);
        let blocks = self.at - element;
        self.mark()?;
        self.first_trailer(first, blocks)?;
        self.block(|block| is_label(block, "EOF2"))?;
        self.pass_optional("EOF", 3, "UTL");
        self.mark()?;
        Ok(File {
            id: part(first, 5, 21).to_vec(),
            format: second[4],
            block_length: part(second, 6, 10).to_vec(),
            record_length: part(second, 11, 15).to_vec(),
            element,
        })
    }

    fn first_trailer(&mut self, header: &[u8], blocks: usize) -> Result<(), Wrong> {
        // A mark, an unreadable block or the end is as wrong as a block of no bytes.
        let block = self.next_block().unwrap_or(&[]);
        judge_first_trailer(block, header, blocks).map_err(|refusal| self.wrong(refusal))?;
        self.at += 1;
        Ok(())
    }

    /// Labels with the word and rising numbers up to 9, then user labels.
    fn pass_optional(&mut self, word: &str, lowest: u8, user: &str) {
        for number in lowest..=9 {
            let name = format!("{word}{number}");
            if self
                .next_block()
                .is_some_and(|block| is_label(block, &name))
            {
                self.at += 1;
            }
        }
        self.pass_while(|block| is_label(block, user));
    }

    fn pass_while(&mut self, is_one: impl Fn(&[u8]) -> bool) {
        while self.next_block().is_some_and(&is_one) {
            self.at += 1;
        }
    }

    fn block(&mut self, is_one: impl Fn(&[u8]) -> bool) -> Result<&'a [u8], Wrong> {
        match self.next_block() {
            Some(block) if is_one(block) => {
                self.at += 1;
                Ok(block)
            }
            _ => Err(self.wrong(Refusal::AnsiLabels)),
        }
    }

    fn mark(&mut self) -> Result<(), Wrong> {
        if !self.is_mark() {
            return Err(self.wrong(Refusal::AnsiLabels));
        }
        self.at += 1;
        Ok(())
    }

    /// None where a mark, an unreadable block or the tape's end is next.
    fn next_block(&self) -> Option<&'a [u8]> {
        self.tape.block(self.at as u64).ok()
    }

    fn is_mark(&self) -> bool {
        self.tape.elements.get(self.at) == Some(&Element::FileMark)
    }

    fn wrong(&self, refusal: Refusal) -> Wrong {
        Wrong {
            place: self.at,
            refusal,
        }
    }
}

#[cfg(test)]
mod tests {
    use super::*;
    use crate::random::TapeElement::{self, Block, Mark, Unreadable};
    use crate::random::TapeSide;

    /// A label that begins so, filled up with spaces.
    fn label(text: &str) -> TapeElement {
        Block(format!("{text:80}").into_bytes())
    }

    fn data(length: usize) -> TapeElement {
        Block(vec![b'd'; length])
    }

    fn volume_label(version: char) -> TapeElement {
        label(&format!("{:79}{version}", "VOL1ULTRIX"))
    }

    /// HDR1 or EOF1 of a file with this ID and count.
    fn first_label(word: &str, id: &str, count: &str) -> TapeElement {
        label(&format!(
            "{word}{id:17}00000100010001000100026320 99366 {count:6}DECULTRIX0001"
        ))
    }

    /// A file of its own labels, and so many data blocks.
    fn file(id: &str, blocks: usize) -> Vec<TapeElement> {
        let mut elements = vec![
            first_label("HDR1", id, "000000"),
            label("HDR2D0204800512"),
            Mark,
        ];
        elements.extend(vec![data(18); blocks]);
        elements.extend([
            Mark,
            first_label("EOF1", id, &format!("{blocks:06}")),
            label("EOF2D0204800512"),
            Mark,
        ]);
        elements
    }

    /// A tape of one file with two data blocks: VOL1 0, HDR1 1, HDR2 2, marks 3 and
    /// 6, EOF1 7, EOF2 8, marks 9 and 10.
    fn plain() -> Vec<TapeElement> {
        [vec![volume_label('3')], file("A", 2), vec![Mark]].concat()
    }

    /// The numbers of the files' elements, or the refusal with its place.
    fn judged(elements: Vec<TapeElement>) -> Result<Vec<usize>, (u64, usize)> {
        let tape = TapeSide { elements };
        let (list, store) = (tape.list(), tape.store());
        let side = Side {
            list: &list,
            store: &store,
        };
        let read = files(&side.read().unwrap());
        let told = place(side).unwrap();
        match read {
            Ok(files) => {
                assert_eq!(told, tape.elements.len());
                Ok(files.iter().map(|file| file.element).collect())
            }
            Err(wrong) => {
                assert_eq!(told, wrong.place);
                Err((wrong.refusal.number(), wrong.place))
            }
        }
    }

    /// The plain tape with the element at a place replaced by others.
    fn with(at: usize, others: Vec<TapeElement>) -> Result<Vec<usize>, (u64, usize)> {
        let mut elements = plain();
        elements.splice(at..at + 1, others);
        judged(elements)
    }

    /// The plain tape with a byte of the label at a place changed, counted from 1.
    fn with_byte(at: usize, byte: usize, value: u8) -> Result<Vec<usize>, (u64, usize)> {
        let mut changed = plain()[at].clone();
        changed.bytes_mut().unwrap()[byte - 1] = value;
        with(at, vec![changed])
    }

    #[test]
    fn plain_tape_has_a_file() {
        assert_eq!(judged(plain()), Ok(vec![4]));
        let tape = TapeSide { elements: plain() };
        let (list, store) = (tape.list(), tape.store());
        let side = Side {
            list: &list,
            store: &store,
        };
        let mut buffer = vec![7; 38];
        assert_eq!(read(side, &mut buffer), Ok(1));
        assert_eq!(
            buffer,
            b"A                D0204800512\0\0\0\0\0\0\0\x04\x07\x07"
        );
        let mut short = vec![7; 35];
        assert_eq!(read(side, &mut short), Err(Refusal::ShortOutput));
        assert_eq!(short, vec![7; 35]);
        let longer = [&store[..], b"x"].concat();
        let side = Side {
            list: &list,
            store: &longer,
        };
        assert_eq!(read(side, &mut buffer), Err(Refusal::List));
        assert_eq!(place(side), Err(Refusal::List));
    }

    #[test]
    fn files_without_blocks_have_the_second_mark() {
        let tape = [
            vec![volume_label('4')],
            file("A", 0),
            file("B", 3),
            file("C", 0),
            vec![Mark],
        ]
        .concat();
        assert_eq!(judged(tape), Ok(vec![4, 11, 21]));
    }

    #[test]
    fn versions_formats_and_lengths() {
        for (version, wanted) in [
            (b'2', Err((16, 0))),
            (b'3', Ok(vec![4])),
            (b'4', Ok(vec![4])),
            (b'5', Err((16, 0))),
        ] {
            assert_eq!(with_byte(0, 80, version), wanted);
        }
        for format in *b"FDS" {
            assert_eq!(with_byte(2, 5, format), Ok(vec![4]));
        }
        for format in *b"UVfds 0\0" {
            assert_eq!(with_byte(2, 5, format), Err((16, 2)));
        }
        for byte in 6..=15 {
            assert_eq!(with_byte(2, byte, b'9'), Ok(vec![4]));
            assert_eq!(with_byte(2, byte, b'/'), Err((16, 2)));
            assert_eq!(with_byte(2, byte, b':'), Err((16, 2)));
            assert_eq!(with_byte(2, byte, b' '), Err((16, 2)));
        }
        assert_eq!(with_byte(2, 16, 0), Ok(vec![4]));
        assert_eq!(with_byte(1, 55, b'x'), Ok(vec![4]));
        assert_eq!(with_byte(8, 5, 0xff), Ok(vec![4]));
    }

    #[test]
    fn numbers_rise_and_gaps_are_passed() {
        let labels = |words: &[&str]| words.iter().map(|word| label(word)).collect::<Vec<_>>();
        let behind = |at: usize, words: &[&str]| {
            with(at, [vec![plain()[at].clone()], labels(words)].concat())
        };
        let all = [
            "VOL2", "VOL3", "VOL4", "VOL5", "VOL6", "VOL7", "VOL8", "VOL9",
        ];
        assert_eq!(behind(0, &all), Ok(vec![12]));
        assert_eq!(
            behind(0, &["VOL2", "VOL9", "UVL1", "UVL1", "UVL\0"]),
            Ok(vec![9])
        );
        assert_eq!(behind(0, &["VOL2", "VOL2"]), Err((16, 2)));
        assert_eq!(behind(0, &["VOL3", "VOL2"]), Err((16, 2)));
        assert_eq!(behind(0, &["VOL1"]), Err((16, 1)));
        assert_eq!(behind(0, &["VOL0"]), Err((16, 1)));
        assert_eq!(behind(0, &["VOL:"]), Err((16, 1)));
        assert_eq!(behind(0, &["UVL1", "VOL2"]), Err((16, 2)));
        assert_eq!(behind(0, &["UHL1"]), Err((16, 1)));
        assert_eq!(behind(2, &["HDR3", "HDR9", "UHLa"]), Ok(vec![7]));
        assert_eq!(behind(2, &["HDR3", "HDR3"]), Err((16, 4)));
        assert_eq!(behind(2, &["HDR2"]), Err((16, 3)));
        assert_eq!(behind(2, &["UHL1", "HDR3"]), Err((16, 4)));
        assert_eq!(behind(8, &["EOF3", "EOF8", "UTL!"]), Ok(vec![4]));
        assert_eq!(behind(8, &["EOF4", "EOF3"]), Err((16, 10)));
        assert_eq!(behind(8, &["EOF2"]), Err((16, 9)));
        assert_eq!(behind(8, &["UTL1", "EOF3"]), Err((16, 10)));
        assert_eq!(behind(8, &["UVL1"]), Err((16, 9)));
    }

    #[test]
    fn labels_are_of_80_bytes() {
        for at in [0, 1, 2, 7, 8] {
            for length in [79, 81] {
                let mut changed = plain()[at].clone();
                changed.bytes_mut().unwrap().resize(length, b'3');
                assert_eq!(with(at, vec![changed]), Err((16, at)));
            }
            assert_eq!(with(at, vec![Mark]), Err((16, at)));
            assert_eq!(with(at, vec![]), Err((16, at)));
        }
    }

    #[test]
    fn data_blocks_are_of_18_to_20480_bytes() {
        assert_eq!(with(5, vec![data(20_480)]), Ok(vec![4]));
        assert_eq!(with(5, vec![data(17)]), Err((16, 5)));
        assert_eq!(with(5, vec![data(20_481)]), Err((16, 5)));
        let trailer = plain()[7].clone();
        assert_eq!(with(5, vec![trailer]), Ok(vec![4]));
        assert_eq!(with(5, vec![label("EOV1")]), Ok(vec![4]));
    }

    #[test]
    fn first_trailer_is_judged_by_its_label_before_its_count() {
        let trailer = |count: &str| with(7, vec![first_label("EOF1", "A", count)]);
        assert_eq!(trailer("000002"), Ok(vec![4]));
        for count in ["000001", "000003", "000000", "200000", "999999"] {
            assert_eq!(trailer(count), Err((18, 7)));
        }
        for count in ["00000x", " 00002", "00002 ", "+00002", "-00001", "0000:2"] {
            assert_eq!(trailer(count), Err((16, 7)));
        }
        for byte in (5..=54).chain(61..=80) {
            assert_eq!(with_byte(7, byte, b'#'), Err((16, 7)));
            let mut changed = first_label("EOF1", "A", "000009");
            changed.bytes_mut().unwrap()[byte - 1] = b'#';
            assert_eq!(with(7, vec![changed]), Err((16, 7)));
        }
        // A data block less, and one more.
        assert_eq!(with(5, vec![]), Err((18, 6)));
        assert_eq!(with(5, vec![data(18), data(19)]), Err((18, 8)));
    }

    #[test]
    fn end_of_volume_is_for_the_first_trailer_alone() {
        let eov1 = || first_label("EOV1", "A", "000002");
        assert_eq!(with(7, vec![eov1()]), Err((17, 7)));
        assert_eq!(with(7, vec![label("EOV1")]), Err((17, 7)));
        assert_eq!(with(7, vec![label("EOV2")]), Err((16, 7)));
        for at in [0, 1, 2, 3, 6, 8, 9, 10] {
            // Instead of the second mark it is data, and so are the labels up to mark 9.
            let place = if at == 6 { 10 } else { at };
            assert_eq!(with(at, vec![eov1()]), Err((16, place)), "{at}");
        }
        for length in [79, 81] {
            let mut changed = eov1();
            changed.bytes_mut().unwrap().resize(length, b' ');
            assert_eq!(with(7, vec![changed]), Err((16, 7)));
        }
    }

    #[test]
    fn unreadable_block_is_wrong_wherever_it_stands() {
        for at in 0..plain().len() {
            assert_eq!(with(at, vec![Unreadable]), Err((16, at)));
            assert_eq!(
                with(at, vec![Unreadable, plain()[at].clone()]),
                Err((16, at))
            );
        }
        assert_eq!(judged([plain(), vec![Unreadable]].concat()), Err((16, 11)));
        // Behind a place that is wrong already it changes nothing.
        let eov1 = first_label("EOV1", "A", "000002");
        assert_eq!(with(7, vec![eov1, Unreadable]), Err((17, 7)));
        let other_count = first_label("EOF1", "A", "000001");
        assert_eq!(with(7, vec![other_count, Unreadable]), Err((18, 7)));
    }

    #[test]
    fn one_file_or_more_and_a_last_mark() {
        assert_eq!(judged(vec![]), Err((16, 0)));
        assert_eq!(judged(vec![volume_label('3')]), Err((16, 1)));
        assert_eq!(judged(vec![volume_label('3'), Mark]), Err((16, 1)));
        assert_eq!(with(10, vec![]), Err((16, 10)));
        assert_eq!(with(10, vec![Mark, Mark]), Err((16, 11)));
        assert_eq!(with(10, vec![Mark, label("HDR1")]), Err((16, 11)));
        assert_eq!(with(10, vec![label("HDR1")]), Err((16, 11)));
        for length in 0..11 {
            assert_eq!(judged(plain()[..length].to_vec()), Err((16, length)));
        }
    }

    #[test]
    fn first_place_decides() {
        let mut elements = plain();
        elements[7] = first_label("EOF1", "A", "000009");
        elements[8] = label("EOF3");
        assert_eq!(judged(elements.clone()), Err((18, 7)));
        elements[2] = label("HDR2U0204800512");
        assert_eq!(judged(elements.clone()), Err((16, 2)));
        let second = [&elements[1..], &[Mark]].concat();
        let mut both = plain();
        both[7] = label("EOV1");
        assert_eq!(judged([both, second].concat()), Err((17, 7)));
    }
}

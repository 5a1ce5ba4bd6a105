//! Reading an index.

use crate::extents::{is_block_size, lawful, Row, MAX_EXTENTS};
use crate::label::Label;
use crate::structure::{self, children, no_attribute, only, optional, value, Times};
use crate::values::{
    boolean, is_creator, is_name, is_time, is_uuid, letter, number, same_uuid, Version,
};
use crate::xml::Element;
use crate::{require, Refusal};

pub const MAX_TEXT: usize = 1_048_576;
pub const MAX_ENTRIES: usize = 4_096;

/// A partition letter and an element number on that partition.
#[derive(Clone, Copy, Debug, PartialEq, Eq)]
pub struct Place {
    pub letter: u8,
    pub start_block: u64,
}

/// What directories and files have in common.
#[derive(Clone, Debug, PartialEq, Eq)]
pub struct Entry {
    pub file_uid: u64,
    pub name: String,
    pub read_only: bool,
    /// Creation, change, modify, access, backup.
    pub times: [String; 5],
}

#[derive(Clone, Debug, PartialEq, Eq)]
pub struct File {
    pub entry: Entry,
    pub length: u64,
    pub rows: Vec<Row>,
}

#[derive(Clone, Debug, PartialEq, Eq)]
pub struct Index {
    pub version: Version,
    pub creator: String,
    pub uuid: String,
    pub generation: u64,
    pub update_time: String,
    pub location: Place,
    pub allow_policy_update: bool,
    pub highest_file_uid: u64,
    pub comment: Option<String>,
    pub back_pointer: Option<Place>,
    pub has_policy: bool,
    /// In text order, the root directory first.
    pub directories: Vec<Entry>,
    /// In text order.
    pub files: Vec<File>,
}

impl Index {
    pub fn entries(&self) -> usize {
        self.directories.len() + self.files.len()
    }
}

const TIMES: [&str; 5] = [
    "creationtime",
    "changetime",
    "modifytime",
    "accesstime",
    "backuptime",
];

/// Reads the index that stands at `place` on the volume of `label`.
pub fn read(text: &[u8], label: &Label, place: Place) -> Result<Index, Refusal> {
    check_arguments(label, place.letter)?;
    let (root, version) = structure::open(text, MAX_TEXT, "ltfsindex")?;
    check_structure(&root)?;
    check_counts(&root)?;
    let index = read_values(&root, version)?;
    require(belongs(&index, label), Refusal::Disagreement)?;
    let all_lawful = index
        .files
        .iter()
        .all(|file| lawful(&file.rows, file.length, label.block_size));
    require(all_lawful, Refusal::Extents)?;
    require(index.location == place, Refusal::Location)?;
    Ok(index)
}

/// Refusal 14: what a caller gives of the label, and the letter of the place.
pub fn check_arguments(label: &Label, letter: u8) -> Result<(), Refusal> {
    let lawful = label.letters.lawful()
        && is_block_size(label.block_size)
        && is_uuid(&label.uuid)
        && label.letters.contain(letter);
    require(lawful, Refusal::Argument)
}

/// Refusal 8: the UUID and every letter must be the volume's.
fn belongs(index: &Index, label: &Label) -> bool {
    let rows = index.files.iter().flat_map(|file| &file.rows);
    same_uuid(index.uuid.as_bytes(), &label.uuid)
        && label.letters.contain(index.location.letter)
        && index
            .back_pointer
            .iter()
            .all(|place| label.letters.contain(place.letter))
        && rows
            .map(|row| row.letter)
            .all(|letter| label.letters.contain(letter))
}

// ---- Structure, refusal 5 ----

fn check_structure(root: &Element) -> Result<(), Refusal> {
    use Times::{AtMostOnce, Once};
    children(
        root,
        &[
            ("creator", Once),
            ("volumeuuid", Once),
            ("generationnumber", Once),
            ("updatetime", Once),
            ("location", Once),
            ("allowpolicyupdate", Once),
            ("highestfileuid", Once),
            ("directory", Once),
            ("comment", AtMostOnce),
            ("previousgenerationlocation", AtMostOnce),
            ("dataplacementpolicy", AtMostOnce),
        ],
    )?;
    for child in &root.children {
        match child.name.as_str() {
            "location" | "previousgenerationlocation" => {
                no_attribute(child)?;
                children(child, &[("partition", Once), ("startblock", Once)])?;
                child.children.iter().try_for_each(value)?;
            }
            "dataplacementpolicy" => no_attribute(child)?,
            "directory" => check_directory(child)?,
            _ => value(child)?,
        }
    }
    Ok(())
}

/// What directory and file must have, and may have, alike.
fn entry_children() -> Vec<(&'static str, Times)> {
    let mut allowed = vec![
        ("fileuid", Times::Once),
        ("name", Times::Once),
        ("readonly", Times::Once),
        ("extendedattributes", Times::AtMostOnce),
    ];
    allowed.extend(TIMES.map(|time| (time, Times::Once)));
    allowed
}

fn check_directory(directory: &Element) -> Result<(), Refusal> {
    no_attribute(directory)?;
    let mut allowed = entry_children();
    allowed.push(("contents", Times::Once));
    children(directory, &allowed)?;
    for child in &directory.children {
        match child.name.as_str() {
            "extendedattributes" => no_attribute(child)?,
            "contents" => {
                no_attribute(child)?;
                children(child, &[("directory", Times::Any), ("file", Times::Any)])?;
                for entry in &child.children {
                    match entry.name.as_str() {
                        "directory" => check_directory(entry)?,
                        _ => check_file(entry)?,
                    }
                }
            }
            _ => value(child)?,
        }
    }
    Ok(())
}

fn check_file(file: &Element) -> Result<(), Refusal> {
    use Times::{Any, AtMostOnce, Once};
    no_attribute(file)?;
    let mut allowed = entry_children();
    allowed.push(("length", Once));
    allowed.push(("extentinfo", AtMostOnce));
    children(file, &allowed)?;
    for child in &file.children {
        match child.name.as_str() {
            "extendedattributes" => no_attribute(child)?,
            "extentinfo" => {
                no_attribute(child)?;
                children(child, &[("extent", Any)])?;
                for extent in &child.children {
                    no_attribute(extent)?;
                    children(
                        extent,
                        &[
                            ("partition", Once),
                            ("startblock", Once),
                            ("byteoffset", Once),
                            ("bytecount", Once),
                            ("fileoffset", Once),
                        ],
                    )?;
                    extent.children.iter().try_for_each(value)?;
                }
            }
            _ => value(child)?,
        }
    }
    Ok(())
}

// ---- Counts, refusal 15 ----

/// Directories and files in text order, each with the place there of the
/// directory that holds it. Skipped elements are not looked into.
fn entries<'a>(directory: &'a Element, parent: usize, found: &mut Vec<(usize, &'a Element)>) {
    let own = found.len();
    found.push((parent, directory));
    for entry in &only(directory, "contents").children {
        if entry.name == "directory" {
            entries(entry, own, found);
        } else {
            found.push((own, entry));
        }
    }
}

/// The root directory first, which is said to hold itself.
pub(crate) fn all_entries(root: &Element) -> Vec<(usize, &Element)> {
    let mut found = Vec::new();
    entries(only(root, "directory"), 0, &mut found);
    found
}

/// A directory has none.
pub(crate) fn extent_elements(file: &Element) -> &[Element] {
    match optional(file, "extentinfo") {
        Some(info) => &info.children,
        None => &[],
    }
}

fn check_counts(root: &Element) -> Result<(), Refusal> {
    let entries = all_entries(root);
    require(entries.len() <= MAX_ENTRIES, Refusal::TooLong)?;
    let extents_bounded = entries
        .iter()
        .all(|(_, entry)| extent_elements(entry).len() <= MAX_EXTENTS);
    require(extents_bounded, Refusal::TooLong)
}

// ---- Values, refusal 6 ----

fn read_values(root: &Element, version: Version) -> Result<Index, Refusal> {
    use structure::{read, read_text, text};
    let mut index = Index {
        version,
        creator: read_text(root, "creator", is_creator)?,
        uuid: read_text(root, "volumeuuid", is_uuid)?,
        generation: read(root, "generationnumber", number)?,
        update_time: read_text(root, "updatetime", is_time)?,
        location: read_place(only(root, "location"))?,
        allow_policy_update: read(root, "allowpolicyupdate", boolean)?,
        highest_file_uid: read(root, "highestfileuid", number)?,
        comment: optional(root, "comment").map(text),
        back_pointer: optional(root, "previousgenerationlocation")
            .map(read_place)
            .transpose()?,
        has_policy: optional(root, "dataplacementpolicy").is_some(),
        directories: Vec::new(),
        files: Vec::new(),
    };
    require(index.generation >= 1, Refusal::Value)?;
    for (at, (_, element)) in all_entries(root).into_iter().enumerate() {
        let entry = read_entry(element, at == 0)?;
        if element.name == "directory" {
            index.directories.push(entry);
        } else {
            let length = read(element, "length", number)?;
            let rows = extent_elements(element)
                .iter()
                .map(read_row)
                .collect::<Result<_, _>>()?;
            index.files.push(File {
                entry,
                length,
                rows,
            });
        }
    }
    require(file_uids_lawful(&index), Refusal::Value)?;
    Ok(index)
}

fn read_place(element: &Element) -> Result<Place, Refusal> {
    Ok(Place {
        letter: structure::read(element, "partition", letter)?,
        start_block: structure::read(element, "startblock", number)?,
    })
}

fn read_entry(element: &Element, root_directory: bool) -> Result<Entry, Refusal> {
    use structure::{read, read_text, text};
    let name = text(only(element, "name"));
    require(is_name(&name, root_directory), Refusal::Value)?;
    let mut times: [String; 5] = Default::default();
    for (time, element_name) in times.iter_mut().zip(TIMES) {
        *time = read_text(element, element_name, is_time)?;
    }
    Ok(Entry {
        file_uid: read(element, "fileuid", number)?,
        name,
        read_only: read(element, "readonly", boolean)?,
        times,
    })
}

fn read_row(extent: &Element) -> Result<Row, Refusal> {
    use structure::read;
    Ok(Row {
        letter: read(extent, "partition", letter)?,
        start_block: read(extent, "startblock", number)?,
        byte_offset: read(extent, "byteoffset", number)?,
        byte_count: read(extent, "bytecount", number)?,
        file_offset: read(extent, "fileoffset", number)?,
    })
}

/// The root directory's is 1, the others are 2 or more, and no two are equal.
fn file_uids_lawful(index: &Index) -> bool {
    let (root, directories) = index.directories.split_first().expect("the root directory");
    let mut others: Vec<u64> = directories
        .iter()
        .chain(index.files.iter().map(|file| &file.entry))
        .map(|entry| entry.file_uid)
        .collect();
    others.sort_unstable();
    root.file_uid == 1
        && others.iter().all(|uid| *uid >= 2)
        && others.windows(2).all(|pair| pair[0] != pair[1])
}

// ---- Rows ----

/// Items at the front of a lent buffer. The rest of the buffer, and on the
/// refusal all of it, keeps its values.
pub(crate) fn put<T: Copy>(items: &[T], buffer: &mut [T]) -> Result<(), Refusal> {
    require(buffer.len() >= items.len(), Refusal::ShortOutput)?;
    buffer[..items.len()].copy_from_slice(items);
    Ok(())
}

/// The rows of file `number` as numbers at the front of the buffer; answers how
/// many rows and the file's length.
pub fn file_rows(
    text: &[u8],
    label: &Label,
    place: Place,
    number: u64,
    buffer: &mut [u64],
) -> Result<(usize, u64), Refusal> {
    let index = read(text, label, place)?;
    let file = usize::try_from(number)
        .ok()
        .and_then(|n| index.files.get(n))
        .ok_or(Refusal::Missing)?;
    let numbers: Vec<u64> = file.rows.iter().flat_map(|row| row.numbers()).collect();
    put(&numbers, buffer)?;
    Ok((file.rows.len(), file.length))
}

#[cfg(test)]
mod tests {
    use super::*;
    use crate::tape::Letters;
    use crate::whole;

    const UUID: &str = "30a91a08-daae-48d1-ae75-69804e61d2ea";
    const TIME: &str = "2010-01-28T19:39:57.245954278Z";
    const PLACE: Place = Place {
        letter: b'a',
        start_block: 6,
    };

    fn sample_label() -> Label {
        Label {
            version: Version(2, 0, 1),
            creator: b"LTFS".to_vec(),
            format_time: TIME.into(),
            uuid: UUID.into(),
            location: b'a',
            letters: Letters {
                index: b'a',
                data: b'b',
            },
            block_size: 4096,
            compression: true,
        }
    }

    fn entry(uid: u64, name: &str, more: &str) -> String {
        let times: String = TIMES
            .iter()
            .map(|time| format!("<{time}>{TIME}</{time}>"))
            .collect();
        format!(
            "<fileuid>{uid}</fileuid><name>{name}</name><readonly>false</readonly>{times}{more}"
        )
    }

    fn extent(letter: &str, start: u64, offset: u64, count: u64, file_offset: u64) -> String {
        format!(
            "<extent><partition>{letter}</partition><startblock>{start}</startblock><byteoffset>{offset}</byteoffset>\
             <bytecount>{count}</bytecount><fileoffset>{file_offset}</fileoffset></extent>"
        )
    }

    fn file(uid: u64, name: &str, length: u64, extents: &str) -> String {
        let more = format!("<length>{length}</length><extentinfo>{extents}</extentinfo>");
        format!("<file>{}</file>", entry(uid, name, &more))
    }

    fn directory(uid: u64, name: &str, contents: &str) -> String {
        format!(
            "<directory>{}</directory>",
            entry(uid, name, &format!("<contents>{contents}</contents>"))
        )
    }

    fn text_with(directory: &str) -> String {
        format!(
            "{}<ltfsindex version=\"2.0.0\"><creator>LTFS</creator><volumeuuid>{UUID}</volumeuuid>\
             <generationnumber>3</generationnumber><comment>A sample</comment><updatetime>{TIME}</updatetime>\
             <location><partition>a</partition><startblock>6</startblock></location>\
             <previousgenerationlocation><partition>b</partition><startblock>20</startblock></previousgenerationlocation>\
             <allowpolicyupdate>true</allowpolicyupdate><dataplacementpolicy><size>x</size></dataplacementpolicy>\
             <highestfileuid>4</highestfileuid>{directory}</ltfsindex>",
            crate::xml::DECLARATION
        )
    }

    fn sample_text() -> String {
        let inner = directory(2, "inner", &file(4, "one", 5, &extent("a", 4, 0, 5, 0)));
        let rows = extent("b", 30, 0, 4, 6) + &extent("a", 40, 4095, 3, 0);
        text_with(&directory(
            1,
            "Volume",
            &(inner + &file(9, "two", 12, &rows) + &directory(3, "last", "")),
        ))
    }

    fn read_at_place(text: &str) -> Result<Index, Refusal> {
        read(text.as_bytes(), &sample_label(), PLACE)
    }

    fn changed(from: &str, to: &str) -> Result<Index, Refusal> {
        let text = sample_text();
        assert!(text.contains(from), "{from}");
        read_at_place(&text.replacen(from, to, 1))
    }

    fn refused(from: &str, to: &str, refusal: Refusal) {
        assert_eq!(changed(from, to), Err(refusal), "{from} -> {to}");
    }

    #[test]
    fn header_and_entries() {
        let index = read_at_place(&sample_text()).unwrap();
        assert_eq!(index.version, Version(2, 0, 0));
        assert_eq!(index.generation, 3);
        assert_eq!(index.location, PLACE);
        assert_eq!(
            index.back_pointer,
            Some(Place {
                letter: b'b',
                start_block: 20
            })
        );
        assert_eq!(index.comment.as_deref(), Some("A sample"));
        assert!(index.has_policy && index.allow_policy_update);
        assert_eq!(index.highest_file_uid, 4);
        assert_eq!(index.entries(), 5);
        let directories: Vec<&str> = index
            .directories
            .iter()
            .map(|entry| entry.name.as_str())
            .collect();
        assert_eq!(directories, ["Volume", "inner", "last"]);
        let files: Vec<(&str, u64)> = index
            .files
            .iter()
            .map(|file| (file.entry.name.as_str(), file.length))
            .collect();
        assert_eq!(files, [("one", 5), ("two", 12)]);
        assert_eq!(index.files[1].rows[0].numbers(), [98, 30, 0, 4, 6]);
        assert_eq!(index.files[1].rows[1].numbers(), [97, 40, 4095, 3, 0]);
    }

    #[test]
    fn what_may_be_absent_or_empty() {
        assert_eq!(
            changed("<comment>A sample</comment>", "").unwrap().comment,
            None
        );
        assert_eq!(
            changed("<comment>A sample</comment>", "<comment/>")
                .unwrap()
                .comment,
            Some(String::new())
        );
        let no_back_pointer = sample_text().replace(
            "<previousgenerationlocation><partition>b</partition><startblock>20</startblock></previousgenerationlocation>",
            "",
        );
        assert_eq!(read_at_place(&no_back_pointer).unwrap().back_pointer, None);
        assert!(
            !changed(
                "<dataplacementpolicy><size>x</size></dataplacementpolicy>",
                ""
            )
            .unwrap()
            .has_policy
        );
        assert!(
            changed(
                "<dataplacementpolicy><size>x</size></dataplacementpolicy>",
                "<dataplacementpolicy/>"
            )
            .unwrap()
            .has_policy
        );
        assert!(changed("<name>Volume</name>", "<name></name>").is_ok());
        refused("<name>one</name>", "<name/>", Refusal::Value);
        assert!(changed("<contents></contents>", "<contents>\n</contents>").is_ok());
        let rows = extent("a", 4, 0, 5, 0);
        assert!(changed(&rows, "").unwrap().files[0].rows.is_empty());
        assert!(changed(&format!("<extentinfo>{rows}</extentinfo>"), "")
            .unwrap()
            .files[0]
            .rows
            .is_empty());
    }

    #[test]
    fn skipped_parts() {
        let skipped = "<extendedattributes><xattr a='b'><file><name>q</name></file><directory>t</directory></xattr></extendedattributes>";
        let index = changed("<name>one</name>", &format!("<name>one</name>{skipped}")).unwrap();
        assert_eq!(index.entries(), 5);
        assert!(changed(
            "<name>inner</name>",
            &format!("<name>inner</name>{skipped}")
        )
        .is_ok());
        assert!(changed(
            "<name>one</name>",
            "<name>one</name><extendedattributes>any</extendedattributes>"
        )
        .is_ok());
        refused(
            "<name>one</name>",
            &format!("<name>one</name>{skipped}{skipped}"),
            Refusal::Structure,
        );
        refused(
            "<name>one</name>",
            "<name>one</name><extendedattributes a='b'/>",
            Refusal::Structure,
        );
        refused(
            "<dataplacementpolicy>",
            "<dataplacementpolicy a='b'>",
            Refusal::Structure,
        );
        let size = "<size>x</size>";
        let behind = Refusal::form(sample_text().find(size).unwrap() + size.len());
        refused(size, "<size>x</size>t", behind);
        refused(size, "<size>x</size>&amp;", behind);
    }

    #[test]
    fn structure_refusals() {
        for (from, to) in [
            ("<creator>LTFS</creator>", ""),
            (
                "<creator>LTFS</creator>",
                "<creator>LTFS</creator><creator>LTFS</creator>",
            ),
            ("<creator>LTFS</creator>", "<creator>LTFS</creator><other/>"),
            ("<creator>LTFS</creator>", "<creator><x/></creator>"),
            ("<comment>A sample</comment>", "<comment/><comment/>"),
            ("<comment>A sample</comment>", "<comment><x/></comment>"),
            ("<creator>", "<creator version='2.0.1'>"),
            ("<startblock>6</startblock>", ""),
            (
                "<startblock>6</startblock>",
                "<startblock>6</startblock><startblock>6</startblock>",
            ),
            (
                "<location><partition>a</partition><startblock>6</startblock></location>",
                "<location>a</location>",
            ),
            ("<contents></contents>", ""),
            ("<contents></contents>", "<contents>t</contents>"),
            ("<contents></contents>", "<contents>&lt;</contents>"),
            (
                "<contents></contents>",
                "<contents><name>q</name></contents>",
            ),
            ("<length>5</length>", ""),
            ("<length>5</length>", "<length>5</length><contents/>"),
            ("<extentinfo>", "<extentinfo/><extentinfo>"),
            ("<extent>", "<extent/><extent>"),
            ("<extent>", "<extent a='b'>"),
            ("<bytecount>5</bytecount>", ""),
            ("<backuptime>", "<Backuptime/><backuptime>"),
            (" version=\"2.0.0\"", ""),
            ("version=\"2.0.0\"", "v=\"2.0.0\""),
        ] {
            refused(from, to, Refusal::Structure);
        }
        assert_eq!(
            read_at_place(&sample_text().replace("ltfsindex", "ltfslabel")),
            Err(Refusal::Structure)
        );
    }

    #[test]
    fn value_refusals() {
        for (from, to) in [
            ("<creator>LTFS", "<creator>"),
            ("<volumeuuid>3", "<volumeuuid>g"),
            ("<generationnumber>3", "<generationnumber>0"),
            ("<generationnumber>3", "<generationnumber>-0"),
            ("<generationnumber>3", "<generationnumber>-3"),
            ("<generationnumber>3", "<generationnumber>+"),
            ("<updatetime>2010-01", "<updatetime>2010-00"),
            ("<location><partition>a", "<location><partition>A"),
            ("<startblock>20", "<startblock>18446744073709551616"),
            ("<allowpolicyupdate>true", "<allowpolicyupdate>True"),
            ("<highestfileuid>4", "<highestfileuid>"),
            ("<fileuid>1<", "<fileuid>2<"),
            ("<fileuid>2<", "<fileuid>1<"),
            ("<fileuid>2<", "<fileuid>0<"),
            ("<fileuid>2<", "<fileuid>9<"),
            ("<fileuid>2<", "<fileuid>009<"),
            ("<fileuid>2<", "<fileuid> +9 <"),
            ("<name>inner", "<name>in/ner"),
            ("<name>inner", "<name>in\tner"),
            ("<readonly>false", "<readonly>"),
            ("<length>5", "<length>+ 5"),
            ("<extent><partition>a", "<extent><partition>"),
            ("<byteoffset>0", "<byteoffset>0 0"),
            ("<fileoffset>0", "<fileoffset>-"),
        ] {
            refused(from, to, Refusal::Value);
        }
        assert!(changed("<name>inner", "<name> ").is_ok());
        assert!(changed("<name>inner", "<name>in:ner").is_ok());
        assert!(changed("<highestfileuid>4", "<highestfileuid>0").is_ok());
        assert!(changed(
            "<generationnumber>3",
            "<generationnumber>18446744073709551615"
        )
        .is_ok());
    }

    #[test]
    fn numbers_are_their_values() {
        let lawful = changed("<creator>LTFS", "<creator>LTFS");
        for (from, to) in [
            ("<generationnumber>3", "<generationnumber>+03"),
            ("<startblock>6<", "<startblock>\n\t6\r\n<"),
            ("<startblock>20<", "<startblock>00020 <"),
            ("<highestfileuid>4<", "<highestfileuid> 4<"),
            ("<fileuid>1<", "<fileuid>+1<"),
            ("<fileuid>2<", "<fileuid>002<"),
            ("<length>5", "<length> 5"),
            ("<byteoffset>0", "<byteoffset>-00"),
            ("<bytecount>5", "<bytecount>0000000000000000000000005"),
            ("<fileoffset>0", "<fileoffset>-0"),
        ] {
            assert_eq!(changed(from, to), lawful, "{to}");
        }
    }

    #[test]
    fn later_refusals() {
        refused("2.0.0", "2.1.0", Refusal::Version);
        refused("2.0.0", "", Refusal::Version);
        refused("<volumeuuid>30a", "<volumeuuid>30b", Refusal::Disagreement);
        refused("<volumeuuid>30a", "<volumeuuid>300", Refusal::Disagreement);
        assert!(changed("<volumeuuid>30a", "<volumeuuid>30A").is_ok());
        refused(
            "<location><partition>a",
            "<location><partition>c",
            Refusal::Disagreement,
        );
        refused(
            "<partition>b</partition><startblock>20",
            "<partition>c</partition><startblock>20",
            Refusal::Disagreement,
        );
        refused(
            "<extent><partition>a",
            "<extent><partition>c",
            Refusal::Disagreement,
        );
        refused("<bytecount>5", "<bytecount>0", Refusal::Extents);
        refused("<bytecount>5", "<bytecount>-0", Refusal::Extents);
        refused("<bytecount>5", "<bytecount>6", Refusal::Extents);
        refused("<byteoffset>4095", "<byteoffset>4096", Refusal::Extents);
        refused("<fileoffset>6", "<fileoffset>2", Refusal::Extents);
        refused("<startblock>6", "<startblock>7", Refusal::Location);
        refused("<startblock>6", "<startblock> +7", Refusal::Location);
        refused(
            "<location><partition>a",
            "<location><partition>b",
            Refusal::Location,
        );
        assert!(changed(
            "<partition>b</partition><startblock>20",
            "<partition>a</partition><startblock>20"
        )
        .is_ok());
    }

    #[test]
    fn classes_in_order() {
        // Each fault added gives an earlier class than those before it.
        let mut text = sample_text();
        for (from, to, refusal) in [
            ("<startblock>6<", "<startblock>7<", Refusal::Location),
            ("<bytecount>3<", "<bytecount>0<", Refusal::Extents),
            ("<volumeuuid>30a", "<volumeuuid>30b", Refusal::Disagreement),
            ("<readonly>false", "<readonly>no", Refusal::Value),
            ("<length>5</length>", "", Refusal::Structure),
            ("2.0.0", "3.0.0", Refusal::Version),
            ("ltfsindex version=", "ltfsindex v=", Refusal::Structure),
            ("<?xml", "<?XML", Refusal::form(2)),
        ] {
            assert!(text.contains(from), "{from}");
            text = text.replacen(from, to, 1);
            assert_eq!(read_at_place(&text), Err(refusal));
        }
        text.push_str(&" ".repeat(MAX_TEXT));
        assert_eq!(read_at_place(&text), Err(Refusal::TooLong));
        let foreign = Place {
            letter: b'c',
            ..PLACE
        };
        assert_eq!(
            read(text.as_bytes(), &sample_label(), foreign),
            Err(Refusal::Argument)
        );
    }

    #[test]
    fn arguments() {
        let good = sample_label();
        for label in [
            Label {
                letters: Letters {
                    index: b'a',
                    data: b'a',
                },
                ..good.clone()
            },
            Label {
                letters: Letters {
                    index: b'a',
                    data: b'{',
                },
                ..good.clone()
            },
            Label {
                block_size: 4095,
                ..good.clone()
            },
            Label {
                block_size: 1_048_577,
                ..good.clone()
            },
            Label {
                uuid: b"30a91a08".to_vec(),
                ..good.clone()
            },
        ] {
            assert_eq!(read(b"", &label, PLACE), Err(Refusal::Argument));
        }
        assert_eq!(
            read(
                b"",
                &good,
                Place {
                    letter: b'A',
                    ..PLACE
                }
            ),
            Err(Refusal::Argument)
        );
        assert_eq!(read(b"", &good, PLACE), Err(Refusal::form(0)));
    }

    #[test]
    fn counts() {
        let files = |count: u64| -> String {
            (0..count)
                .map(|at| format!("<file>{}</file>", entry_short(at + 2)))
                .collect()
        };
        fn entry_short(uid: u64) -> String {
            entry(uid, "f", "<length>0</length>")
        }
        // Too long with every time written out, so the times are shortened to a value fault.
        let short = |text: String| text.replace(TIME, "");
        let full = short(text_with(&directory(1, "", &files(4095))));
        assert!(full.len() <= MAX_TEXT, "{}", full.len());
        assert_eq!(read_at_place(&full), Err(Refusal::Value));
        let over = short(text_with(&directory(1, "", &files(4096))));
        assert!(over.len() <= MAX_TEXT, "{}", over.len());
        assert_eq!(read_at_place(&over), Err(Refusal::TooLong));

        let rows =
            |count: u64| -> String { (0..count).map(|at| extent("a", 4, 0, 1, at)).collect() };
        let full = text_with(&directory(1, "", &file(2, "f", 2000, &rows(1024))));
        assert_eq!(read_at_place(&full).unwrap().files[0].rows.len(), 1024);
        let over = text_with(&directory(1, "", &file(2, "f", 2000, &rows(1025))));
        assert_eq!(read_at_place(&over), Err(Refusal::TooLong));
        // A value fault comes after the counts.
        assert_eq!(
            read_at_place(&over.replace("<name>f<", "<name><")),
            Err(Refusal::TooLong)
        );
        assert_eq!(
            read_at_place(&over.replace("<name>f</name>", "")),
            Err(Refusal::Structure)
        );
    }

    #[test]
    fn directories_nest_to_the_bound() {
        // The nth directory is at nesting 2n and its values at 2n + 1.
        let mut nested = directory(100, "d", "");
        for uid in (2..32).rev() {
            nested = directory(uid, "d", &nested);
        }
        // 32 directories put values at 65.
        let text = text_with(&directory(1, "", &nested));
        let first_value = text.find("<fileuid>100<").unwrap();
        assert_eq!(read_at_place(&text), Err(Refusal::form(first_value + 1)));
        let mut nested = directory(100, "d", "");
        for uid in (2..31).rev() {
            nested = directory(uid, "d", &nested);
        }
        assert_eq!(
            read_at_place(&text_with(&directory(1, "", &nested)))
                .unwrap()
                .entries(),
            31
        );
    }

    #[test]
    fn rows_into_a_lent_buffer() {
        let text = sample_text();
        let rows = |number: u64, buffer: &mut [u64]| {
            file_rows(text.as_bytes(), &sample_label(), PLACE, number, buffer)
        };
        let mut buffer = [7; 12];
        assert_eq!(rows(1, &mut buffer), Ok((2, 12)));
        assert_eq!(buffer, [98, 30, 0, 4, 6, 97, 40, 4095, 3, 0, 7, 7]);
        let mut short = [7; 9];
        assert_eq!(rows(1, &mut short), Err(Refusal::ShortOutput));
        assert_eq!(short, [7; 9]);
        assert_eq!(rows(2, &mut short), Err(Refusal::Missing));
        assert_eq!(rows(u64::MAX, &mut short), Err(Refusal::Missing));
        let elsewhere = Place {
            start_block: 7,
            ..PLACE
        };
        assert_eq!(
            file_rows(text.as_bytes(), &sample_label(), elsewhere, 9, &mut []),
            Err(Refusal::Location)
        );
    }

    #[test]
    fn whole_index() {
        let text = sample_text();
        let whole = whole::read(text.as_bytes(), &sample_label(), PLACE).unwrap();
        assert_eq!(whole.index, read_at_place(&text).unwrap());
        let rows = [[97, 4, 0, 5, 0], [98, 30, 0, 4, 6], [97, 40, 4095, 3, 0]];
        assert_eq!(whole.rows, rows);
        let place = |name: &str| (text.find(&format!("<name>{name}<")).unwrap() + 6) as u64;
        let wanted = [
            [0, 0, 0, 1, place("Volume"), 6, 0, 0, 0],
            [0, 0, 0, 2, place("inner"), 5, 0, 0, 0],
            [1, 1, 0, 4, place("one"), 3, 5, 0, 1],
            [1, 0, 1, 9, place("two"), 3, 12, 1, 2],
            [0, 0, 2, 3, place("last"), 4, 0, 3, 0],
        ];
        assert_eq!(whole.entries, wanted);
        let paths = ["", "inner", "inner/one", "two", "last"];
        for (entry, path) in paths.iter().enumerate() {
            let found = whole::path(text.as_bytes(), &wanted.concat(), entry as u64);
            assert_eq!(found, Ok(path.as_bytes().into()));
        }
    }
}

//! The LTFS label.

use crate::extents::is_block_size;
use crate::structure::{self, children, no_attribute, only, value, Times};
use crate::tape::Letters;
use crate::values::{
    boolean, is_creator, is_letter, is_time, is_uuid, letter, number, same_uuid, Version,
};
use crate::vol1::Vol1;
use crate::xml::{Element, DECLARATION};
use crate::{require, Refusal};

pub const MAX_TEXT: usize = 4_096;

/// A label's values. Texts are bytes since a caller may give any.
#[derive(Clone, Debug, PartialEq, Eq)]
pub struct Label {
    pub version: Version,
    pub creator: Vec<u8>,
    pub format_time: Vec<u8>,
    pub uuid: Vec<u8>,
    /// The partition that the label is recorded on.
    pub location: u8,
    pub letters: Letters,
    pub block_size: u64,
    pub compression: bool,
}

/// Reads a label's text.
pub fn read(text: &[u8]) -> Result<Label, Refusal> {
    let (root, version) = structure::open(text, MAX_TEXT, "ltfslabel")?;
    check_structure(&root)?;
    read_values(&root, version)
}

fn check_structure(root: &Element) -> Result<(), Refusal> {
    use Times::Once;
    children(
        root,
        &[
            ("creator", Once),
            ("formattime", Once),
            ("volumeuuid", Once),
            ("location", Once),
            ("partitions", Once),
            ("blocksize", Once),
            ("compression", Once),
        ],
    )?;
    for child in &root.children {
        match child.name.as_str() {
            "location" => {
                no_attribute(child)?;
                children(child, &[("partition", Once)])?;
                value(only(child, "partition"))?;
            }
            "partitions" => {
                no_attribute(child)?;
                children(child, &[("index", Once), ("data", Once)])?;
                value(only(child, "index"))?;
                value(only(child, "data"))?;
            }
            _ => value(child)?,
        }
    }
    Ok(())
}

fn read_values(root: &Element, version: Version) -> Result<Label, Refusal> {
    use structure::{read, read_text};
    let partitions = only(root, "partitions");
    let label = Label {
        version,
        creator: read_text(root, "creator", is_creator)?.into_bytes(),
        format_time: read_text(root, "formattime", is_time)?.into_bytes(),
        uuid: read_text(root, "volumeuuid", is_uuid)?.into_bytes(),
        location: read(only(root, "location"), "partition", letter)?,
        letters: Letters {
            index: read(partitions, "index", letter)?,
            data: read(partitions, "data", letter)?,
        },
        block_size: read(root, "blocksize", number)?,
        compression: read(root, "compression", boolean)?,
    };
    require(label.values_lawful(), Refusal::Value)?;
    Ok(label)
}

impl Label {
    /// Whether every value but the version keeps its rule.
    pub fn values_lawful(&self) -> bool {
        is_creator(&self.creator)
            && is_time(&self.format_time)
            && is_uuid(&self.uuid)
            && self.letters.lawful()
            && is_letter(self.location)
            && self.letters.contain(self.location)
            && is_block_size(self.block_size)
    }

    /// The written form. The version written is always 2.0.1.
    fn text(&self) -> Vec<u8> {
        let mut text = Vec::new();
        let mut put = |part: &[u8]| text.extend_from_slice(part);
        put(DECLARATION.as_bytes());
        put(b"\n<ltfslabel version=\"2.0.1\"><creator>");
        for byte in &self.creator {
            match byte {
                b'&' => put(b"&amp;"),
                b'<' => put(b"&lt;"),
                b'>' => put(b"&gt;"),
                _ => put(&[*byte]),
            }
        }
        put(b"</creator><formattime>");
        put(&self.format_time);
        put(b"</formattime><volumeuuid>");
        put(&self.uuid);
        put(b"</volumeuuid><location><partition>");
        put(&[self.location]);
        put(b"</partition></location><partitions><index>");
        put(&[self.letters.index]);
        put(b"</index><data>");
        put(&[self.letters.data]);
        put(b"</data></partitions><blocksize>");
        put(self.block_size.to_string().as_bytes());
        put(b"</blocksize><compression>");
        put(if self.compression { b"true" } else { b"false" });
        put(b"</compression></ltfslabel>\n");
        text
    }

    /// Writes the text to the front of the buffer; answers its length. The bytes
    /// after it, and on a refusal all bytes, keep their values.
    pub fn write(&self, buffer: &mut [u8]) -> Result<usize, Refusal> {
        require(self.values_lawful(), Refusal::Argument)?;
        let text = self.text();
        require(buffer.len() >= text.len(), Refusal::ShortOutput)?;
        buffer[..text.len()].copy_from_slice(&text);
        Ok(text.len())
    }
}

/// One side's two labels.
#[derive(Clone, Debug, PartialEq, Eq)]
pub struct SideLabels {
    pub vol1: Vol1,
    pub label: Label,
}

/// Whether the labels of the index side and the data side agree.
pub fn agree(index: &SideLabels, data: &SideLabels) -> bool {
    // The data side's label with the index side's location and spelling, which are compared apart.
    let data_moved = Label {
        location: index.label.location,
        uuid: index.label.uuid.clone(),
        ..data.label.clone()
    };
    index.vol1 == data.vol1
        && index.label == data_moved
        && same_uuid(&index.label.uuid, &data.label.uuid)
        && index.label.location == index.label.letters.index
        && data.label.location == data.label.letters.data
}

#[cfg(test)]
mod tests {
    use super::*;

    const UUID: &str = "30a91a08-daae-48d1-ae75-69804e61d2ea";
    const TIME: &str = "2010-02-01T18:35:47.866846222Z";

    fn sample() -> Label {
        Label {
            version: Version(2, 0, 1),
            creator: b"LTFS".to_vec(),
            format_time: TIME.into(),
            uuid: UUID.into(),
            location: b'a',
            letters: Letters {
                index: b'a',
                data: b'b',
            },
            block_size: 524_288,
            compression: true,
        }
    }

    fn sample_text() -> String {
        format!(
            "{DECLARATION}\n<ltfslabel version=\"2.0.1\"><creator>LTFS</creator><formattime>{TIME}</formattime>\
             <volumeuuid>{UUID}</volumeuuid><location><partition>a</partition></location>\
             <partitions><index>a</index><data>b</data></partitions><blocksize>524288</blocksize>\
             <compression>true</compression></ltfslabel>\n"
        )
    }

    fn changed(from: &str, to: &str) -> Result<Label, Refusal> {
        let text = sample_text();
        assert!(text.contains(from), "{from}");
        read(text.replace(from, to).as_bytes())
    }

    #[test]
    fn written_form() {
        let mut buffer = [7u8; 380];
        assert_eq!(sample().write(&mut buffer), Ok(378));
        assert_eq!(&buffer[..378], sample_text().as_bytes());
        assert_eq!(&buffer[378..], [7, 7]);
        let mut short = [7u8; 377];
        assert_eq!(sample().write(&mut short), Err(Refusal::ShortOutput));
        assert_eq!(short, [7; 377]);
        assert_eq!(sample().write(&mut [0; 378]), Ok(378));
    }

    #[test]
    fn writing_then_reading_gives_the_values_back() {
        let label = Label {
            creator: b"a&b<c>d\"'&lt;".to_vec(),
            compression: false,
            ..sample()
        };
        let mut buffer = [0u8; 1000];
        let length = label.write(&mut buffer).unwrap();
        let text = std::str::from_utf8(&buffer[..length]).unwrap();
        assert!(text.contains("<creator>a&amp;b&lt;c&gt;d\"'&amp;lt;</creator>"));
        assert_eq!(read(&buffer[..length]), Ok(label));
    }

    #[test]
    fn writer_writes_its_own_version() {
        let mut buffer = [0u8; 400];
        let label = Label {
            version: Version(2, 0, 9),
            ..sample()
        };
        let length = label.write(&mut buffer).unwrap();
        assert_eq!(&buffer[..length], sample_text().as_bytes());
    }

    #[test]
    fn writer_refuses_fields_before_the_buffer() {
        let good = sample();
        for bad in [
            Label {
                creator: b"".to_vec(),
                ..good.clone()
            },
            Label {
                creator: b"a\nb".to_vec(),
                ..good.clone()
            },
            Label {
                creator: b"\xff".to_vec(),
                ..good.clone()
            },
            Label {
                creator: vec![b'c'; 256],
                ..good.clone()
            },
            Label {
                format_time: b"".to_vec(),
                ..good.clone()
            },
            Label {
                uuid: b"x".to_vec(),
                ..good.clone()
            },
            Label {
                location: b'c',
                ..good.clone()
            },
            Label {
                letters: Letters {
                    index: b'a',
                    data: b'a',
                },
                ..good.clone()
            },
            Label {
                letters: Letters {
                    index: b'a',
                    data: b'B',
                },
                ..good.clone()
            },
            Label {
                block_size: 4095,
                ..good.clone()
            },
            Label {
                block_size: 1_048_577,
                ..good.clone()
            },
        ] {
            let mut buffer = [7u8; 3];
            assert_eq!(bad.write(&mut buffer), Err(Refusal::Argument), "{bad:?}");
            assert_eq!(buffer, [7; 3]);
        }
    }

    #[test]
    fn reads_free_spelling() {
        assert_eq!(read(sample_text().as_bytes()), Ok(sample()));
        assert_eq!(
            changed("version=\"2.0.1\"", "\nversion = '2.0.7' "),
            Ok(Label {
                version: Version(2, 0, 7),
                ..sample()
            })
        );
        assert_eq!(changed("<compression>true", "<compression>1"), Ok(sample()));
        assert_eq!(changed("524288", "\n +0524288\t"), Ok(sample()));
        assert_eq!(
            changed(
                "<index>a</index><data>b</data>",
                " <data >b</data>\n<index>a</index >"
            ),
            Ok(sample())
        );
        assert_eq!(
            changed("<creator>LTFS</creator>", ""),
            Err(Refusal::Structure),
        );
        let moved = sample_text()
            .replace("<creator>LTFS</creator>", "")
            .replace("</ltfslabel>", "<creator>LTFS</creator></ltfslabel>");
        assert_eq!(read(moved.as_bytes()), Ok(sample()));
        assert_eq!(changed("LTFS", "a&quot;&gt;b").unwrap().creator, b"a\">b");
    }

    #[test]
    fn refusals() {
        let is = |from, to, refusal| assert_eq!(changed(from, to), Err(refusal), "{from} -> {to}");
        is("<?xml", " <?xml", Refusal::form(0));
        is("LTFS", "LT&FS", Refusal::form(78));
        is(
            "<ltfslabel version=\"2.0.1\">",
            "<ltfslabel>",
            Refusal::Structure,
        );
        is(
            "<ltfslabel version=\"2.0.1\">",
            "<ltfslabel Version=\"2.0.1\">",
            Refusal::Structure,
        );
        is("ltfslabel", "ltfsindex", Refusal::Structure);
        is("\"2.0.1\"", "\"\"", Refusal::Version);
        is("\"2.0.1\"", "\"2.1.0\"", Refusal::Version);
        is("<creator>", "<creator a='b'>", Refusal::Structure);
        is("LTFS", "<b/>", Refusal::Structure);
        is("<compression>true</compression>", "", Refusal::Structure);
        is(
            "<compression>true</compression>",
            "<compression>true</compression><compression>true</compression>",
            Refusal::Structure,
        );
        is(
            "<compression>true</compression>",
            "<compression>true</compression><other/>",
            Refusal::Structure,
        );
        is("<partition>a</partition>", "a", Refusal::Structure);
        is("<partition>a</partition>", "", Refusal::Structure);
        is(
            "<partition>a</partition>",
            "<partition>a</partition><startblock>1</startblock>",
            Refusal::Structure,
        );
        is("<data>b</data>", "", Refusal::Structure);
        is("LTFS", "", Refusal::Value);
        is("LTFS", "a\tb", Refusal::Value);
        is(TIME, "", Refusal::Value);
        is(UUID, "30a91a08", Refusal::Value);
        is("<partition>a", "<partition>c", Refusal::Value);
        is("<data>b", "<data>a", Refusal::Value);
        is("<data>b", "<data>", Refusal::Value);
        is("524288", "4095", Refusal::Value);
        is("524288", "-524288", Refusal::Value);
        is("524288", "524 288", Refusal::Value);
        is("524288", "1048577", Refusal::Value);
        is("<compression>true", "<compression> true", Refusal::Value);
    }

    #[test]
    fn refusals_in_order_of_class() {
        let text = |version: &str, compression: &str, end: &str| {
            sample_text()
                .replace("2.0.1", version)
                .replace("<compression>true", &format!("<compression>{compression}"))
                .replace("</ltfslabel>", end)
        };
        let refusal = |text: String| read(text.as_bytes()).unwrap_err();
        let open = text("9", "x", "<y/>");
        let front = open.len();
        assert_eq!(refusal(open), Refusal::form(front));
        assert_eq!(
            refusal(text("9", "x", "<y/></ltfslabel>")),
            Refusal::Version
        );
        assert_eq!(
            refusal(text("2.0.1", "x", "<y/></ltfslabel>")),
            Refusal::Structure
        );
        assert_eq!(refusal(text("2.0.1", "x", "</ltfslabel>")), Refusal::Value);
        let long = "x".repeat(MAX_TEXT + 1);
        assert_eq!(refusal(long), Refusal::TooLong);
        let mut full = sample_text();
        full.push_str(&" ".repeat(MAX_TEXT - full.len()));
        assert!(read(full.as_bytes()).is_ok());
        full.push(' ');
        assert_eq!(refusal(full), Refusal::TooLong);
    }

    #[test]
    fn agreement() {
        let vol1 = Vol1 {
            identifier: *b"ABC123",
            owner: [b' '; 14],
        };
        let side = |label: Label| SideLabels {
            vol1: vol1.clone(),
            label,
        };
        let index = side(sample());
        let data_label = Label {
            location: b'b',
            ..sample()
        };
        let data = side(data_label.clone());
        assert!(agree(&index, &data));
        assert!(!agree(&data, &index));
        assert!(!agree(&index, &index));
        let other = |label: Label| !agree(&index, &side(label));
        assert!(other(Label {
            version: Version(2, 0, 2),
            ..data_label.clone()
        }));
        assert!(other(Label {
            creator: b"x".to_vec(),
            ..data_label.clone()
        }));
        assert!(other(Label {
            uuid: UUID.replace('a', "b").into(),
            ..data_label.clone()
        }));
        let capitals = side(Label {
            uuid: UUID.to_uppercase().into(),
            ..data_label.clone()
        });
        assert!(agree(&index, &capitals));
        assert!(other(Label {
            block_size: 4096,
            ..data_label.clone()
        }));
        assert!(other(Label {
            compression: false,
            ..data_label.clone()
        }));
        assert!(other(Label {
            format_time: TIME.replace('1', "2").into(),
            ..data_label.clone()
        }));
        let owner = SideLabels {
            vol1: Vol1 {
                owner: *b"x             ",
                ..vol1.clone()
            },
            label: data_label,
        };
        assert!(!agree(&index, &owner));
    }
}

//! Runs test vectors against the reference: a file with one function case a
//! line, and a folder of volumes with the program's expected output.

mod json;

use json::{hex, Json};
use reference::extents::FileByte;
use reference::index::{Entry, File, Index, Place};
use reference::label::Label;
use reference::tape::{Letters, Side};
use reference::values::Version;
use reference::{ansi, extents, index, label, program, tape, volume, xml, Refusal};
use std::collections::BTreeMap;
use std::path::Path;

fn main() {
    let arguments: Vec<_> = std::env::args_os().skip(1).collect();
    let [functions, bench] = match &arguments[..] {
        [functions, bench] => [functions, bench],
        _ => {
            eprintln!("usage: vectors FILE BENCHDIR");
            std::process::exit(2);
        }
    };
    // Passed and all, by function.
    let mut counts: BTreeMap<String, (usize, usize)> = BTreeMap::new();
    let mut count = |name: &str, passed: bool| {
        let entry = counts.entry(name.to_string()).or_default();
        entry.0 += usize::from(passed);
        entry.1 += 1;
    };

    let lines = std::fs::read_to_string(functions).expect("the function cases");
    for (at, line) in lines.lines().enumerate() {
        let case = Json::read(line).unwrap_or_else(|error| panic!("line {}: {error}", at + 1));
        let name = case.get("f").text();
        let found = run(name, case.get("in"));
        let expected = case.get("out");
        count(name, found == *expected);
        if found != *expected {
            println!(
                "line {} {name}: expected {} found {}",
                at + 1,
                shown(expected),
                shown(&found)
            );
        }
    }

    let mut folders: Vec<_> = std::fs::read_dir(bench)
        .expect("the bench folder")
        .map(|entry| entry.expect("an entry").path())
        .collect();
    folders.sort();
    for folder in folders {
        let file = |name: &str| std::fs::read(Path::new(&folder).join(name)).unwrap_or_default();
        let expected = String::from_utf8(file("expected")).expect("text");
        let found = program::answer(
            &file("index.list"),
            &file("index.store"),
            &file("data.list"),
            &file("data.store"),
        );
        count("bench", found == expected);
        if found != expected {
            println!(
                "{}: expected {expected:?} found {found:?}",
                folder.display()
            );
        }
    }

    let mut differences = 0;
    for (name, (passed, all)) in &counts {
        println!("{name}: {passed} of {all}");
        differences += all - passed;
    }
    println!("differences: {differences}");
    if differences > 0 {
        std::process::exit(1);
    }
}

fn shown(value: &Json) -> String {
    let mut text = format!("{value:?}");
    if text.len() > 400 {
        let end = (0..=400)
            .rev()
            .find(|at| text.is_char_boundary(*at))
            .unwrap_or(0);
        text.truncate(end);
        text.push_str("..");
    }
    text
}

fn run(name: &str, input: &Json) -> Json {
    let bytes = |key: &str| input.get(key).bytes();
    match name {
        "label_read" => match label::read(&bytes("text")) {
            Ok(label) => Json::List(vec![Json::Number(0), label_json(&label)]),
            Err(refusal) => Json::List(vec![refused(refusal), Json::Null]),
        },
        "xml_form" => {
            let text = bytes("text");
            let good = xml::check_form(&text).is_ok();
            assert_eq!(
                good,
                xml::parse(&text).is_some(),
                "the two readings of the form differ"
            );
            Json::List(vec![Json::Number(if good { 0 } else { 4 })])
        }
        "xml_front" => {
            let (refusal, front) = match xml::check_form(&bytes("text")) {
                Ok(()) => (0, 0),
                Err(front) => (4, front as u64),
            };
            Json::List(vec![Json::Number(refusal), Json::Number(front)])
        }
        "index_read" => match index::read(
            &bytes("text"),
            &label_of(input.get("label")),
            place_of(input.get("place")),
        ) {
            Ok(index) => Json::List(vec![Json::Number(0), index_json(&index)]),
            Err(refusal) => Json::List(vec![refused(refusal), Json::Null]),
        },
        "file_rows" => {
            let mut buffer = input.get("buffer").numbers();
            let result = index::file_rows(
                &bytes("text"),
                &label_of(input.get("label")),
                place_of(input.get("place")),
                input.get("file").number(),
                &mut buffer,
            );
            let buffer = Json::List(buffer.into_iter().map(Json::Number).collect());
            match result {
                Ok((rows, length)) => Json::List(vec![
                    Json::Number(0),
                    Json::Number(rows as u64),
                    Json::Number(length),
                    buffer,
                ]),
                Err(refusal) => Json::List(vec![
                    refused(refusal),
                    Json::Number(0),
                    Json::Number(0),
                    buffer,
                ]),
            }
        }
        "index_of_construct" => {
            let (list, store) = (bytes("list"), bytes("store"));
            let side = Side {
                list: &list,
                store: &store,
            };
            let letter = letter_of(input.get("letter"));
            match volume::index_of_construct(
                side,
                &label_of(input.get("label")),
                letter,
                input.get("number").number(),
            ) {
                Ok((index, construct)) => Json::List(vec![
                    Json::Number(0),
                    index_json(&index),
                    Json::Number(construct.first_block as u64),
                    Json::Number(construct.closing_mark as u64),
                ]),
                Err(refusal) => Json::List(vec![
                    refused(refusal),
                    Json::Null,
                    Json::Number(0),
                    Json::Number(0),
                ]),
            }
        }
        "byte_map" => {
            let result = extents::byte_map(
                &input.get("rows").numbers(),
                input.get("length").number(),
                input.get("blocksize").number(),
                input.get("position").number(),
            );
            let numbers = match result {
                Ok(FileByte::Stored {
                    letter,
                    block,
                    byte,
                }) => [0, 1, u64::from(letter), block, byte],
                Ok(FileByte::Zero) => [0, 0, 0, 0, 0],
                Err(refusal) => [refusal.number(), 0, 0, 0, 0],
            };
            Json::List(numbers.map(Json::Number).to_vec())
        }
        "keep" => {
            let (list, store) = (bytes("list"), bytes("store"));
            match tape::keep(&list, &store, input.get("n").number()) {
                Ok((list, store, count)) => Json::List(vec![
                    Json::Number(0),
                    hex(list),
                    hex(store),
                    Json::Number(count as u64),
                ]),
                Err(refusal) => {
                    Json::List(vec![refused(refusal), hex(b""), hex(b""), Json::Number(0)])
                }
            }
        }
        "block" => {
            let (il, is, dl, ds) = (bytes("il"), bytes("is"), bytes("dl"), bytes("ds"));
            let letters: Vec<u8> = input.get("letters").list().iter().map(letter_of).collect();
            let result = tape::block(
                Side {
                    list: &il,
                    store: &is,
                },
                Side {
                    list: &dl,
                    store: &ds,
                },
                Letters {
                    index: letters[0],
                    data: letters[1],
                },
                letters[2],
                input.get("number").number(),
            );
            match result {
                Ok(block) => Json::List(vec![Json::Number(0), hex(block)]),
                Err(refusal) => Json::List(vec![refused(refusal), hex(b"")]),
            }
        }
        "ansi_read" => {
            let (list, store) = (bytes("list"), bytes("store"));
            let mut buffer = bytes("buffer");
            let side = Side {
                list: &list,
                store: &store,
            };
            let (refusal, files) = match ansi::read(side, &mut buffer) {
                Ok(files) => (Json::Number(0), files),
                Err(refusal) => (refused(refusal), 0),
            };
            Json::List(vec![refusal, Json::Number(files as u64), hex(&buffer)])
        }
        other => panic!("no function {other}"),
    }
}

fn refused(refusal: Refusal) -> Json {
    Json::Number(refusal.number())
}

fn letter_of(value: &Json) -> u8 {
    u8::try_from(value.number()).expect("an ASCII code")
}

fn place_of(value: &Json) -> Place {
    Place {
        letter: letter_of(&value.list()[0]),
        start_block: value.list()[1].number(),
    }
}

fn label_of(value: &Json) -> Label {
    let part =
        |at: usize| u16::try_from(value.get("version").list()[at].number()).expect("16 bits");
    Label {
        version: Version(part(0), part(1), part(2)),
        creator: value.get("creator").bytes(),
        format_time: value.get("formattime").bytes(),
        uuid: value.get("uuid").bytes(),
        location: letter_of(value.get("location")),
        letters: Letters {
            index: letter_of(value.get("index")),
            data: letter_of(value.get("data")),
        },
        block_size: value.get("blocksize").number(),
        compression: value.get("compression").bool(),
    }
}

fn object(members: Vec<(&str, Json)>) -> Json {
    Json::Object(
        members
            .into_iter()
            .map(|(name, value)| (name.to_string(), value))
            .collect(),
    )
}

fn version_json(version: Version) -> Json {
    Json::List(
        [version.0, version.1, version.2]
            .map(|part| Json::Number(u64::from(part)))
            .to_vec(),
    )
}

fn label_json(label: &Label) -> Json {
    object(vec![
        ("version", version_json(label.version)),
        ("creator", hex(&label.creator)),
        ("formattime", hex(&label.format_time)),
        ("uuid", hex(&label.uuid)),
        ("location", Json::Number(u64::from(label.location))),
        ("index", Json::Number(u64::from(label.letters.index))),
        ("data", Json::Number(u64::from(label.letters.data))),
        ("blocksize", Json::Number(label.block_size)),
        ("compression", Json::Bool(label.compression)),
    ])
}

fn place_json(place: &Place) -> Json {
    Json::List(vec![
        Json::Number(u64::from(place.letter)),
        Json::Number(place.start_block),
    ])
}

fn entry_members(entry: &Entry) -> Vec<(&'static str, Json)> {
    vec![
        ("fileuid", Json::Number(entry.file_uid)),
        ("name", hex(entry.name.as_bytes())),
        ("readonly", Json::Bool(entry.read_only)),
        (
            "times",
            Json::List(
                entry
                    .times
                    .iter()
                    .map(|time| hex(time.as_bytes()))
                    .collect(),
            ),
        ),
    ]
}

fn file_json(file: &File) -> Json {
    let rows = file
        .rows
        .iter()
        .map(|row| Json::List(row.numbers().map(Json::Number).to_vec()));
    let mut members = entry_members(&file.entry);
    members.push(("length", Json::Number(file.length)));
    members.push(("rows", Json::List(rows.collect())));
    object(members)
}

fn index_json(index: &Index) -> Json {
    let or_null = |value: Option<Json>| value.unwrap_or(Json::Null);
    object(vec![
        ("version", version_json(index.version)),
        ("creator", hex(index.creator.as_bytes())),
        ("uuid", hex(index.uuid.as_bytes())),
        ("generation", Json::Number(index.generation)),
        ("updatetime", hex(index.update_time.as_bytes())),
        ("location", place_json(&index.location)),
        ("allowpolicyupdate", Json::Bool(index.allow_policy_update)),
        ("highestfileuid", Json::Number(index.highest_file_uid)),
        (
            "comment",
            or_null(
                index
                    .comment
                    .as_ref()
                    .map(|comment| hex(comment.as_bytes())),
            ),
        ),
        ("back", or_null(index.back_pointer.as_ref().map(place_json))),
        ("policy", Json::Bool(index.has_policy)),
        ("entries", Json::Number(index.entries() as u64)),
        (
            "files",
            Json::List(index.files.iter().map(file_json).collect()),
        ),
        (
            "directories",
            Json::List(
                index
                    .directories
                    .iter()
                    .map(|entry| object(entry_members(entry)))
                    .collect(),
            ),
        ),
    ])
}

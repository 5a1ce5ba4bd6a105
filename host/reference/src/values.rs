//! Values as they stand in the text of labels and indexes.

use crate::xml::REFERENCES;

/// Replaces the five references. The text is one that the XML form allows, so
/// every `&` begins one of them.
pub fn decode(raw: &str) -> String {
    String::from_utf8(decode_bytes(raw.as_bytes())).expect("references are ASCII")
}

/// The same of any bytes; an `&` that begins no reference stays.
pub fn decode_bytes(raw: &[u8]) -> Vec<u8> {
    let mut decoded = Vec::new();
    let mut rest = raw;
    while let Some(first) = rest.first() {
        let mut meant = REFERENCES.iter().zip(b"&<>\"'");
        let (taken, byte) = meant
            .find(|(reference, _)| rest.starts_with(reference.as_bytes()))
            .map_or((1, first), |(reference, byte)| (reference.len(), byte));
        decoded.push(*byte);
        rest = &rest[taken..];
    }
    decoded
}

/// Decimal digits, at least one, up to 2^64 - 1.
fn digits(text: &[u8]) -> Option<u64> {
    if text.is_empty() || !text.iter().all(u8::is_ascii_digit) {
        return None;
    }
    text.iter().try_fold(0u64, |value, digit| {
        value.checked_mul(10)?.checked_add(u64::from(digit - b'0'))
    })
}

/// Digits without a leading zero: a part of a version.
fn plain_number(text: &[u8]) -> Option<u64> {
    if text.len() > 1 && text[0] == b'0' {
        return None;
    }
    digits(text)
}

/// A nonnegative integer as XML Schema spells it, up to 2^64 - 1: white space
/// around it, a sign, leading zeros. The only one with a minus is zero.
pub fn number(text: &[u8]) -> Option<u64> {
    let is_space = |byte: &u8| b" \t\r\n".contains(byte);
    let first = text.iter().position(|byte| !is_space(byte))?;
    let last = text.iter().rposition(|byte| !is_space(byte))?;
    match &text[first..=last] {
        [b'+', unsigned @ ..] => digits(unsigned),
        [b'-', unsigned @ ..] => digits(unsigned).filter(|value| *value == 0),
        unsigned => digits(unsigned),
    }
}

pub fn boolean(text: &[u8]) -> Option<bool> {
    match text {
        b"true" | b"1" => Some(true),
        b"false" | b"0" => Some(false),
        _ => None,
    }
}

/// `YYYY-MM-DDThh:mm:ss.nnnnnnnnnZ`; the day goes to 31 in any month.
pub fn is_time(text: &[u8]) -> bool {
    const FORM: &[u8; 30] = b"0000-00-00T00:00:00.000000000Z";
    if text.len() != FORM.len() {
        return false;
    }
    let form_holds = text.iter().zip(FORM).all(|(byte, form)| match form {
        b'0' => byte.is_ascii_digit(),
        separator => byte == separator,
    });
    if !form_holds {
        return false;
    }
    let two = |at: usize| (text[at] - b'0') * 10 + (text[at + 1] - b'0');
    (1..=12).contains(&two(5))
        && (1..=31).contains(&two(8))
        && two(11) <= 23
        && two(14) <= 59
        && two(17) <= 59
}

/// 8-4-4-4-12 hexadecimal digits of either case.
pub fn is_uuid(text: &[u8]) -> bool {
    text.len() == 36
        && text.iter().enumerate().all(|(at, byte)| match at {
            8 | 13 | 18 | 23 => *byte == b'-',
            _ => byte.is_ascii_hexdigit(),
        })
}

/// The number that a UUID's 32 digits are; none where the text is no UUID.
fn uuid_number(text: &[u8]) -> Option<u128> {
    if !is_uuid(text) {
        return None;
    }
    let digits: String = text
        .iter()
        .filter(|byte| **byte != b'-')
        .map(|byte| char::from(*byte))
        .collect();
    u128::from_str_radix(&digits, 16).ok()
}

/// Whether two texts are UUIDs that spell the same 16 bytes.
pub fn same_uuid(one: &[u8], other: &[u8]) -> bool {
    uuid_number(one).is_some() && uuid_number(one) == uuid_number(other)
}

pub fn is_letter(byte: u8) -> bool {
    byte.is_ascii_lowercase()
}

/// A partition letter as an element's text.
pub fn letter(text: &[u8]) -> Option<u8> {
    match text {
        [byte] if is_letter(*byte) => Some(*byte),
        _ => None,
    }
}

/// The characters of XML 1.0.
pub fn is_xml_char(c: char) -> bool {
    matches!(c, '\t' | '\n' | '\r' | '\u{20}'..='\u{D7FF}' | '\u{E000}'..='\u{FFFD}' | '\u{10000}'..='\u{10FFFF}')
}

fn has_control_byte(text: &[u8]) -> bool {
    text.iter().any(|byte| *byte < 32)
}

/// A decoded creator, or one given by a caller, who may give any bytes.
pub fn is_creator(text: &[u8]) -> bool {
    let characters_allowed = match std::str::from_utf8(text) {
        Ok(text) => text.chars().all(is_xml_char),
        Err(_) => false,
    };
    (1..=255).contains(&text.len()) && characters_allowed && !has_control_byte(text)
}

/// A decoded name. Only the root directory's may be empty.
pub fn is_name(text: &str, root_directory: bool) -> bool {
    let least = if root_directory { 0 } else { 1 };
    (least..=255).contains(&text.chars().count())
        && !text.contains('/')
        && !has_control_byte(text.as_bytes())
}

/// Three numbers M.N.R.
#[derive(Clone, Copy, Debug, PartialEq, Eq)]
pub struct Version(pub u16, pub u16, pub u16);

/// A version this format reads: 2.0.R, each part a plain number up to 65,535.
pub fn version(text: &[u8]) -> Option<Version> {
    let parts: Vec<u16> = text
        .split(|byte| *byte == b'.')
        .map(|part| plain_number(part).and_then(|value| u16::try_from(value).ok()))
        .collect::<Option<_>>()?;
    match parts[..] {
        [2, 0, r] => Some(Version(2, 0, r)),
        _ => None,
    }
}

#[cfg(test)]
mod tests {
    use super::*;

    #[test]
    fn references() {
        for (raw, decoded) in [
            ("&amp;&lt;&gt;&quot;&apos;", "&<>\"'"),
            ("&amp;lt;", "&lt;"),
            ("&&lt;&lt", "&<&lt"),
            ("&LT; &#38; &;", "&LT; &#38; &;"),
            ("", ""),
        ] {
            assert_eq!(decode(raw), decoded);
        }
        assert_eq!(decode_bytes(b"\xff&gt;\0&a"), b"\xff>\0&a");
    }

    #[test]
    fn numbers() {
        assert_eq!(number(b"0"), Some(0));
        assert_eq!(number(b"7"), Some(7));
        assert_eq!(number(b"18446744073709551615"), Some(u64::MAX));
        for (text, value) in [
            ("007", 7),
            ("00", 0),
            ("+7", 7),
            ("-0", 0),
            ("-000", 0),
            ("+0", 0),
            (" 7", 7),
            ("7 ", 7),
            ("\t\r\n +007\n\r\t ", 7),
            ("00000000000000000000000018446744073709551615", u64::MAX),
        ] {
            assert_eq!(number(text.as_bytes()), Some(value), "{text:?}");
        }
        for refused in [
            "",
            " ",
            "+",
            "-",
            " + ",
            "-7",
            "-007",
            "+ 7",
            "- 0",
            "7 7",
            "7+",
            "++7",
            "+-0",
            "-+0",
            "\u{c}7",
            "7\u{b}",
            "\u{a0}7",
            "18446744073709551616",
            "+18446744073709551616",
            "99999999999999999999999",
            "1a",
            "7.0",
            "\u{661}",
        ] {
            assert_eq!(number(refused.as_bytes()), None, "{refused:?}");
        }
    }

    #[test]
    fn plain_numbers() {
        assert_eq!(plain_number(b"0"), Some(0));
        assert_eq!(plain_number(b"7"), Some(7));
        assert_eq!(plain_number(b"18446744073709551615"), Some(u64::MAX));
        for refused in [
            "",
            "007",
            "00",
            "+1",
            "-0",
            " 7",
            "7 ",
            "18446744073709551616",
        ] {
            assert_eq!(plain_number(refused.as_bytes()), None, "{refused:?}");
        }
    }

    #[test]
    fn booleans() {
        assert_eq!(boolean(b"true"), Some(true));
        assert_eq!(boolean(b"1"), Some(true));
        assert_eq!(boolean(b"false"), Some(false));
        assert_eq!(boolean(b"0"), Some(false));
        for refused in ["", "True", "yes", "01", " true", "2"] {
            assert_eq!(boolean(refused.as_bytes()), None, "{refused:?}");
        }
    }

    #[test]
    fn times() {
        for good in [
            "2010-02-01T18:35:47.866846222Z",
            "0000-01-01T00:00:00.000000000Z",
            "9999-12-31T23:59:59.999999999Z",
            "2011-02-31T00:00:00.000000001Z",
        ] {
            assert!(is_time(good.as_bytes()), "{good}");
        }
        for bad in [
            "",
            "2010-00-01T18:35:47.866846222Z",
            "2010-13-01T18:35:47.866846222Z",
            "2010-02-00T18:35:47.866846222Z",
            "2010-02-32T18:35:47.866846222Z",
            "2010-02-01T24:35:47.866846222Z",
            "2010-02-01T18:60:47.866846222Z",
            "2010-02-01T18:35:60.866846222Z",
            "2010-02-01T18:35:47.86684622Z",
            "2010-02-01T18:35:47.8668462222Z",
            "2010-02-01t18:35:47.866846222Z",
            "2010-02-01T18:35:47.866846222z",
            "2010-02-01 18:35:47.866846222Z",
            "2010-02-01T18:35:47,866846222Z",
            "201a-02-01T18:35:47.866846222Z",
        ] {
            assert!(!is_time(bad.as_bytes()), "{bad}");
        }
    }

    #[test]
    fn uuids() {
        assert!(is_uuid(b"30a91a08-daae-48d1-ae75-69804e61d2ea"));
        assert!(is_uuid(b"30A91A08-DAAE-48D1-AE75-69804E61D2EA"));
        assert!(!is_uuid(b""));
        assert!(!is_uuid(b"30a91a08-daae-48d1-ae75-69804e61d2e"));
        assert!(!is_uuid(b"30a91a08-daae-48d1-ae75-69804e61d2eaa"));
        assert!(!is_uuid(b"30a91a08xdaae-48d1-ae75-69804e61d2ea"));
        assert!(!is_uuid(b"g0a91a08-daae-48d1-ae75-69804e61d2ea"));
        assert!(!is_uuid(b"30a91a0-8daae-48d1-ae75-69804e61d2ea"));
    }

    #[test]
    fn one_uuid_two_spellings() {
        let small = b"30a91a08-daae-48d1-ae75-69804e61d2ea";
        let large = small.to_ascii_uppercase();
        let mixed = b"30A91a08-DaAe-48d1-aE75-69804e61D2eA";
        for one in [&small[..], &large, mixed] {
            for other in [&small[..], &large, mixed] {
                assert!(same_uuid(one, other));
            }
        }
        for at in 0..small.len() {
            for byte in 0..=255 {
                let mut other = small.to_vec();
                other[at] = byte;
                let same = byte.eq_ignore_ascii_case(&small[at]);
                assert_eq!(same_uuid(small, &other), same, "byte {byte} at {at}");
                assert_eq!(same_uuid(&other, &large), same, "byte {byte} at {at}");
            }
        }
        // No UUID is the same as none, however alike they are spelled.
        for none in ["", "30a91a08", "g0a91a08-daae-48d1-ae75-69804e61d2ea"] {
            assert!(!same_uuid(none.as_bytes(), none.as_bytes()));
        }
    }

    #[test]
    fn letters() {
        assert_eq!(letter(b"a"), Some(b'a'));
        assert_eq!(letter(b"z"), Some(b'z'));
        for refused in ["", "A", "ab", "`", "{", "1", " a"] {
            assert_eq!(letter(refused.as_bytes()), None, "{refused:?}");
        }
    }

    #[test]
    fn creators() {
        assert!(is_creator(b" "));
        assert!(is_creator(&[b'c'; 255]));
        assert!(is_creator(&"é".repeat(127).into_bytes()));
        assert!(is_creator(b"a\x7fb"));
        assert!(!is_creator(b""));
        assert!(!is_creator(&[b'c'; 256]));
        assert!(!is_creator(&"é".repeat(128).into_bytes()));
        assert!(!is_creator(b"a\tb"));
        assert!(!is_creator(b"a\nb"));
        assert!(!is_creator(b"a\x00b"));
        assert!(!is_creator(b"a\xffb"));
        assert!(!is_creator("\u{FFFE}".as_bytes()));
        assert!(!is_creator(b"\xed\xa0\x80"));
    }

    #[test]
    fn names() {
        assert!(is_name(" ", false));
        assert!(is_name("a:b", false));
        assert!(is_name(&"é".repeat(255), false));
        assert!(is_name("", true));
        assert!(!is_name("", false));
        assert!(!is_name(&"é".repeat(256), false));
        assert!(!is_name(&"é".repeat(256), true));
        assert!(!is_name("a/b", false));
        assert!(!is_name("/", true));
        assert!(!is_name("a\tb", false));
        assert!(!is_name("\r", true));
    }

    #[test]
    fn versions() {
        assert_eq!(version(b"2.0.1"), Some(Version(2, 0, 1)));
        assert_eq!(version(b"2.0.65535"), Some(Version(2, 0, 65535)));
        assert_eq!(version(b"2.0.0"), Some(Version(2, 0, 0)));
        for refused in [
            "",
            "2",
            "2.0",
            "2.0.",
            ".0.1",
            "2.0.1.0",
            "2.0.01",
            " 2.0.1",
            "2.0.65536",
            "2.1.0",
            "1.0.1",
            "65536.0.0",
            "2.0.-1",
            "2.0.1 ",
        ] {
            assert_eq!(version(refused.as_bytes()), None, "{refused:?}");
        }
    }

    #[test]
    fn decoding() {
        assert_eq!(decode("a&amp;b&lt;c&gt;d&quot;e&apos;f"), "a&b<c>d\"e'f");
        assert_eq!(decode("&amp;lt;"), "&lt;");
        assert_eq!(decode("]]&gt;"), "]]>");
        assert_eq!(decode(" plain "), " plain ");
    }
}

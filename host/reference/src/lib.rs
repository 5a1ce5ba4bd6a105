//! A plain reading of the volume rules, written to be held against the
//! specification function by function. It is meant for tests: it favours the
//! shortest statement of a rule over speed.

pub mod ansi;
pub mod c_cases;
pub mod c_functions;
pub mod extents;
pub mod index;
pub mod label;
pub mod program;
pub mod random;
pub mod random_ansi;
pub mod structure;
pub mod tape;
pub mod values;
pub mod vol1;
pub mod volume;
pub mod whole;
pub mod xml;

/// Why something is refused.
#[derive(Clone, Copy, Debug, PartialEq, Eq)]
pub enum Refusal {
    /// The block list or its store is malformed.
    List,
    /// No such element, construct, file or file position.
    Missing,
    /// Not a VOL1 label.
    Vol1,
    /// Text outside the XML form: the length of its longest front that some text in
    /// the form begins with, and whether it is the data partition's label.
    Form { front: usize, of_data_label: bool },
    /// Wrong root, or a missing, repeated, unknown or misplaced element or attribute.
    Structure,
    /// A value outside its rule.
    Value,
    /// Not a version 2.0.R.
    Version,
    /// Labels disagree, or an index belongs to another volume.
    Disagreement,
    /// The partition does not begin with a label construct.
    LabelConstruct,
    /// The lent output is too short.
    ShortOutput,
    /// Extents are unlawful.
    Extents,
    /// An index does not stand where it says.
    Location,
    /// No consistent cut exists.
    NoCut,
    /// A caller's field or number is outside its rule.
    Argument,
    /// Text too long, or too many entries or extents.
    TooLong,
    /// Not laid out as an ANSI labelled tape, or a label of it is wrong.
    AnsiLabels,
    /// An EOV1 label in the place of EOF1.
    EndOfVolume,
    /// EOF1's block count is not that of the data blocks present.
    BlockCount,
    /// A block that the drive couldn't read, or an index with one in it.
    Unreadable,
}

impl Refusal {
    /// Of any text but the data partition's label.
    pub fn form(front: usize) -> Refusal {
        Refusal::Form {
            front,
            of_data_label: false,
        }
    }

    /// The same refusal, of the data partition's label.
    pub fn of_data_label(self) -> Refusal {
        match self {
            Refusal::Form { front, .. } => Refusal::Form {
                front,
                of_data_label: true,
            },
            other => other,
        }
    }

    /// The specification's number.
    pub fn number(self) -> u64 {
        match self {
            Refusal::List => 1,
            Refusal::Missing => 2,
            Refusal::Vol1 => 3,
            Refusal::Form { .. } => 4,
            Refusal::Structure => 5,
            Refusal::Value => 6,
            Refusal::Version => 7,
            Refusal::Disagreement => 8,
            Refusal::LabelConstruct => 9,
            Refusal::ShortOutput => 10,
            Refusal::Extents => 11,
            Refusal::Location => 12,
            Refusal::NoCut => 13,
            Refusal::Argument => 14,
            Refusal::TooLong => 15,
            Refusal::AnsiLabels => 16,
            Refusal::EndOfVolume => 17,
            Refusal::BlockCount => 18,
            Refusal::Unreadable => 19,
        }
    }
}

/// The refusal unless the condition holds.
pub(crate) fn require(condition: bool, refusal: Refusal) -> Result<(), Refusal> {
    if condition {
        Ok(())
    } else {
        Err(refusal)
    }
}

//! A volume of two partitions: its labels, constructs, verdict and rescue.

use crate::extents::Row;
use crate::index::{self, Index, Place};
use crate::label::{self, agree, Label, SideLabels};
use crate::tape::{Element, Partition, Side};
use crate::vol1::Vol1;
use crate::{require, Refusal};

// ---- Labels ----

/// The labels of a volume that agree.
#[derive(Clone, Debug, PartialEq, Eq)]
pub struct VolumeLabels {
    pub index: SideLabels,
    pub data: SideLabels,
}

/// Checks the labels of both sides in the volume order.
pub fn check_labels(index: Side, data: Side) -> Result<VolumeLabels, Refusal> {
    let index = index.read()?;
    let data = data.read()?;
    read_labels(&index, &data)
}

fn read_labels(index: &Partition, data: &Partition) -> Result<VolumeLabels, Refusal> {
    require(has_label_construct(index), Refusal::LabelConstruct)?;
    require(has_label_construct(data), Refusal::LabelConstruct)?;
    let index_vol1 = Vol1::read(index.block(0)?)?;
    let data_vol1 = Vol1::read(data.block(0)?)?;
    let index_label = label::read(index.block(2)?)?;
    let data_label = label::read(data.block(2)?).map_err(Refusal::of_data_label)?;
    let labels = VolumeLabels {
        index: SideLabels {
            vol1: index_vol1,
            label: index_label,
        },
        data: SideLabels {
            vol1: data_vol1,
            label: data_label,
        },
    };
    require(agree(&labels.index, &labels.data), Refusal::Disagreement)?;
    Ok(labels)
}

/// Elements 0 to 3 are block, mark, block, mark.
fn has_label_construct(partition: &Partition) -> bool {
    matches!(
        partition.elements[..],
        [
            Element::Block { .. },
            Element::FileMark,
            Element::Block { .. },
            Element::FileMark,
            ..
        ]
    )
}

// ---- Constructs ----

/// An index construct: its index run and its closing mark.
#[derive(Clone, Copy, Debug, PartialEq, Eq)]
pub struct Construct {
    pub first_block: usize,
    pub last_block: usize,
    pub closing_mark: usize,
}

/// What a partition holds from element 4 on.
#[derive(Clone, Debug, PartialEq, Eq)]
pub struct Layout {
    /// The constructs closed before the first defect.
    pub standing: Vec<Construct>,
    /// The element where the first defect shows.
    pub first_defect: Option<usize>,
    /// The element numbers of data blocks in rising order, by the parity of marks
    /// also after a defect; unreadable ones among them.
    pub data_blocks: Vec<usize>,
}

/// A block of a run: its element number, and its length where it was read.
type RunBlock = (usize, Option<u64>);

impl Layout {
    fn defect_at(&mut self, number: usize) {
        self.first_defect.get_or_insert(number);
    }

    /// The index run that this mark closes.
    fn close(&mut self, run: &[RunBlock], mark: usize) {
        let (Some((first, _)), Some((last, _))) = (run.first(), run.last()) else {
            return self.defect_at(mark);
        };
        if self.first_defect.is_none() {
            self.standing.push(Construct {
                first_block: *first,
                last_block: *last,
                closing_mark: mark,
            });
        }
    }
}

/// Walks the runs. A block shorter than the block size in an index run becomes a
/// defect at the block that follows it, unreadable or not.
pub fn layout(partition: &Partition, block_size: u64) -> Layout {
    let mut layout = Layout {
        standing: Vec::new(),
        first_defect: None,
        data_blocks: Vec::new(),
    };
    // The index run that is open, if one is.
    let mut index_run: Option<Vec<RunBlock>> = None;
    for (number, element) in partition.elements.iter().enumerate().skip(4) {
        let length = match element {
            Element::Block { length, .. } => Some(*length as u64),
            Element::Unreadable => None,
            Element::FileMark => {
                match index_run.take() {
                    None => index_run = Some(Vec::new()),
                    Some(run) => layout.close(&run, number),
                }
                continue;
            }
        };
        if length.is_some_and(|length| length > block_size) {
            layout.defect_at(number);
        }
        match &mut index_run {
            None => layout.data_blocks.push(number),
            Some(run) => {
                if ends_short(run, block_size) {
                    layout.defect_at(number);
                }
                run.push((number, length));
            }
        }
    }
    layout
}

/// Whether the run's last block is known not to be full; an unreadable one may
/// have been.
fn ends_short(run: &[RunBlock], block_size: u64) -> bool {
    match run.last() {
        Some((_, Some(length))) => *length != block_size,
        Some((_, None)) | None => false,
    }
}

/// Whether the last element is the closing mark of a standing construct.
fn ends_with_construct(partition: &Partition, layout: &Layout) -> bool {
    layout
        .standing
        .last()
        .is_some_and(|construct| construct.closing_mark + 1 == partition.elements.len())
}

/// The text of a construct's index, read at its place; refusal 19 where it has none.
fn read_construct(
    partition: &Partition,
    label: &Label,
    letter: u8,
    construct: &Construct,
) -> Result<Index, Refusal> {
    let text = partition
        .blocks(construct.first_block, construct.last_block)
        .ok_or(Refusal::Unreadable)?;
    index::read(text, label, construct_place(letter, construct))
}

fn construct_place(letter: u8, construct: &Construct) -> Place {
    Place {
        letter,
        start_block: construct.first_block as u64,
    }
}

/// The index of standing construct `number` on the partition `letter`, with the
/// element numbers of its first block and its closing mark.
pub fn index_of_construct(
    side: Side,
    label: &Label,
    letter: u8,
    number: u64,
) -> Result<(Index, Construct), Refusal> {
    index::check_arguments(label, letter)?;
    let partition = side.read()?;
    let standing = layout(&partition, label.block_size).standing;
    let construct = usize::try_from(number)
        .ok()
        .and_then(|n| standing.get(n))
        .ok_or(Refusal::Missing)?;
    let index = read_construct(&partition, label, letter, construct)?;
    Ok((index, *construct))
}

// ---- Extents on the tape ----

/// Whether the row's bytes are on this partition: its blocks are data blocks that
/// were read, all but the last full, the last long enough.
pub fn lies_on(row: &Row, partition: &Partition, layout: &Layout, block_size: u64) -> bool {
    let last = row.last_block(block_size);
    if last >= partition.elements.len() as u128 {
        return false;
    }
    (row.start_block as usize..=last as usize).all(|number| {
        let length = match partition.elements[number] {
            Element::Block { length, .. } => length as u128,
            Element::FileMark | Element::Unreadable => return false,
        };
        layout.data_blocks.binary_search(&number).is_ok()
            && if number as u128 == last {
                length >= row.need_of_last_block(block_size)
            } else {
                length == u128::from(block_size)
            }
    })
}

// ---- Verdict ----

#[derive(Clone, Copy, Debug, PartialEq, Eq)]
pub enum Verdict {
    Consistent,
    /// The first break that holds, and its number.
    Break {
        which: u64,
        number: u64,
    },
}

/// The verdict on a whole volume; refused where its labels are.
pub fn verdict(index: Side, data: Side) -> Result<Verdict, Refusal> {
    let index = index.read()?;
    let data = data.read()?;
    let labels = read_labels(&index, &data)?;
    Ok(judge(&index, &data, &labels))
}

/// The breaks in order, on partitions whose labels agree.
fn judge(index: &Partition, data: &Partition, labels: &VolumeLabels) -> Verdict {
    let label = &labels.index.label;
    let letters = label.letters;
    let index_layout = layout(index, label.block_size);
    let data_layout = layout(data, label.block_size);
    let breaks = |which, number: usize| Verdict::Break {
        which,
        number: number as u64,
    };

    if !ends_with_construct(index, &index_layout) {
        return breaks(1, 0);
    }
    if !ends_with_construct(data, &data_layout) {
        return breaks(2, 0);
    }

    // The generation and place of the data partition's index before.
    let mut before: Option<(u64, Place)> = None;
    for (number, construct) in data_layout.standing.iter().enumerate() {
        let read = match read_construct(data, label, letters.data, construct) {
            Ok(read) => read,
            Err(_) => return breaks(3, number),
        };
        let chained = match before {
            None => read.back_pointer.is_none(),
            Some((generation, place)) => {
                read.back_pointer == Some(place) && read.generation >= generation
            }
        };
        if !chained {
            return breaks(3, number);
        }
        before = Some((read.generation, construct_place(letters.data, construct)));
    }
    let (data_generation, data_place) = before.expect("break 2 leaves a data construct");

    let last = index_layout.standing.len() - 1;
    let read = match read_construct(index, label, letters.index, &index_layout.standing[last]) {
        Ok(read) => read,
        Err(_) => return breaks(4, last),
    };
    if read.back_pointer != Some(data_place) || read.generation < data_generation {
        return breaks(4, last);
    }

    let on_tape = |row: &Row| {
        if row.letter == letters.index {
            lies_on(row, index, &index_layout, label.block_size)
        } else {
            lies_on(row, data, &data_layout, label.block_size)
        }
    };
    match read
        .files
        .iter()
        .position(|file| !file.rows.iter().all(on_tape))
    {
        Some(file) => breaks(5, file),
        None => Verdict::Consistent,
    }
}

// ---- Rescue ----

#[derive(Clone, Copy, Debug, PartialEq, Eq)]
pub struct Cut {
    pub index_construct: u64,
    pub data_construct: u64,
    pub index_kept: u64,
    pub data_kept: u64,
    /// Of the last index kept in the index partition.
    pub generation: u64,
}

/// The rescue by its definition: of all pairs of places to stop that leave a
/// consistent volume, the one that keeps most index constructs in the index
/// partition. Looks at every pair, so it is for small volumes.
pub fn rescue_by_every_pair(index: Side, data: Side) -> Result<Cut, Refusal> {
    let pairs = consistent_pairs(index, data)?;
    let most = pairs
        .iter()
        .map(|cut| cut.index_construct)
        .max()
        .ok_or(Refusal::NoCut)?;
    let best: Vec<&Cut> = pairs
        .iter()
        .filter(|cut| cut.index_construct == most)
        .collect();
    assert_eq!(
        best.len(),
        1,
        "the pair that keeps most index constructs is the only one"
    );
    Ok(*best[0])
}

/// Every pair of places to stop that leaves a consistent volume, as a cut.
pub fn consistent_pairs(index: Side, data: Side) -> Result<Vec<Cut>, Refusal> {
    let index = index.read()?;
    let data = data.read()?;
    read_labels(&index, &data)?;
    let mut pairs = Vec::new();
    for index_kept in 0..=index.elements.len() {
        let index_front = index.keep(index_kept);
        for data_kept in 0..=data.elements.len() {
            let data_front = data.keep(data_kept);
            // Under four elements no labels agree, and the pair is not consistent.
            let labels = match read_labels(&index_front, &data_front) {
                Ok(labels) => labels,
                Err(_) => continue,
            };
            if judge(&index_front, &data_front, &labels) == Verdict::Consistent {
                pairs.push(describe(&index_front, &data_front, &labels));
            }
        }
    }
    Ok(pairs)
}

/// The cut that leaves these two fronts, which are consistent.
fn describe(index: &Partition, data: &Partition, labels: &VolumeLabels) -> Cut {
    let label = &labels.index.label;
    let index_standing = layout(index, label.block_size).standing;
    let data_standing = layout(data, label.block_size).standing;
    let last = index_standing
        .last()
        .expect("a consistent volume ends with one");
    let read =
        read_construct(index, label, label.letters.index, last).expect("its last index is sound");
    Cut {
        index_construct: index_standing.len() as u64 - 1,
        data_construct: data_standing.len() as u64 - 1,
        index_kept: index.elements.len() as u64,
        data_kept: data.elements.len() as u64,
        generation: read.generation,
    }
}

/// The rescue by search: from the last standing construct of the index partition
/// down, the first whose back pointer gives a data construct at which the fronts
/// through both closing marks are consistent.
pub fn rescue(index: Side, data: Side) -> Result<Cut, Refusal> {
    let index = index.read()?;
    let data = data.read()?;
    let labels = read_labels(&index, &data)?;
    let label = &labels.index.label;
    let letters = label.letters;
    let index_standing = layout(&index, label.block_size).standing;
    let data_standing = layout(&data, label.block_size).standing;
    for construct in index_standing.iter().rev() {
        let read = match read_construct(&index, label, letters.index, construct) {
            Ok(read) => read,
            Err(_) => continue,
        };
        let target = data_standing
            .iter()
            .find(|target| read.back_pointer == Some(construct_place(letters.data, target)));
        let target = match target {
            Some(target) => target,
            None => continue,
        };
        let index_front = index.keep(construct.closing_mark + 1);
        let data_front = data.keep(target.closing_mark + 1);
        if judge(&index_front, &data_front, &labels) == Verdict::Consistent {
            return Ok(describe(&index_front, &data_front, &labels));
        }
    }
    Err(Refusal::NoCut)
}

//! Extents: lawful rows and the byte map.

use crate::values::is_letter;
use crate::{require, Refusal};

pub const MAX_EXTENTS: usize = 1_024;
pub const MIN_BLOCK_SIZE: u64 = 4_096;
pub const MAX_BLOCK_SIZE: u64 = 1_048_576;

pub fn is_block_size(block_size: u64) -> bool {
    (MIN_BLOCK_SIZE..=MAX_BLOCK_SIZE).contains(&block_size)
}

#[derive(Clone, Copy, Debug, PartialEq, Eq)]
pub struct Row {
    pub letter: u8,
    pub start_block: u64,
    pub byte_offset: u64,
    pub byte_count: u64,
    pub file_offset: u64,
}

impl Row {
    /// As the five numbers that are handed out.
    pub fn numbers(&self) -> [u64; 5] {
        [
            u64::from(self.letter),
            self.start_block,
            self.byte_offset,
            self.byte_count,
            self.file_offset,
        ]
    }

    /// The file position just past the row.
    fn file_end(&self) -> u128 {
        u128::from(self.file_offset) + u128::from(self.byte_count)
    }

    /// The number of the row's last block; the row has at least one byte.
    pub fn last_block(&self, block_size: u64) -> u128 {
        u128::from(self.start_block) + (self.end_in_blocks() - 1) / u128::from(block_size)
    }

    /// How many bytes of the last block the row needs.
    pub fn need_of_last_block(&self, block_size: u64) -> u128 {
        (self.end_in_blocks() - 1) % u128::from(block_size) + 1
    }

    /// Bytes from the beginning of the start block to the row's end.
    fn end_in_blocks(&self) -> u128 {
        u128::from(self.byte_offset) + u128::from(self.byte_count)
    }
}

/// Whether the rows of one file of this length are lawful.
pub fn lawful(rows: &[Row], length: u64, block_size: u64) -> bool {
    let each = rows.iter().all(|row| {
        row.byte_count >= 1
            && row.byte_offset < block_size
            && row.file_end() <= u128::from(length)
            && row.last_block(block_size) <= u128::from(u64::MAX)
    });
    each && disjoint(rows)
}

/// Whether no two rows share a file position. All have at least one byte, so in
/// order of file offset each must end at or before the next.
fn disjoint(rows: &[Row]) -> bool {
    let mut sorted = rows.to_vec();
    sorted.sort_by_key(|row| row.file_offset);
    sorted
        .windows(2)
        .all(|pair| pair[0].file_end() <= u128::from(pair[1].file_offset))
}

/// Where a byte of a file is.
#[derive(Clone, Copy, Debug, PartialEq, Eq)]
pub enum FileByte {
    Stored {
        letter: u8,
        block: u64,
        byte: u64,
    },
    /// In no row: zero, and not stored.
    Zero,
}

/// The place of file position `position`, the rows given as numbers in fives.
pub fn byte_map(
    numbers: &[u64],
    length: u64,
    block_size: u64,
    position: u64,
) -> Result<FileByte, Refusal> {
    require(is_block_size(block_size), Refusal::Argument)?;
    require(numbers.len() % 5 == 0, Refusal::Argument)?;
    let rows: Vec<Row> = numbers
        .chunks(5)
        .map(row_of_numbers)
        .collect::<Option<_>>()
        .ok_or(Refusal::Argument)?;
    require(rows.len() <= MAX_EXTENTS, Refusal::TooLong)?;
    require(lawful(&rows, length, block_size), Refusal::Extents)?;
    require(position < length, Refusal::Missing)?;
    let holding = rows
        .iter()
        .find(|row| row.file_offset <= position && u128::from(position) < row.file_end());
    Ok(match holding {
        None => FileByte::Zero,
        Some(row) => {
            // Below 2 * 2^64, and a lawful row's blocks fit 64 bits.
            let distance = u128::from(row.byte_offset) + u128::from(position - row.file_offset);
            FileByte::Stored {
                letter: row.letter,
                block: row.start_block + (distance / u128::from(block_size)) as u64,
                byte: (distance % u128::from(block_size)) as u64,
            }
        }
    })
}

fn row_of_numbers(five: &[u64]) -> Option<Row> {
    let letter = u8::try_from(five[0])
        .ok()
        .filter(|letter| is_letter(*letter))?;
    Some(Row {
        letter,
        start_block: five[1],
        byte_offset: five[2],
        byte_count: five[3],
        file_offset: five[4],
    })
}

#[cfg(test)]
mod tests {
    use super::*;

    fn row(start_block: u64, byte_offset: u64, byte_count: u64, file_offset: u64) -> Row {
        Row {
            letter: b'b',
            start_block,
            byte_offset,
            byte_count,
            file_offset,
        }
    }

    #[test]
    fn bench_row() {
        let rows = [u64::from(b'b'), 10, 100, 8000, 0];
        let at = |position| byte_map(&rows, 9000, 4096, position);
        assert_eq!(
            at(3995),
            Ok(FileByte::Stored {
                letter: b'b',
                block: 10,
                byte: 4095
            })
        );
        assert_eq!(
            at(3996),
            Ok(FileByte::Stored {
                letter: b'b',
                block: 11,
                byte: 0
            })
        );
        assert_eq!(
            at(7999),
            Ok(FileByte::Stored {
                letter: b'b',
                block: 11,
                byte: 4003
            })
        );
        assert_eq!(at(8000), Ok(FileByte::Zero));
        assert_eq!(at(8999), Ok(FileByte::Zero));
        assert_eq!(at(9000), Err(Refusal::Missing));
    }

    #[test]
    fn rows_may_touch_but_not_share() {
        assert!(lawful(&[row(0, 0, 10, 0), row(0, 0, 10, 10)], 20, 4096));
        assert!(lawful(&[row(0, 0, 10, 10), row(0, 0, 10, 0)], 20, 4096));
        assert!(!lawful(&[row(0, 0, 10, 0), row(0, 0, 10, 9)], 20, 4096));
        assert!(!lawful(&[row(0, 0, 10, 9), row(0, 0, 10, 0)], 20, 4096));
        assert!(!lawful(
            &[row(0, 0, 10, 0), row(0, 0, 1, 3), row(0, 0, 5, 10)],
            20,
            4096
        ));
        assert!(!lawful(&[row(0, 0, 1, 3), row(0, 0, 1, 3)], 20, 4096));
    }

    #[test]
    fn limits_of_one_row() {
        assert!(lawful(&[], 0, 4096));
        assert!(!lawful(&[row(0, 0, 0, 0)], 20, 4096));
        assert!(lawful(&[row(0, 4095, 1, 0)], 20, 4096));
        assert!(!lawful(&[row(0, 4096, 1, 0)], 20, 4096));
        assert!(lawful(&[row(0, 0, 1, 19)], 20, 4096));
        assert!(!lawful(&[row(0, 0, 2, 19)], 20, 4096));
        assert!(!lawful(&[row(0, 0, u64::MAX, u64::MAX)], u64::MAX, 4096));
        assert!(lawful(&[row(0, 0, u64::MAX, 0)], u64::MAX, 4096));
    }

    #[test]
    fn last_block_number_fits() {
        assert!(lawful(&[row(u64::MAX, 0, 4096, 0)], 4096, 4096));
        assert!(!lawful(&[row(u64::MAX, 0, 4097, 0)], 4097, 4096));
        assert!(!lawful(&[row(u64::MAX, 1, 4096, 0)], 4096, 4096));
        let numbers = row(u64::MAX - 1, 4095, 4097, 0).numbers();
        assert_eq!(
            byte_map(&numbers, 4097, 4096, 4096),
            Ok(FileByte::Stored {
                letter: b'b',
                block: u64::MAX,
                byte: 4095
            })
        );
    }

    #[test]
    fn byte_map_refusals_in_order() {
        let unlawful = row(0, 0, 0, 0).numbers();
        assert_eq!(byte_map(&unlawful, 1, 4095, 0), Err(Refusal::Argument));
        assert_eq!(byte_map(&unlawful, 1, 1_048_577, 0), Err(Refusal::Argument));
        assert_eq!(byte_map(&unlawful[..4], 1, 4096, 0), Err(Refusal::Argument));
        assert_eq!(
            byte_map(&[65, 0, 0, 1, 0], 1, 4096, 0),
            Err(Refusal::Argument)
        );
        assert_eq!(
            byte_map(&[353, 0, 0, 1, 0], 1, 4096, 0),
            Err(Refusal::Argument)
        );
        assert_eq!(byte_map(&unlawful, 1, 4096, 9), Err(Refusal::Extents));
        let many = unlawful.repeat(MAX_EXTENTS + 1);
        assert_eq!(byte_map(&many, 1, 4096, 0), Err(Refusal::TooLong));
        assert_eq!(
            byte_map(&unlawful.repeat(MAX_EXTENTS), 1, 4096, 0),
            Err(Refusal::Extents)
        );
        let mut capital_late = many;
        capital_late[5 * MAX_EXTENTS] = 65;
        assert_eq!(byte_map(&capital_late, 1, 4096, 0), Err(Refusal::Argument));
        assert_eq!(byte_map(&[], 0, 4096, 0), Err(Refusal::Missing));
        assert_eq!(byte_map(&[], 1, 4096, 0), Ok(FileByte::Zero));
    }
}

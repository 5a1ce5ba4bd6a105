//! The VOL1 label.

use crate::{require, Refusal};

pub const LENGTH: usize = 80;

#[derive(Clone, Debug, PartialEq, Eq)]
pub struct Vol1 {
    pub identifier: [u8; 6],
    pub owner: [u8; 14],
}

fn is_printable(bytes: &[u8]) -> bool {
    bytes.iter().all(|byte| (32..=126).contains(byte))
}

impl Vol1 {
    /// The eighty bytes of the label.
    pub fn bytes(&self) -> [u8; LENGTH] {
        let mut bytes = [b' '; LENGTH];
        bytes[0..4].copy_from_slice(b"VOL1");
        bytes[4..10].copy_from_slice(&self.identifier);
        bytes[10] = b'L';
        bytes[24..28].copy_from_slice(b"LTFS");
        bytes[37..51].copy_from_slice(&self.owner);
        bytes[79] = b'4';
        bytes
    }

    pub fn read(block: &[u8]) -> Result<Vol1, Refusal> {
        require(block.len() == LENGTH, Refusal::Vol1)?;
        let label = Vol1 {
            identifier: block[4..10].try_into().expect("six bytes"),
            owner: block[37..51].try_into().expect("fourteen bytes"),
        };
        require(
            is_printable(&label.identifier) && is_printable(&label.owner),
            Refusal::Vol1,
        )?;
        // The constant fields are right when writing the two others gives the block back.
        require(label.bytes() == block, Refusal::Vol1)?;
        Ok(label)
    }

    /// Writes the label to the front of the buffer; answers its length.
    pub fn write(identifier: &[u8], owner: &[u8], buffer: &mut [u8]) -> Result<usize, Refusal> {
        require(
            is_printable(identifier) && is_printable(owner),
            Refusal::Argument,
        )?;
        let label = Vol1 {
            identifier: identifier.try_into().map_err(|_| Refusal::Argument)?,
            owner: owner.try_into().map_err(|_| Refusal::Argument)?,
        };
        require(buffer.len() >= LENGTH, Refusal::ShortOutput)?;
        buffer[..LENGTH].copy_from_slice(&label.bytes());
        Ok(LENGTH)
    }
}

#[cfg(test)]
mod tests {
    use super::*;

    /// Field by field, apart from `bytes`.
    const SAMPLE: &[u8; 80] = b"VOL1ABC123L             LTFS         Owner         \
                                \x20                           4";

    #[test]
    fn reads_and_writes_back() {
        let label = Vol1::read(SAMPLE).unwrap();
        assert_eq!(&label.identifier, b"ABC123");
        assert_eq!(&label.owner, b"Owner         ");
        let mut buffer = [7u8; 83];
        assert_eq!(
            Vol1::write(b"ABC123", b"Owner         ", &mut buffer),
            Ok(80)
        );
        assert_eq!(&buffer[..80], SAMPLE);
        assert_eq!(&buffer[80..], [7, 7, 7]);
    }

    #[test]
    fn every_constant_byte_counts() {
        for at in 0..80 {
            let free = (4..10).contains(&at) || (37..51).contains(&at);
            let mut changed = *SAMPLE;
            changed[at] = if SAMPLE[at] == b'~' { b'!' } else { b'~' };
            assert_eq!(Vol1::read(&changed).is_ok(), free, "byte {at}");
            changed[at] = 31;
            assert_eq!(Vol1::read(&changed), Err(Refusal::Vol1), "byte {at}");
            changed[at] = 127;
            assert_eq!(Vol1::read(&changed), Err(Refusal::Vol1), "byte {at}");
        }
    }

    #[test]
    fn length_is_exact() {
        assert_eq!(Vol1::read(&SAMPLE[..79]), Err(Refusal::Vol1));
        assert_eq!(
            Vol1::read(&[&SAMPLE[..], b" "].concat()),
            Err(Refusal::Vol1)
        );
        assert_eq!(Vol1::read(b""), Err(Refusal::Vol1));
    }

    #[test]
    fn writer_refuses_fields_before_the_buffer() {
        let owner = [b' '; 14];
        for (identifier, owner) in [
            (&b"ABC12"[..], &owner[..]),
            (b"ABC1234", &owner),
            (b"ABC12\x7f", &owner),
            (b"ABC123", &owner[1..]),
            (b"ABC123", b"owner\x1f        "),
        ] {
            let mut buffer = [7u8; 10];
            assert_eq!(
                Vol1::write(identifier, owner, &mut buffer),
                Err(Refusal::Argument)
            );
            assert_eq!(buffer, [7; 10]);
        }
        let mut buffer = [7u8; 79];
        assert_eq!(
            Vol1::write(b"ABC123", &owner, &mut buffer),
            Err(Refusal::ShortOutput)
        );
        assert_eq!(buffer, [7; 79]);
    }
}

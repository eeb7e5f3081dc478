//! One record of a floor file.

pub const RECORD_BYTES: usize = 16;

#[derive(Clone, Copy, Debug, PartialEq, Eq)]
pub struct Record {
    pub kind: u16,
    pub index: u16,
    /// a, b and c.
    pub fields: [u32; 3],
}

impl Record {
    /// The first one of these bytes.
    pub fn read(bytes: &[u8]) -> Record {
        let half = |at: usize| u16::from_le_bytes([bytes[at], bytes[at + 1]]);
        let whole = |at: usize| u32::from(half(at)) | u32::from(half(at + 2)) << 16;
        Record {
            kind: half(0),
            index: half(2),
            fields: [whole(4), whole(8), whole(12)],
        }
    }

    /// Those of a file, as they stand in it.
    pub fn all(file: &[u8]) -> Vec<Record> {
        file.chunks_exact(RECORD_BYTES).map(Record::read).collect()
    }

    pub fn bytes(self) -> Vec<u8> {
        let mut bytes = [self.kind, self.index].map(u16::to_le_bytes).concat();
        bytes.extend(self.fields.map(u32::to_le_bytes).concat());
        bytes
    }
}

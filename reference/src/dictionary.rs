//! The four dictionary tables that the caller lends (paper: "What the bench holds").

use crate::answers::{require, Refusal};

/// Size of a lent dictionary: 128 numbers of four bytes.
pub const DICTIONARY_BYTES: usize = 512;
/// How many numbers each table holds.
pub const TABLE_LENGTH: usize = 32;
/// How wide the numbers of each table may be, in the order the tables are lent.
pub const TABLE_WIDTHS: [u32; 4] = [17, 18, 15, 12];

/// One table of the dictionary.
pub type Table = [u32; TABLE_LENGTH];

/// The four tables.
#[derive(Clone, PartialEq, Eq, Debug)]
pub struct Dictionary {
    pub control: Table,
    pub datatype: Table,
    pub subregister: Table,
    pub source: Table,
}

impl Dictionary {
    /// A dictionary of zeros, which is legal.
    pub fn zero() -> Dictionary {
        let table = [0; TABLE_LENGTH];
        Dictionary { control: table, datatype: table, subregister: table, source: table }
    }

    /// Reads 512 bytes and gives refusal 2 if a number is wider than its table.
    pub fn read(bytes: &[u8]) -> Result<Dictionary, Refusal> {
        let dictionary = Dictionary {
            control: read_table(bytes, 0),
            datatype: read_table(bytes, 1),
            subregister: read_table(bytes, 2),
            source: read_table(bytes, 3),
        };
        require(dictionary.fits_widths(), 2)?;
        Ok(dictionary)
    }

    /// The tables in the order in which they are lent.
    pub fn tables(&self) -> [&Table; 4] {
        [&self.control, &self.datatype, &self.subregister, &self.source]
    }

    fn fits_widths(&self) -> bool {
        let tables = self.tables().into_iter().zip(TABLE_WIDTHS);
        tables.into_iter().all(|(table, width)| table.iter().all(|number| number >> width == 0))
    }

    /// The 512 bytes of the dictionary.
    pub fn to_bytes(&self) -> Vec<u8> {
        let numbers = self.tables().into_iter().flatten();
        numbers.flat_map(|number| number.to_le_bytes()).collect()
    }
}

fn read_table(bytes: &[u8], which: usize) -> Table {
    std::array::from_fn(|index| {
        let start = 4 * (which * TABLE_LENGTH + index);
        u32::from_le_bytes(bytes[start..start + 4].try_into().expect("four bytes"))
    })
}

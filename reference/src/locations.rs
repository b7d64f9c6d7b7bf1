//! What an operand is and where it lies, by its file, its register bits and its AddrMode (paper:
//! "The long word"; 02 §7; source document 000, figure 5-1).

use crate::regions::{FILE_BYTES, REGISTER_BYTES};
use crate::words::{sign_extend, FILE_ARCHITECTURE, FILE_IMMEDIATE, FILE_REGISTER};

/// The architecture register that is null.
pub const NULL: u32 = 0;
/// The architecture register that is a0.
pub const A0: u32 = 0x10;
/// The numbers of a0, 16 bits each.
pub const A0_ELEMENTS: usize = 8;
/// Bytes of a0.
pub const A0_BYTES: usize = 2 * A0_ELEMENTS;

/// What an operand is.
#[derive(Clone, Copy, PartialEq, Eq, Debug)]
pub enum Kind {
    /// In the register file, where the word says.
    Register,
    /// In the register file, where an element of a0 says.
    ByAddress,
    /// In a0.
    A0,
    Null,
    Immediate,
    /// None that is served.
    Other,
}

impl Kind {
    /// Whether the operand has a region: neither null nor an immediate.
    pub fn has_region(self) -> bool {
        matches!(self, Kind::Register | Kind::ByAddress | Kind::A0)
    }

    /// How many bytes there are where the word says that the operand lies. None if it says no
    /// such place.
    pub fn bytes(self) -> Option<usize> {
        match self {
            Kind::Register => Some(FILE_BYTES),
            Kind::A0 => Some(A0_BYTES),
            _ => None,
        }
    }
}

/// The bits of a word that say where an operand lies.
#[derive(Clone, Copy, PartialEq, Eq, Debug)]
pub struct Location {
    pub file: u32,
    pub register: u32,
    pub subregister: u32,
    pub address_mode: u32,
}

impl Location {
    /// AddrMode and register bits mean nothing beside an immediate.
    pub fn kind(self) -> Kind {
        match (self.file, self.address_mode, self.register) {
            (FILE_IMMEDIATE, _, _) => Kind::Immediate,
            (FILE_REGISTER, 0, _) => Kind::Register,
            (FILE_REGISTER, _, _) => Kind::ByAddress,
            (FILE_ARCHITECTURE, 0, NULL) => Kind::Null,
            (FILE_ARCHITECTURE, 0, A0) => Kind::A0,
            _ => Kind::Other,
        }
    }

    /// The thirteen bits of register and subregister, which figure 5-1 parts otherwise by address.
    fn address_bits(self) -> u32 {
        self.register << 5 | self.subregister
    }

    /// By address: which element of a0 (AddrSubRegNum), the top three bits.
    pub fn address_element(self) -> usize {
        (self.address_bits() >> 10) as usize
    }

    /// By address: the signed number of bytes that is added to it (AddrImm), the low ten bits.
    pub fn address_immediate(self) -> i64 {
        sign_extend(self.address_bits() & 0x3FF, 10) as i64
    }

    /// The first byte, of the register file or of a0. By address it is counted from the byte that
    /// the element of a0 holds.
    pub fn start(self) -> i64 {
        match self.kind() {
            Kind::A0 => self.subregister as i64,
            Kind::ByAddress => self.address_immediate(),
            _ => self.register as i64 * REGISTER_BYTES as i64 + self.subregister as i64,
        }
    }
}

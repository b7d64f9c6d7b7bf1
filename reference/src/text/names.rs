//! The names of the text form with their codes, each told once: the assembler reads by these
//! tables and the disassembler writes by them. Operations have their names in operations.rs, and
//! numbers that have codes (channels, strides, widths) stand in assemble.rs.

use super::nearest::unknown;
use crate::operations::{ElementType, Operation, OPERATIONS, TYPE_F, TYPE_VF};

/// The suffix of an operation that saturates.
pub const SATURATED: &str = "sat";

/// The destination that is none.
pub const NULL: &str = "null";

/// The mark of a short word.
pub const SHORT: &str = "short";

/// Names of one kind with their codes.
pub struct Names {
    what: &'static str,
    rows: &'static [(&'static str, u32)],
}

/// The conditions of a cmp.
pub const CONDITIONS: Names = Names {
    what: "condition",
    rows: &[("z", 1), ("nz", 2), ("g", 3), ("ge", 4), ("l", 5), ("le", 6)],
};

/// The flags.
pub const FLAGS: Names = Names { what: "flag", rows: &[("f0.0", 0), ("f0.1", 1)] };

/// The votes of a predicate, by PredCtrl's code. A predicate without a vote has code 1.
pub const VOTES: Names = Names {
    what: "vote",
    rows: &[
        ("any2h", 4),
        ("all2h", 5),
        ("any4h", 6),
        ("all4h", 7),
        ("any8h", 8),
        ("all8h", 9),
        ("any16h", 10),
        ("all16h", 11),
    ],
};

/// What may stand before a register source.
pub const MODIFIERS: Names =
    Names { what: "modifier", rows: &[("", 0), ("|", 1), ("-", 2), ("-|", 3)] };

/// The types of operands in registers, in a0 and of null.
pub const TYPES: Names = Names {
    what: "type",
    rows: &[
        ("ud", ElementType::Ud as u32),
        ("d", ElementType::D as u32),
        ("uw", ElementType::Uw as u32),
        ("w", ElementType::W as u32),
        ("ub", ElementType::Ub as u32),
        ("b", ElementType::B as u32),
        ("f", ElementType::F as u32),
    ],
};

/// The types of immediates.
pub const IMMEDIATE_TYPES: Names = Names {
    what: "type of a number",
    rows: &[
        ("ud", ElementType::Ud as u32),
        ("d", ElementType::D as u32),
        ("uw", ElementType::Uw as u32),
        ("w", ElementType::W as u32),
        ("f", TYPE_F),
        ("vf", TYPE_VF),
    ],
};

impl Names {
    /// The code of a name, if it is listed.
    pub fn find(&self, name: &str) -> Option<u32> {
        self.rows.iter().find(|(listed, _)| *listed == name).map(|(_, code)| *code)
    }

    /// The code of a name, or what is wrong with the name.
    pub fn code(&self, name: &str) -> Result<u32, String> {
        self.find(name).ok_or_else(|| unknown(self.what, name, &self.all()))
    }

    /// The name of a code, if there is one.
    pub fn name(&self, code: u32) -> Option<&'static str> {
        self.rows.iter().find(|(_, listed)| *listed == code).map(|(name, _)| *name)
    }

    /// All names in the order of the table.
    pub fn all(&self) -> Vec<&'static str> {
        self.rows.iter().map(|(name, _)| *name).collect()
    }
}

/// The operation of a name, or what is wrong with the name.
pub fn operation(name: &str) -> Result<Operation, String> {
    let names = OPERATIONS.map(|(_, listed, _)| listed);
    Operation::from_name(name).ok_or_else(|| unknown("operation", name, &names))
}

/// The element type of a name among those listed, or what is wrong with the name.
pub fn element_type(names: &Names, name: &str) -> Result<ElementType, String> {
    let code = names.code(name)?;
    Ok(ElementType::from_code(code).expect("a listed type"))
}

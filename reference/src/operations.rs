//! Operations and element types (paper: "Operations").

/// The operations of the bench.
#[derive(Clone, Copy, PartialEq, Eq, PartialOrd, Ord, Debug)]
pub enum Operation {
    Mov,
    Sel,
    Not,
    And,
    Or,
    Xor,
    Shr,
    Shl,
    Asr,
    Cmp,
    Add,
    Mul,
    Avg,
    Nop,
    Jmpi,
    If,
    Else,
    Endif,
    While,
    Break,
    Cont,
}

use Operation::*;

/// Every operation with its name and its opcode.
pub const OPERATIONS: [(Operation, &str, u32); 21] = [
    (Mov, "mov", 0x01),
    (Sel, "sel", 0x02),
    (Not, "not", 0x04),
    (And, "and", 0x05),
    (Or, "or", 0x06),
    (Xor, "xor", 0x07),
    (Shr, "shr", 0x08),
    (Shl, "shl", 0x09),
    (Asr, "asr", 0x0C),
    (Cmp, "cmp", 0x10),
    (Add, "add", 0x40),
    (Mul, "mul", 0x41),
    (Avg, "avg", 0x42),
    (Nop, "nop", 0x7E),
    (Jmpi, "jmpi", 0x20),
    (If, "if", 0x22),
    (Else, "else", 0x24),
    (Endif, "endif", 0x25),
    (While, "while", 0x27),
    (Break, "break", 0x28),
    (Cont, "cont", 0x29),
];

/// The branches.
pub const BRANCHES: [Operation; 7] = [Jmpi, If, Else, Endif, While, Break, Cont];

impl Operation {
    /// The operation of an opcode, if the opcode is listed.
    pub fn from_opcode(opcode: u32) -> Option<Operation> {
        let found = OPERATIONS.iter().find(|(_, _, listed)| *listed == opcode);
        found.map(|(operation, ..)| *operation)
    }

    /// The operation of a name, if there is one.
    pub fn from_name(name: &str) -> Option<Operation> {
        let found = OPERATIONS.iter().find(|(_, listed, _)| *listed == name);
        found.map(|(operation, ..)| *operation)
    }

    fn row(self) -> (Operation, &'static str, u32) {
        let found = OPERATIONS.into_iter().find(|(operation, ..)| *operation == self);
        found.expect("every operation is in the list")
    }

    pub fn name(self) -> &'static str {
        self.row().1
    }

    pub fn opcode(self) -> u32 {
        self.row().2
    }

    pub fn is_branch(self) -> bool {
        BRANCHES.contains(&self)
    }

    /// break and cont, which have two distances.
    pub fn leaves(self) -> bool {
        matches!(self, Break | Cont)
    }

    pub fn is_logic(self) -> bool {
        matches!(self, Not | And | Or | Xor)
    }

    pub fn is_shift(self) -> bool {
        matches!(self, Shr | Shl | Asr)
    }

    /// Whether floats are served on it.
    pub fn takes_floats(self) -> bool {
        matches!(self, Mov | Add | Mul | Cmp)
    }

    pub fn may_saturate(self) -> bool {
        matches!(self, Mov | Sel | Add | Mul | Avg)
    }

    /// How many sources the operation reads as operands. jmpi's src1 is no operand in this
    /// sense: it is judged on its own.
    pub fn source_count(self) -> usize {
        match self {
            Nop | Jmpi | If | Else | Endif | While | Break | Cont => 0,
            Mov | Not => 1,
            _ => 2,
        }
    }
}

/// The element types. A float stands for its pattern, an unsigned whole number.
#[derive(Clone, Copy, PartialEq, Eq, Debug)]
pub enum ElementType {
    Ud,
    D,
    Uw,
    W,
    Ub,
    B,
    F = 7,
}

use ElementType::*;

/// The types of whole numbers in the order of their codes.
pub const TYPES: [ElementType; 6] = [Ud, D, Uw, W, Ub, B];

/// The code of floats.
pub const TYPE_F: u32 = 7;
/// The code of four restricted floats, which only an immediate may be.
pub const TYPE_VF: u32 = 5;

impl ElementType {
    pub fn from_code(code: u32) -> Option<ElementType> {
        match code {
            TYPE_F => Some(F),
            _ => TYPES.get(code as usize).copied(),
        }
    }

    pub fn code(self) -> u32 {
        self as u32
    }

    /// Size of an element in bytes.
    pub fn size(self) -> usize {
        match self {
            Ud | D | F => 4,
            Uw | W => 2,
            Ub | B => 1,
        }
    }

    pub fn is_signed(self) -> bool {
        matches!(self, D | W | B)
    }

    pub fn is_dword(self) -> bool {
        matches!(self, Ud | D)
    }

    pub fn is_word(self) -> bool {
        self.size() == 2
    }

    pub fn bit_count(self) -> u32 {
        8 * self.size() as u32
    }

    /// The least value of the type.
    pub fn minimum(self) -> i128 {
        if self.is_signed() {
            -(1 << (self.bit_count() - 1))
        } else {
            0
        }
    }

    /// The greatest value of the type.
    pub fn maximum(self) -> i128 {
        if self.is_signed() {
            (1 << (self.bit_count() - 1)) - 1
        } else {
            (1 << self.bit_count()) - 1
        }
    }
}

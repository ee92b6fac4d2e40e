//! The calls by their opcodes.
use Opcode::*;

/// A call of the scope document; the number is its opcode in a script.
#[derive(Clone, Copy, Debug, PartialEq, Eq)]
pub enum Opcode {
    Create = 0,
    Push = 1,
    Flip = 2,
    Fill = 3,
    Truncate = 4,
    Get = 5,
    Rank = 6,
    Select = 7,
    Successor = 8,
    Predecessor = 9,
    Verify = 10,
    Clear = 11,
    Freeze = 12,
    Inspect = 13,
    RowRank = 14,
    RowSelect = 15,
    RowGet = 16,
}

/// The number of calls; an opcode is taken modulo it.
pub const CALLS: usize = 17;

/// All calls, each at its opcode.
pub const OPCODES: [Opcode; CALLS] = [
    Create,
    Push,
    Flip,
    Fill,
    Truncate,
    Get,
    Rank,
    Select,
    Successor,
    Predecessor,
    Verify,
    Clear,
    Freeze,
    Inspect,
    RowRank,
    RowSelect,
    RowGet,
];

impl Opcode {
    pub fn number(self) -> u64 {
        self as u64
    }

    /// The call's name in the scope document.
    pub fn name(self) -> &'static str {
        match self {
            Create => "lay",
            Push => "add",
            Flip => "turn",
            Fill => "run",
            Truncate => "cut",
            Get => "look",
            Rank => "count",
            Select => "find",
            Successor => "next",
            Predecessor => "prior",
            Verify => "check",
            Clear => "clear",
            Freeze => "freeze",
            Inspect => "inspect",
            RowRank => "row count",
            RowSelect => "row find",
            RowGet => "row look",
        }
    }

    /// Whether the call changes the strip where it is accepted.
    pub fn changes_strip(self) -> bool {
        matches!(self, Create | Push | Flip | Fill | Truncate)
    }

    /// Of the calls on a strip, look, next and prior take words only; so does freeze.
    pub fn takes_counters(self) -> bool {
        !matches!(self, Get | Successor | Predecessor | Freeze)
    }
}

/// An opcode and three arguments, in the scope document's order; a row reading has its label first.
#[derive(Clone, Copy, Debug)]
pub struct Call {
    pub op: u64,
    pub x: u64,
    pub y: u64,
    pub z: u64,
}

impl Call {
    pub fn new(opcode: Opcode, [x, y, z]: [u64; 3]) -> Call {
        Call { op: opcode.number(), x, y, z }
    }

    pub fn opcode(&self) -> Opcode {
        OPCODES[(self.op % CALLS as u64) as usize]
    }

    /// The four numbers of the call in a script.
    pub fn numbers(&self) -> [u64; 4] {
        [self.op, self.x, self.y, self.z]
    }
}

//! The paper machine: a strip and a shelf of rows as plain lists of bits, and every call by its definition over them.
use crate::call::{Call, Opcode};
use crate::layout;
use crate::model::{self, length, Strip};
use crate::refusal::{Refusal, Values};
use crate::Handle;
use Refusal::*;

/// A label and the bits frozen under it.
pub type Frozen = (u64, Vec<bool>);

pub struct Machine {
    /// C and S
    pub strip: Strip,
    /// F
    pub shelf: Vec<Frozen>,
    /// B, whose length is Z
    base: Vec<u8>,
    /// how many words and counters are lent
    lent: (usize, usize),
}

impl Machine {
    /// The opening lay and clear, in either order: the refusals of the first, then those of the second.
    pub fn open(capacity: u64, clear_first: bool, lent: (usize, usize), image: &[u8]) -> Result<Machine, Refusal> {
        let laid = model::check(Handle::new(capacity, 0), lent.0, Some(lent.1));
        let cleared = layout::check_size(image.len());
        if clear_first {
            cleared.and(laid)?;
        } else {
            laid.and(cleared)?;
        }
        Ok(Machine { strip: Strip::new(capacity, Vec::new()), shelf: Vec::new(), base: image.to_vec(), lent })
    }

    /// C, the length of S and the ones of S.
    pub fn handle(&self) -> Handle {
        self.strip.handle().with(self.strip.ones())
    }

    /// One call.
    pub fn step(&mut self, call: Call) -> Values {
        match call.opcode() {
            Opcode::Clear => self.clear(),
            Opcode::Freeze => self.freeze(call.x),
            Opcode::Inspect => self.inspect(),
            Opcode::RowRank | Opcode::RowSelect | Opcode::RowGet => model::on_row(self.row(call.x)?, call),
            _ => self.strip.step(self.lent, call),
        }
    }

    /// clear: 13; replaces B by F written out over B, then empties F.
    fn clear(&mut self) -> Values {
        layout::check_size(self.base.len())?;
        self.base = self.image();
        self.shelf.clear();
        Ok((16, 0))
    }

    /// 10: F written out is a sound chain in every image of a good size.
    fn check_chain(&self) -> Result<(), Refusal> {
        layout::check_size(self.base.len()).map_err(|_| Unsound)
    }

    /// freeze(label): 1, 2, 10, 11, 12, 13; appends (label, S) to F.
    fn freeze(&mut self, label: u64) -> Values {
        model::check(self.strip.handle(), self.lent.0, None)?;
        self.check_chain()?;
        layout::check_label(label)?;
        LabelPresent.when(self.shelf.iter().any(|row| row.0 == label))?;
        let start = 16 + self.shelf.iter().map(|row| layout::size(length(&row.1))).sum::<usize>();
        NoRoom.when(start + layout::size(self.strip.handle().length) > self.base.len())?;
        self.shelf.push((label, self.strip.bits().to_vec()));
        Ok((start as u64 / 16, 0))
    }

    /// inspect: 10; every row of F is right.
    fn inspect(&self) -> Values {
        self.check_chain()?;
        Ok((self.shelf.len() as u64, 0))
    }

    /// A label's row in F: 10, 11, 14.
    fn row(&self, label: u64) -> Result<&[bool], Refusal> {
        self.check_chain()?;
        layout::check_label(label)?;
        self.shelf.iter().find(|row| row.0 == label).map(|row| &row.1[..]).ok_or(LabelAbsent)
    }

    /// F written out over B: the header, then the records in order, each where the one before ends; later bytes as in B.
    pub fn image(&self) -> Vec<u8> {
        let mut bytes = vec![0; 16];
        bytes[0] = u8::from(!self.shelf.is_empty());
        bytes[4] = 1;
        for (number, (label, bits)) in self.shelf.iter().enumerate() {
            let end = bytes.len() + layout::size(length(bits));
            let next = if number + 1 < self.shelf.len() { end as u64 / 16 } else { 0 };
            bytes.extend(layout::record(next, *label, bits));
        }
        bytes.extend(&self.base[bytes.len()..]);
        bytes
    }
}

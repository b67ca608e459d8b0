//! A process's stack while its turn lasts. Document 01: "A value lies as its bytes, high byte first, then its type 1, 2
//! or 4; a string as bytes, length, 3."

use crate::fault::{need, Fault};
use crate::layout::STACK_LEN;
use crate::number::{Number, STRINGS, STRING_TYPE};
use std::ops::Range;

/// The 32 bytes and SP, copied from the record and put back if the instruction does not fault.
pub struct Stack {
    bytes: [u8; STACK_LEN],
    sp: usize,
}

/// A popped value: its type, and where its bytes lie without length and type.
pub struct Item {
    pub kind: u8,
    place: Range<usize>,
}

impl Stack {
    /// The stack of a record.
    pub fn new(bytes: &[u8], sp: u8) -> Stack {
        let mut copy = [0; STACK_LEN];
        copy.copy_from_slice(bytes);
        Stack { bytes: copy, sp: usize::from(sp) }
    }

    /// SP.
    pub fn sp(&self) -> usize {
        self.sp
    }

    /// "After its turn, stack bytes above SP are zero."
    pub fn settled(mut self) -> [u8; STACK_LEN] {
        self.bytes[self.sp..].fill(0);
        self.bytes
    }

    /// The bytes of a popped value, valid until the next push.
    pub fn bytes(&self, item: &Item) -> &[u8] {
        &self.bytes[item.place.clone()]
    }

    /// Takes bytes off the top; fault 5 if there are too few.
    fn take(&mut self, count: usize) -> Result<Range<usize>, Fault> {
        let bottom = self.sp.checked_sub(count).ok_or(Fault::TooFewBytes)?;
        let place = bottom..self.sp;
        self.sp = bottom;
        Ok(place)
    }

    /// Pops one raw byte.
    pub fn pop_byte(&mut self) -> Result<u8, Fault> {
        let place = self.take(1)?;
        Ok(self.bytes[place.start])
    }

    /// "for each value 5 nothing there, 6 a type not taken here, 5 too few bytes below it, 6 malformed string".
    pub fn pop(&mut self, taken: &[u8]) -> Result<Item, Fault> {
        let kind = self.pop_byte()?;
        need(taken.contains(&kind), Fault::TypeNotTaken)?;
        let size = if kind == STRING_TYPE { self.pop_byte()? } else { kind };
        let item = Item { kind, place: self.take(usize::from(size))? };
        need(kind != STRING_TYPE || well_formed(self.bytes(&item)), Fault::TypeNotTaken)?;
        Ok(item)
    }

    /// Pops a number of the given types.
    pub fn pop_number(&mut self, taken: &[u8]) -> Result<Number, Fault> {
        let item = self.pop(taken)?;
        Ok(Number::decode(item.kind, self.bytes(&item)))
    }

    /// Looks at a number of the given types and "leaves its bytes as they are".
    pub fn peek_number(&mut self, taken: &[u8]) -> Result<Number, Fault> {
        let sp = self.sp;
        let number = self.pop_number(taken);
        self.sp = sp;
        number
    }

    /// Pops a string and gives its bytes less the zero.
    pub fn pop_text(&mut self) -> Result<Vec<u8>, Fault> {
        let item = self.pop(STRINGS)?;
        let bytes = self.bytes(&item);
        Ok(bytes[..bytes.len() - 1].to_vec())
    }

    /// Pushes raw bytes; "4 stack above 32".
    pub fn push_bytes(&mut self, bytes: &[u8]) -> Result<(), Fault> {
        need(self.sp + bytes.len() <= STACK_LEN, Fault::StackFull)?;
        self.bytes[self.sp..self.sp + bytes.len()].copy_from_slice(bytes);
        self.sp += bytes.len();
        Ok(())
    }

    /// Pushes a value of any type, its bits unchanged.
    pub fn push_value(&mut self, kind: u8, bytes: &[u8]) -> Result<(), Fault> {
        self.push_bytes(bytes)?;
        if kind == STRING_TYPE {
            self.push_bytes(&[bytes.len() as u8])?;
        }
        self.push_bytes(&[kind])
    }

    /// Pushes the result of an operator.
    pub fn push_number(&mut self, number: Number) -> Result<(), Fault> {
        self.push_value(number.kind(), &number.encode()[..usize::from(number.kind())])
    }
}

/// "A popped string must have length 1 or more and its only zero last."
fn well_formed(string: &[u8]) -> bool {
    string.iter().position(|&byte| byte == 0).is_some_and(|zero| zero + 1 == string.len())
}

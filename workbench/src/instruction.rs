//! The 69 instructions of appendix C: number, mnemonic, arguments, what is popped and how many values are pushed.
//! DELAY and the pins are in the table but not built: executing one is fault 1 (document 01).

/// The most bytes of condition and body together: fault 8 if "c + b above 251" (document 01).
pub const MAX_WHILE: usize = 251;

/// What stands after the instruction byte.
#[derive(Clone, Copy, Debug, PartialEq, Eq)]
pub enum Arguments {
    None,
    /// One byte, signed.
    Char,
    /// Two bytes, high byte first.
    Int,
    /// Bytes up to and with a zero.
    Text,
    /// Four bytes, high byte first.
    Float,
    /// One byte, a variable's name.
    Name,
    /// One byte, the length of a body (IF, ELSE).
    Length,
    /// Two bytes, the lengths of condition and body (WHILE).
    Lengths,
}

impl Arguments {
    /// How many bytes they are; none if that depends on them.
    pub fn length(self) -> Option<usize> {
        match self {
            Arguments::None => Some(0),
            Arguments::Char | Arguments::Name | Arguments::Length => Some(1),
            Arguments::Int | Arguments::Lengths => Some(2),
            Arguments::Float => Some(4),
            Arguments::Text => None,
        }
    }
}

/// Which values an instruction takes off the stack at one place.
#[derive(Clone, Copy, Debug, PartialEq, Eq)]
pub enum Taken {
    /// CHAR, INT or FLOAT.
    Number,
    /// CHAR or INT.
    Whole,
    IntOrFloat,
    CharOrFloat,
    Text,
    /// Any of the four types.
    Value,
    /// One raw byte, whatever it is (ENDWHILE).
    Byte,
}

#[derive(Clone, Copy, Debug)]
pub struct Instruction {
    pub number: u8,
    pub mnemonic: &'static str,
    pub arguments: Arguments,
    /// Top of the stack first. IF and ELSE look at their number and leave it there: one popped, one pushed.
    pub pops: &'static [Taken],
    /// Values pushed; WHILE's raw byte is not one.
    pub pushes: usize,
    pub built: bool,
}

const NUMBER: &[Taken] = &[Taken::Number];
const NUMBERS: &[Taken] = &[Taken::Number, Taken::Number];
const WHOLES: &[Taken] = &[Taken::Whole, Taken::Whole];
const VALUE: &[Taken] = &[Taken::Value];
const NOTHING: &[Taken] = &[];

const fn with(
    number: u8,
    mnemonic: &'static str,
    arguments: Arguments,
    pops: &'static [Taken],
    pushes: usize,
) -> Instruction {
    Instruction { number, mnemonic, arguments, pops, pushes, built: true }
}

const fn plain(number: u8, mnemonic: &'static str, pops: &'static [Taken], pushes: usize) -> Instruction {
    with(number, mnemonic, Arguments::None, pops, pushes)
}

const fn not_built(number: u8, mnemonic: &'static str) -> Instruction {
    Instruction { number, mnemonic, arguments: Arguments::None, pops: NOTHING, pushes: 0, built: false }
}

/// In the order of their numbers, from 1.
pub const TABLE: [Instruction; 69] = [
    with(1, "CHAR", Arguments::Char, NOTHING, 1),
    with(2, "INT", Arguments::Int, NOTHING, 1),
    with(3, "STRING", Arguments::Text, NOTHING, 1),
    with(4, "FLOAT", Arguments::Float, NOTHING, 1),
    with(5, "SET", Arguments::Name, VALUE, 0),
    with(6, "GET", Arguments::Name, NOTHING, 1),
    plain(7, "INCREMENT", NUMBER, 1),
    plain(8, "DECREMENT", NUMBER, 1),
    plain(9, "PLUS", NUMBERS, 1),
    plain(10, "MINUS", NUMBERS, 1),
    plain(11, "TIMES", NUMBERS, 1),
    plain(12, "DIVIDEDBY", NUMBERS, 1),
    plain(13, "MODULUS", WHOLES, 1),
    plain(14, "UNARYMINUS", NUMBER, 1),
    plain(15, "EQUALS", NUMBERS, 1),
    plain(16, "NOTEQUALS", NUMBERS, 1),
    plain(17, "LESSTHAN", NUMBERS, 1),
    plain(18, "LESSTHANOREQUALS", NUMBERS, 1),
    plain(19, "GREATERTHAN", NUMBERS, 1),
    plain(20, "GREATERTHANOREQUALS", NUMBERS, 1),
    plain(21, "LOGICALAND", NUMBERS, 1),
    plain(22, "LOGICALOR", NUMBERS, 1),
    plain(23, "LOGICALXOR", NUMBERS, 1),
    plain(24, "LOGICALNOT", NUMBER, 1),
    plain(25, "BITWISEAND", WHOLES, 1),
    plain(26, "BITWISEOR", WHOLES, 1),
    plain(27, "BITWISEXOR", WHOLES, 1),
    plain(28, "BITWISENOT", &[Taken::Whole], 1),
    plain(29, "TOCHAR", &[Taken::IntOrFloat], 1),
    plain(30, "TOINT", &[Taken::CharOrFloat], 1),
    plain(31, "TOFLOAT", &[Taken::Whole], 1),
    plain(32, "ROUND", NUMBER, 1),
    plain(33, "FLOOR", NUMBER, 1),
    plain(34, "CEIL", NUMBER, 1),
    plain(35, "MIN", NUMBERS, 1),
    plain(36, "MAX", NUMBERS, 1),
    plain(37, "ABS", NUMBER, 1),
    plain(38, "CONSTRAIN", &[Taken::Number; 3], 1),
    plain(39, "MAP", &[Taken::Number; 5], 1),
    plain(40, "POW", &[Taken::Whole, Taken::Number], 1),
    plain(41, "SQ", NUMBER, 1),
    plain(42, "SQRT", NUMBER, 1),
    not_built(43, "DELAY"),
    plain(44, "DELAYUNTIL", &[Taken::Whole], 0),
    plain(45, "MILLIS", NOTHING, 1),
    not_built(46, "PINMODE"),
    not_built(47, "ANALOGREAD"),
    not_built(48, "ANALOGWRITE"),
    not_built(49, "DIGITALREAD"),
    not_built(50, "DIGITALWRITE"),
    plain(51, "PRINT", VALUE, 0),
    plain(52, "PRINTLN", VALUE, 0),
    plain(53, "OPEN", &[Taken::Number, Taken::Text], 0),
    plain(54, "CLOSE", NOTHING, 0),
    plain(55, "WRITE", VALUE, 0),
    plain(56, "READINT", NOTHING, 1),
    plain(57, "READCHAR", NOTHING, 1),
    plain(58, "READFLOAT", NOTHING, 1),
    plain(59, "READSTRING", NOTHING, 1),
    with(60, "IF", Arguments::Length, NUMBER, 1),
    with(61, "ELSE", Arguments::Length, NUMBER, 1),
    plain(62, "ENDIF", NUMBER, 0),
    with(63, "WHILE", Arguments::Lengths, NUMBER, 0),
    plain(64, "ENDWHILE", &[Taken::Byte], 0),
    plain(65, "LOOP", NOTHING, 0),
    plain(66, "ENDLOOP", NOTHING, 0),
    plain(67, "STOP", NOTHING, 0),
    plain(68, "FORK", &[Taken::Text], 1),
    plain(69, "WAITUNTILDONE", NUMBER, 0),
];

/// The instruction of a byte, built or not.
pub fn of_byte(byte: u8) -> Option<&'static Instruction> {
    TABLE.get(usize::from(byte).checked_sub(1)?)
}

/// The instruction of a mnemonic, in capitals or not.
pub fn named(mnemonic: &str) -> Option<&'static Instruction> {
    TABLE.iter().find(|instruction| instruction.mnemonic.eq_ignore_ascii_case(mnemonic))
}

impl Instruction {
    /// How many argument bytes stand at the front of `rest`, the code after the instruction byte; none if it ends
    /// before.
    pub fn argument_length(&self, rest: &[u8]) -> Option<usize> {
        let length = match self.arguments.length() {
            Some(length) => length,
            None => rest.iter().position(|&byte| byte == 0)? + 1,
        };
        (length <= rest.len()).then_some(length)
    }
}

/// The instruction at a place of the code, with its argument bytes.
pub fn at(code: &[u8], offset: usize) -> Option<(&'static Instruction, &[u8])> {
    let instruction = of_byte(*code.get(offset)?)?;
    let rest = &code[offset + 1..];
    Some((instruction, &rest[..instruction.argument_length(rest)?]))
}

/// The instructions of a program read from its beginning, each with its offset and its argument bytes. Bytes that are
/// no instruction are passed over; one that the program's end cuts off is the end.
pub fn listed(code: &[u8]) -> impl Iterator<Item = (usize, &'static Instruction, &[u8])> {
    let mut offset = 0;
    std::iter::from_fn(move || {
        offset += code.get(offset..)?.iter().take_while(|&&byte| of_byte(byte).is_none()).count();
        let start = offset;
        let (instruction, arguments) = at(code, start)?;
        offset += 1 + arguments.len();
        Some((start, instruction, arguments))
    })
}

/// The offset of the instruction among whose arguments an offset lies, as the program is listed; none where it lies in
/// none, as at an instruction's beginning.
pub fn around(code: &[u8], offset: usize) -> Option<usize> {
    let (start, ..) =
        listed(code).find(|(start, _, arguments)| (start + 1..=start + arguments.len()).contains(&offset))?;
    Some(start)
}

#[cfg(test)]
mod tests {
    use super::*;

    #[test]
    fn numbers_are_places_in_the_table() {
        for (index, instruction) in TABLE.iter().enumerate() {
            assert_eq!(usize::from(instruction.number), index + 1);
            assert_eq!(named(&instruction.mnemonic.to_lowercase()).map(|found| found.number), Some(instruction.number));
        }
    }

    #[test]
    fn offsets_among_arguments_lie_inside_an_instruction() {
        // INT 0 3, SET n, two bytes that are no instruction, STRING "A", WHILE 2 1, STOP, CHAR without its argument
        let code = [2, 0, 3, 5, 110, 200, 0, 3, 65, 0, 63, 2, 1, 67, 1];
        let inside: Vec<(usize, usize)> = (0..20).filter_map(|offset| Some((offset, around(&code, offset)?))).collect();
        assert_eq!(inside, [(1, 0), (2, 0), (4, 3), (8, 7), (9, 7), (11, 10), (12, 10)]);
        // a STRING without its zero: what follows it is no instruction of the listing
        assert_eq!((around(&[54, 3, 2, 2, 2], 3), around(&[], 0)), (None, None));
    }
}

//! Instruction numbers. Document 01: "Numbered 1 to 69 by place in appendix C. 38 to 40, 43 and 46 to 50 are not built."
//! Document 02, Q-3, builds 38 to 40: "Load lamps need CONSTRAIN, MAP and POW."

pub const CHAR: u8 = 1;
pub const INT: u8 = 2;
pub const STRING: u8 = 3;
pub const FLOAT: u8 = 4;
pub const SET: u8 = 5;
pub const GET: u8 = 6;
pub const INCREMENT: u8 = 7;
pub const DECREMENT: u8 = 8;
pub const PLUS: u8 = 9;
pub const MINUS: u8 = 10;
pub const TIMES: u8 = 11;
pub const DIVIDEDBY: u8 = 12;
pub const MODULUS: u8 = 13;
pub const UNARYMINUS: u8 = 14;
pub const EQUALS: u8 = 15;
pub const NOTEQUALS: u8 = 16;
pub const LESSTHAN: u8 = 17;
pub const LESSTHANOREQUALS: u8 = 18;
pub const GREATERTHAN: u8 = 19;
pub const GREATERTHANOREQUALS: u8 = 20;
pub const LOGICALAND: u8 = 21;
pub const LOGICALOR: u8 = 22;
pub const LOGICALXOR: u8 = 23;
pub const LOGICALNOT: u8 = 24;
pub const BITWISEAND: u8 = 25;
pub const BITWISEOR: u8 = 26;
pub const BITWISEXOR: u8 = 27;
pub const BITWISENOT: u8 = 28;
pub const TOCHAR: u8 = 29;
pub const TOINT: u8 = 30;
pub const TOFLOAT: u8 = 31;
pub const ROUND: u8 = 32;
pub const FLOOR: u8 = 33;
pub const CEIL: u8 = 34;
pub const MIN: u8 = 35;
pub const MAX: u8 = 36;
pub const ABS: u8 = 37;
pub const CONSTRAIN: u8 = 38;
pub const MAP: u8 = 39;
pub const POW: u8 = 40;
pub const SQ: u8 = 41;
pub const SQRT: u8 = 42;
pub const DELAYUNTIL: u8 = 44;
pub const MILLIS: u8 = 45;
pub const PRINT: u8 = 51;
pub const PRINTLN: u8 = 52;
pub const OPEN: u8 = 53;
pub const CLOSE: u8 = 54;
pub const WRITE: u8 = 55;
pub const READINT: u8 = 56;
pub const READCHAR: u8 = 57;
pub const READFLOAT: u8 = 58;
pub const READSTRING: u8 = 59;
pub const IF: u8 = 60;
pub const ELSE: u8 = 61;
pub const ENDIF: u8 = 62;
pub const WHILE: u8 = 63;
pub const ENDWHILE: u8 = 64;
pub const LOOP: u8 = 65;
pub const ENDLOOP: u8 = 66;
pub const STOP: u8 = 67;
pub const FORK: u8 = 68;
pub const WAITUNTILDONE: u8 = 69;

/// Whether a byte is an instruction that is built.
pub fn is_built(opcode: u8) -> bool {
    (1..=69).contains(&opcode) && !matches!(opcode, 43 | 46..=50)
}

/// "file instructions are OPEN, CLOSE, WRITE and the READs."
pub fn is_file_instruction(opcode: u8) -> bool {
    matches!(opcode, OPEN | CLOSE | WRITE | READINT | READCHAR | READFLOAT | READSTRING)
}

/// The argument bytes after an instruction, appendix C's second column; STRING's run to its zero.
pub fn argument_count(opcode: u8) -> usize {
    match opcode {
        CHAR | SET | GET | IF | ELSE => 1,
        INT | WHILE => 2,
        FLOAT => 4,
        _ => 0,
    }
}

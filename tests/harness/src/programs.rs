//! Random programs that mostly run: expressions, variables, loops, files and forks.

use crate::random::Random;
use crate::values::{float_bits, Context};
use second::instruction::*;

/// What a program may contain.
#[derive(Clone, Copy, PartialEq, Eq)]
pub enum Reach {
    /// No file instruction, FORK or WAITUNTILDONE: what demand 3 supposes.
    Alone,
    /// All instructions.
    Everything,
}

/// File names that programs open and fork, and that sequences store.
pub const NAMES: [&str; 8] = ["a", "b", "down", "log", "prog", "worker0", "worker1", "elevenchars"];

/// The program *down* of document 01.
pub const DOWN: [u8; 20] = [2, 0, 3, 5, 110, 6, 110, 63, 2, 8, 6, 110, 52, 6, 110, 8, 5, 110, 64, 67];

/// A program that opens a file and writes into it until its end.
pub fn writer(name: &[u8]) -> Vec<u8> {
    [&[STRING], name, &[0, CHAR, 1, OPEN, LOOP, CHAR, 7, WRITE, ENDLOOP]].concat()
}

/// A program that fills variable memory with nine long strings and stays.
pub fn hoarder() -> Vec<u8> {
    let mut code = vec![STRING];
    code.extend([b'h'; 27]);
    code.extend([0, SET, b'0']);
    for name in b'1'..=b'8' {
        code.extend([GET, b'0', SET, name]);
    }
    code.extend([LOOP, ENDLOOP]);
    code
}

/// A program of at most about `limit` bytes.
pub fn program(reach: Reach, limit: usize, random: &mut Random) -> Vec<u8> {
    let mut writer = Writer { code: Vec::new(), set: Vec::new(), reach, random };
    if writer.random.chance(1, 4) {
        writer.looping(limit);
    } else {
        writer.statements(limit);
    }
    if writer.random.chance(9, 10) {
        writer.code.push(STOP);
    }
    writer.code
}

/// Programs one after another, to just this length.
pub fn filling(reach: Reach, length: usize, random: &mut Random) -> Vec<u8> {
    let mut code = Vec::new();
    while code.len() < length {
        code.extend(program(reach, length, random));
    }
    code.truncate(length);
    code
}

/// A program of about that length that meets no fault, for a process by itself: it jumps over bytes that are never
/// executed, keeps a LOOP now and then, prints a letter and goes back from its end.
pub fn long_program(length: usize, random: &mut Random) -> Vec<u8> {
    let mut code = Vec::new();
    while code.len() < length {
        match random.below(4) {
            0 => code.push(LOOP),
            1 => code.extend([CHAR, random.between(33, 126) as u8, PRINT]),
            _ => {
                let skipped = random.between(100, 255);
                code.extend([CHAR, 1, ELSE, skipped as u8]);
                code.extend(random.bytes(skipped));
                code.push(ENDIF);
            }
        }
    }
    code.extend([LOOP, MILLIS, PRINTLN, ENDLOOP]);
    code
}

/// Program text so far, and the variables that it has surely set.
struct Writer<'a> {
    code: Vec<u8>,
    set: Vec<u8>,
    reach: Reach,
    random: &'a mut Random,
}

impl Writer<'_> {
    fn statements(&mut self, limit: usize) {
        while self.code.len() < limit && !self.random.chance(1, 20) {
            self.statement();
        }
    }

    /// LOOP … ENDLOOP around statements.
    fn looping(&mut self, limit: usize) {
        self.assign();
        self.code.push(LOOP);
        self.statements(limit);
        self.code.push(ENDLOOP);
    }

    fn statement(&mut self) {
        match self.random.below(20) {
            0..=5 => self.assign(),
            6..=8 => self.print_number(),
            9 => self.print_string(),
            10..=11 => self.branch(),
            12..=13 => self.countdown(),
            14 => self.delay(),
            15 => self.anything(),
            _ if self.reach == Reach::Alone => self.assign(),
            16..=17 => self.file_work(),
            18 => self.fork(),
            _ => self.any_file_instruction(),
        }
    }

    fn assign(&mut self) {
        if self.random.chance(1, 6) {
            self.string();
        } else {
            self.number(2);
        }
        let name = *self.random.pick(b"abcnxyz");
        self.code.extend([SET, name]);
        self.set.push(name);
    }

    /// Pushes a number.
    fn number(&mut self, depth: usize) {
        match self.random.below(if depth == 0 { 5 } else { 11 }) {
            0 => {
                let byte = self.random.byte();
                self.code.extend([CHAR, byte]);
            }
            1 | 2 => {
                let value = if self.random.chance(1, 2) { self.random.word() } else { self.random.below(20) as u16 };
                self.code.push(INT);
                self.code.extend(value.to_be_bytes());
            }
            3 => {
                let bits = float_bits(&Context::default(), self.random);
                self.code.push(FLOAT);
                self.code.extend(bits.to_be_bytes());
            }
            4 => self.get(),
            5..=6 => {
                self.number(depth - 1);
                let unary =
                    [INCREMENT, DECREMENT, UNARYMINUS, LOGICALNOT, ABS, SQ, SQRT, ROUND, FLOOR, CEIL, TOFLOAT, TOINT];
                self.code.push(*self.random.pick(&unary));
            }
            7 => self.scaled(),
            _ => {
                self.number(depth - 1);
                self.number(depth - 1);
                let opcode = self.random.between(PLUS as usize, BITWISEXOR as usize) as u8;
                self.code.push(if opcode == UNARYMINUS || opcode == LOGICALNOT { MAX } else { opcode });
            }
        }
    }

    /// CONSTRAIN, MAP or POW, its y mostly one that it takes.
    fn scaled(&mut self) {
        let (opcode, count) = *self.random.pick(&[(CONSTRAIN, 3), (MAP, 5), (POW, 1)]);
        (0..count).for_each(|_| self.number(0));
        if opcode == POW {
            self.code.extend([CHAR, self.random.below(17) as u8]);
        }
        self.code.push(opcode);
    }

    fn get(&mut self) {
        if self.set.is_empty() {
            return self.code.push(MILLIS);
        }
        let name = *self.random.pick(&self.set);
        self.code.extend([GET, name]);
    }

    fn string(&mut self) {
        let length = if self.random.chance(1, 20) { 40 } else { self.random.between(0, 12) };
        self.code.push(STRING);
        for _ in 0..length {
            self.code.push(self.random.between(33, 126) as u8);
        }
        self.code.push(0);
    }

    fn print_number(&mut self) {
        self.number(1);
        self.code.push(if self.random.chance(1, 2) { PRINT } else { PRINTLN });
    }

    fn print_string(&mut self) {
        self.string();
        self.code.push(PRINTLN);
    }

    /// Code written on its own, to know its length.
    fn body(&mut self) -> Vec<u8> {
        let outer = std::mem::take(&mut self.code);
        let known = self.set.clone();
        self.statement();
        self.set = known;
        std::mem::replace(&mut self.code, outer)
    }

    /// number IF … ELSE … ENDIF, as in the guide's A.3.2.
    fn branch(&mut self) {
        let (yes, no) = (self.body(), self.body());
        if yes.len() > 250 || no.len() > 250 {
            return;
        }
        self.number(1);
        self.code.extend([IF, yes.len() as u8]);
        self.code.extend(yes);
        self.code.extend([ELSE, no.len() as u8]);
        self.code.extend(no);
        self.code.push(ENDIF);
    }

    /// A WHILE that counts a variable down to zero, as *down* does.
    fn countdown(&mut self) {
        let name = *self.random.pick(b"ijk");
        let mut body = self.body();
        body.extend([GET, name, DECREMENT, SET, name]);
        if body.len() > 200 {
            return;
        }
        let times = self.random.between(1, 3) as u8;
        self.code.extend([CHAR, times, SET, name, GET, name, WHILE, 2, body.len() as u8]);
        self.code.extend(body);
        self.code.push(ENDWHILE);
    }

    fn delay(&mut self) {
        self.code.extend([MILLIS, CHAR, self.random.below(4) as u8, PLUS, DELAYUNTIL]);
    }

    /// Any instruction, right or wrong here; only those that [`Reach`] allows.
    fn anything(&mut self) {
        let opcode = self.random.between(1, 70) as u8;
        let barred = is_file_instruction(opcode) || matches!(opcode, FORK | WAITUNTILDONE | STOP);
        if !barred || self.random.chance(1, 10) && self.reach == Reach::Everything {
            self.code.push(opcode);
            let arguments = argument_count(opcode);
            let bytes = self.random.bytes(arguments);
            self.code.extend(bytes);
        }
    }

    fn name(&mut self) {
        self.code.push(STRING);
        self.code.extend(self.random.pick(&NAMES).bytes());
        self.code.push(0);
    }

    /// Opens a file, writes, opens it again and reads, as in the guide's A.5.
    fn file_work(&mut self) {
        for _ in 0..2 {
            self.name();
            self.size();
            self.code.push(OPEN);
            self.any_file_instruction();
            self.any_file_instruction();
        }
    }

    /// The size of a new file: mostly a small one, sometimes one that only a long disc takes.
    fn size(&mut self) {
        if self.random.chance(7, 8) {
            return self.code.extend([CHAR, self.random.between(1, 60) as u8]);
        }
        self.code.push(INT);
        self.code.extend((self.random.between(61, 4000) as u16).to_be_bytes());
    }

    fn any_file_instruction(&mut self) {
        match self.random.below(7) {
            0..=2 => {
                self.number(0);
                self.code.push(WRITE);
            }
            3 => {
                self.string();
                self.code.push(WRITE);
            }
            4 => self.code.push(CLOSE),
            _ => {
                let read = *self.random.pick(&[READINT, READCHAR, READFLOAT, READSTRING]);
                self.code.extend([read, PRINTLN]);
            }
        }
    }

    fn fork(&mut self) {
        self.name();
        self.code.push(FORK);
        self.code.push(if self.random.chance(1, 2) { WAITUNTILDONE } else { PRINTLN });
    }
}

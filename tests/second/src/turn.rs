//! Turns and rounds. Document 01, "Operations and their refusals" and "Instructions".

use crate::answer::{need as need_or_refuse, Answer, Refusal};
use crate::area::need_buffers;
use crate::directory;
use crate::fault::{need, Fault};
use crate::instruction::*;
use crate::layout::*;
use crate::number::*;
use crate::printing;
use crate::processes;
use crate::records;
use crate::stack::Stack;
use crate::variables;
use std::ops::Range;

/// "one instruction of one slot, with a 32-bit clock and at least 32 output bytes: 16 slot above 9 or not running.
/// Returns the bytes printed".
pub fn turn(disc: &mut [u8], area: &mut [u8], slot: u32, clock: u32, output: &mut [u8]) -> Answer {
    need_buffers(disc, area)?;
    need_or_refuse(output.len() >= TURN_OUTPUT, Refusal::ShortOutput)?;
    let record = records::all().nth(slot as usize).ok_or(Refusal::NotRunning)?;
    need_or_refuse(area[record + STATE] == RUNNING, Refusal::NotRunning)?;
    Ok(take_turn(disc, area, record, clock, output) as u32)
}

/// "a turn for slots 0 to 9, each if running when reached, under one clock reading, outputs joined". Document 02, Q-9: it
/// "gives a slot that many turns in a row while it stays running, and needs 2,560 output bytes."
pub fn round(disc: &mut [u8], area: &mut [u8], clock: u32, output: &mut [u8]) -> Answer {
    need_buffers(disc, area)?;
    need_or_refuse(output.len() >= ROUND_OUTPUT, Refusal::ShortOutput)?;
    let mut printed = 0;
    for record in records::all() {
        printed += take_turns(disc, area, record, clock, &mut output[printed..]);
    }
    Ok(printed as u32)
}

/// A slot's turns of one round, by its share as it is when the slot is reached. Returns the bytes printed.
fn take_turns(disc: &mut [u8], area: &mut [u8], record: usize, clock: u32, output: &mut [u8]) -> usize {
    let mut printed = 0;
    let mut left = records::share(area, record);
    while left > 0 && area[record + STATE] == RUNNING {
        printed += take_turn(disc, area, record, clock, &mut output[printed..]);
        left -= 1;
    }
    printed
}

/// The turn of a running record; "A faulting instruction changes nothing but the ending."
fn take_turn(disc: &mut [u8], area: &mut [u8], record: usize, clock: u32, output: &mut [u8]) -> usize {
    match execute(disc, area, record, clock, output) {
        Ok(printed) => printed,
        Err(fault) => {
            records::end(area, record, fault as u8);
            0
        }
    }
}

/// One instruction's arguments, where its string lies in the code, and the PC past them.
struct Fetched {
    opcode: u8,
    arguments: [u8; 4],
    string: Range<usize>,
    next: usize,
}

/// "An instruction reads its argument bytes from the program's own part of the disc."
fn code<'a>(disc: &'a [u8], area: &[u8], record: usize) -> &'a [u8] {
    let start = word(area, record + CODE_START);
    &disc[start..start + word(area, record + CODE_LENGTH)]
}

/// "1 no such instruction; 2 code ended".
fn fetch(code: &[u8], pc: usize) -> Result<Fetched, Fault> {
    let opcode = *code.get(pc).ok_or(Fault::CodeEnded)?;
    need(is_built(opcode), Fault::NoInstruction)?;
    let rest = &code[pc + 1..];
    let length = match opcode {
        STRING => rest.iter().position(|&byte| byte == 0).ok_or(Fault::CodeEnded)? + 1,
        _ => argument_count(opcode),
    };
    need(length <= rest.len(), Fault::CodeEnded)?;
    let mut arguments = [0; 4];
    let kept = length.min(arguments.len());
    arguments[..kept].copy_from_slice(&rest[..kept]);
    Ok(Fetched { opcode, arguments, string: pc + 1..pc + 1 + length, next: pc + 1 + length })
}

/// What one instruction works with: the buffers, its record, its stack and the PC that will be kept.
struct Turn<'a> {
    disc: &'a mut [u8],
    area: &'a mut [u8],
    record: usize,
    clock: i16,
    stack: Stack,
    pc: usize,
    stays: bool,
    output: &'a mut [u8],
    printed: usize,
}

/// Fetches, executes and puts the stack and the PC back. Returns the bytes printed.
fn execute(disc: &mut [u8], area: &mut [u8], record: usize, clock: u32, output: &mut [u8]) -> Result<usize, Fault> {
    let pc = word(area, record + PC);
    let fetched = fetch(code(disc, area, record), pc)?;
    if fetched.opcode == STOP {
        records::end(area, record, 0);
        return Ok(0);
    }
    let stack = Stack::new(&area[record + STACK..record + STACK + STACK_LEN], area[record + SP]);
    let next = fetched.next;
    // "the clock's low 16 bits taken as INT"
    let clock = clock as i16;
    let mut turn = Turn { disc, area, record, clock, stack, pc: next, stays: false, output, printed: 0 };
    turn.execute(&fetched)?;
    let printed = turn.printed;
    let pc = if turn.stays { pc } else { turn.pc };
    let sp = turn.stack.sp();
    let bytes = turn.stack.settled();
    set_word(area, record + PC, pc);
    area[record + SP] = sp as u8;
    area[record + STACK..record + STACK + STACK_LEN].copy_from_slice(&bytes);
    Ok(printed)
}

impl Turn<'_> {
    /// The instruction, its arguments fetched.
    fn execute(&mut self, fetched: &Fetched) -> Result<(), Fault> {
        let [a, b, ..] = fetched.arguments;
        match fetched.opcode {
            CHAR => self.stack.push_value(CHAR_TYPE, &fetched.arguments[..1]),
            INT => self.stack.push_value(INT_TYPE, &fetched.arguments[..2]),
            FLOAT => self.stack.push_value(FLOAT_TYPE, &fetched.arguments),
            STRING => self.push_string(fetched.string.clone()),
            SET => self.set(a),
            GET => self.get(a),
            DELAYUNTIL => self.delay_until(),
            MILLIS => self.stack.push_number(Number::Int(self.clock)),
            PRINT => self.print(b""),
            PRINTLN => self.print(b"\n"),
            OPEN => self.open(),
            CLOSE => Ok(()),
            WRITE => self.write(),
            READINT => self.read(INT_TYPE),
            READCHAR => self.read(CHAR_TYPE),
            READFLOAT => self.read(FLOAT_TYPE),
            READSTRING => self.read_string(),
            IF => self.jump_if(true, a),
            ELSE => self.jump_if(false, a),
            ENDIF => self.stack.pop_number(NUMBERS).map(|_| ()),
            WHILE => self.begin_while(a, b),
            ENDWHILE => self.end_while(),
            LOOP => self.begin_loop(),
            ENDLOOP => self.end_loop(),
            FORK => self.fork(),
            WAITUNTILDONE => self.wait_until_done(),
            other => self.operate(other),
        }
    }

    /// A two-byte field of the record.
    fn field(&self, at: usize) -> usize {
        word(self.area, self.record + at)
    }

    /// Writes a two-byte field of the record.
    fn set_field(&mut self, at: usize, value: usize) {
        set_word(self.area, self.record + at, value);
    }

    /// STRING: "push all bytes with the zero, then length and type" (appendix C).
    fn push_string(&mut self, place: Range<usize>) -> Result<(), Fault> {
        self.stack.push_value(STRING_TYPE, &code(self.disc, self.area, self.record)[place])
    }

    /// An operator of the guide's tables 2 and 3 or of Q-3; "popping from the top".
    fn operate(&mut self, opcode: u8) -> Result<(), Fault> {
        match operator(opcode).ok_or(Fault::NoInstruction)? {
            Operator::Unary(taken, result) => {
                let x = self.stack.pop_number(taken)?;
                self.stack.push_number(result(x)?)
            }
            Operator::Binary(taken, result) => {
                let y = self.stack.pop_number(taken)?;
                let x = self.stack.pop_number(taken)?;
                self.stack.push_number(result(x, y)?)
            }
            Operator::Several(taken, result) => {
                let popped: Result<Vec<Number>, Fault> =
                    taken.iter().rev().map(|taken| self.stack.pop_number(taken)).collect();
                let operands: Vec<Number> = popped?.into_iter().rev().collect();
                self.stack.push_number(result(&operands)?)
            }
        }
    }

    /// SET: a value goes to variable memory "in stack order, without length and type".
    fn set(&mut self, name: u8) -> Result<(), Fault> {
        let id = self.field(ID);
        let item = self.stack.pop(VALUES)?;
        variables::set(self.area, name, id, item.kind, self.stack.bytes(&item))
    }

    /// GET: "9 no such variable", then 4.
    fn get(&mut self, name: u8) -> Result<(), Fault> {
        let index = variables::find(self.area, name, self.field(ID)).ok_or(Fault::NoVariable)?;
        let bytes = &self.area[variables::range(self.area, index)];
        self.stack.push_value(variables::kind(self.area, index), bytes)
    }

    /// PRINT and PRINTLN: a number's text, or a "STRING without its zero".
    fn print(&mut self, after: &[u8]) -> Result<(), Fault> {
        let item = self.stack.pop(VALUES)?;
        let bytes = self.stack.bytes(&item);
        let length = match item.kind {
            STRING_TYPE => printing::write_bytes(&bytes[..bytes.len() - 1], self.output),
            kind => printing::print(Number::decode(kind, bytes), self.output),
        };
        self.printed = length + printing::write_bytes(after, &mut self.output[length..]);
        Ok(())
    }

    /// Document 02, Q-4: "DELAYUNTIL now stays while x minus the clock, modulo 65,536, is 1 to 32,767. CHAR is widened
    /// first. FLOAT becomes fault 6."
    fn delay_until(&mut self) -> Result<(), Fault> {
        let x = self.stack.peek_number(WHOLES)?.whole().ok_or(Fault::TypeNotTaken)?;
        let difference = (x - i32::from(self.clock)).rem_euclid(65_536);
        self.stay_while((1..=32_767).contains(&difference))
    }

    /// "WAITUNTILDONE stays while a live process has that ID."
    fn wait_until_done(&mut self) -> Result<(), Fault> {
        let x = self.stack.peek_number(NUMBERS)?;
        let has_that_id = |record| x.float() == records::id(self.area, record) as f32;
        let waits = records::live(self.area).any(has_that_id);
        self.stay_while(waits)
    }

    /// Stays at this instruction with the stack as it is, or pops the number and goes on.
    fn stay_while(&mut self, condition: bool) -> Result<(), Fault> {
        self.stays = condition;
        if !condition {
            self.stack.pop_number(NUMBERS)?;
        }
        Ok(())
    }

    /// "3 jump outside 0 to the code length"; jumps count from past the arguments.
    fn jump(&mut self, target: Option<usize>) -> Result<(), Fault> {
        let length = self.field(CODE_LENGTH);
        self.pc = target.filter(|&target| target <= length).ok_or(Fault::JumpOutside)?;
        Ok(())
    }

    /// IF jumps on zero, ELSE on not zero; the number stays on the stack.
    fn jump_if(&mut self, zero: bool, distance: u8) -> Result<(), Fault> {
        if self.stack.peek_number(NUMBERS)?.is_zero() == zero {
            return self.jump(Some(self.pc + usize::from(distance)));
        }
        Ok(())
    }

    /// "WHILE c b pops; zero skips b + 1; otherwise the raw byte c + b + 4 is pushed."; "8 c + b above 251 on a value not
    /// zero".
    fn begin_while(&mut self, condition: u8, body: u8) -> Result<(), Fault> {
        if self.stack.pop_number(NUMBERS)?.is_zero() {
            return self.jump(Some(self.pc + usize::from(body) + 1));
        }
        let back = u16::from(condition) + u16::from(body) + 4;
        let back = u8::try_from(back).map_err(|_| Fault::OutOfRange)?;
        self.stack.push_bytes(&[back])
    }

    /// ENDWHILE pops one raw byte and jumps back by it.
    fn end_while(&mut self) -> Result<(), Fault> {
        let back = usize::from(self.stack.pop_byte()?);
        self.jump(self.pc.checked_sub(back))
    }

    /// LOOP keeps the PC past itself.
    fn begin_loop(&mut self) -> Result<(), Fault> {
        self.set_field(LOOP_PC, self.pc);
        Ok(())
    }

    /// "3 ENDLOOP with no loop".
    fn end_loop(&mut self) -> Result<(), Fault> {
        let target = Some(self.field(LOOP_PC)).filter(|&target| target != NO_LOOP);
        self.jump(target)
    }

    /// "OPEN pops the size, then the name".
    fn open(&mut self) -> Result<(), Fault> {
        let size = self.stack.pop_number(NUMBERS)?;
        let name = self.stack.pop_text()?;
        let index = match directory::find(self.disc, &name) {
            Some(index) => index,
            None => self.create(&name, size)?,
        };
        let file = directory::range(self.disc, index);
        self.set_field(FILE_START, file.start);
        self.set_field(FILE_LENGTH, file.len());
        self.set_field(FILE_OFFSET, 0);
        Ok(())
    }

    /// "13 OPEN's new file refused by name, size or store's 8 or 9"; its size goes with the disc as *store*'s does.
    /// Document 02, Q-8: "OPEN now fills a file it creates with zeros."
    fn create(&mut self, name: &[u8], size: Number) -> Result<usize, Fault> {
        // "size (cut toward zero; NaN and infinities count as refused sizes)"
        let size = size.float().trunc();
        let most = data_bytes(self.disc).len() as f32;
        need(directory::good_name(name) && size >= 1.0 && size <= most, Fault::OpenRefused)?;
        let start = directory::add(self.disc, name, size as usize).map_err(|_| Fault::OpenRefused)?;
        self.disc[start..start + size as usize].fill(0);
        Ok(directory::count(self.disc) - 1)
    }

    /// The rest of the open file on the disc; "11 no open file".
    fn rest_of_file(&self) -> Result<Range<usize>, Fault> {
        let start = self.field(FILE_START);
        let length = self.field(FILE_LENGTH);
        need(length > 0, Fault::NoOpenFile)?;
        Ok(start + self.field(FILE_OFFSET)..start + length)
    }

    /// The next bytes of the open file; "12 past the file's end".
    fn next_in_file(&self, count: usize) -> Result<Range<usize>, Fault> {
        let rest = self.rest_of_file()?;
        need(count <= rest.len(), Fault::FileEnded)?;
        Ok(rest.start..rest.start + count)
    }

    /// Moves the file offset on.
    fn advance(&mut self, count: usize) {
        self.set_field(FILE_OFFSET, self.field(FILE_OFFSET) + count);
    }

    /// WRITE keeps "a value's bytes in stack order, without length and type".
    fn write(&mut self) -> Result<(), Fault> {
        let item = self.stack.pop(VALUES)?;
        let bytes = self.stack.bytes(&item);
        let place = self.next_in_file(bytes.len())?;
        self.disc[place.clone()].copy_from_slice(bytes);
        self.advance(place.len());
        Ok(())
    }

    /// READCHAR, READINT, READFLOAT: as many bytes as the type says, which is the type's number.
    fn read(&mut self, kind: u8) -> Result<(), Fault> {
        let place = self.next_in_file(usize::from(kind))?;
        self.stack.push_value(kind, &self.disc[place.clone()])?;
        self.advance(place.len());
        Ok(())
    }

    /// "READSTRING seeks its zero before testing the stack."
    fn read_string(&mut self) -> Result<(), Fault> {
        let rest = self.rest_of_file()?;
        let zero = self.disc[rest.clone()].iter().position(|&byte| byte == 0).ok_or(Fault::FileEnded)?;
        let bytes = &self.disc[rest.start..rest.start + zero + 1];
        self.stack.push_value(STRING_TYPE, bytes)?;
        self.advance(zero + 1);
        Ok(())
    }

    /// "FORK pushes INT 0 where run would refuse."
    fn fork(&mut self) -> Result<(), Fault> {
        let name = self.stack.pop_text()?;
        let id = processes::start(self.disc, self.area, &name).unwrap_or(0);
        self.stack.push_number(Number::Int(id as i16))
    }
}

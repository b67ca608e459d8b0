//! The single process. Document 01, "The single process": it is fed its program bytes, then the clock of each of its
//! turns and each command, "no answers, no disc, no work area".
//!
//! Written apart from the buffer code: it fetches, pops, pushes and jumps by itself and shares only the operators of the
//! guide's tables 2 and 3 and the printing of numbers. CONSTRAIN, MAP and POW it has by itself, in `scaling`.

use crate::answer::Refusal;
use crate::fault::Fault;
use crate::instruction as op;
use crate::number::{operator, Number, Operator, INT_TYPE, NUMBERS, STRING_TYPE, VALUES, WHOLES};
use crate::printing;
use crate::scaling;
use std::collections::BTreeMap;

const STACK_LEN: usize = 32;
const NO_LOOP: usize = 0xFFFF;

/// Running, paused or ended, as the states of a record.
#[derive(Clone, Copy, Debug, PartialEq, Eq)]
pub enum State {
    Running = b'r' as isize,
    Paused = b'p' as isize,
    Ended = 0,
}

/// A value of any type: its bytes in stack order, without length and type.
#[derive(Clone, Debug, PartialEq, Eq)]
pub struct Value {
    pub kind: u8,
    pub bytes: Vec<u8>,
}

/// What document 01 compares after each turn or command: "stack (SP, 32 bytes), variables, place (PC, loop), end (state,
/// fault)".
#[derive(Clone, Debug, PartialEq, Eq)]
pub struct View {
    pub sp: usize,
    pub stack: [u8; STACK_LEN],
    pub variables: BTreeMap<u8, Value>,
    pub pc: usize,
    pub loop_pc: usize,
    pub state: u8,
    pub fault: u8,
}

/// "The single process has a state, fault, PC, loop, SP, 32 stack bytes and any number of variables."
#[derive(Clone)]
pub struct Single {
    program: Vec<u8>,
    state: State,
    fault: u8,
    pc: usize,
    loop_pc: usize,
    stack: Vec<u8>,
    variables: BTreeMap<u8, Value>,
}

/// Where a turn leads.
enum Next {
    Past,
    Jump(i64),
    Stay,
    End,
}

impl Single {
    /// "Start: running, no loop, no variables, the rest 0."
    pub fn start(program: &[u8]) -> Single {
        Single {
            program: program.to_vec(),
            state: State::Running,
            fault: 0,
            pc: 0,
            loop_pc: NO_LOOP,
            stack: Vec::new(),
            variables: BTreeMap::new(),
        }
    }

    /// What can be compared with the buffers.
    pub fn view(&self) -> View {
        let mut stack = [0; STACK_LEN];
        stack[..self.stack.len()].copy_from_slice(&self.stack);
        View {
            sp: self.stack.len(),
            stack,
            variables: self.variables.clone(),
            pc: self.pc,
            loop_pc: self.loop_pc,
            state: self.state as u8,
            fault: self.fault,
        }
    }

    /// What a turn finds at PC, if anything.
    pub fn instruction(&self) -> Option<u8> {
        self.program.get(self.pc).copied()
    }

    /// "Suspend: running becomes paused"; refused 14 once ended, 15 while paused.
    pub fn suspend(&mut self) -> Result<(), Refusal> {
        self.change(State::Running, State::Paused)
    }

    /// "resume: back"; refused 14 once ended, 15 while running.
    pub fn resume(&mut self) -> Result<(), Refusal> {
        self.change(State::Paused, State::Running)
    }

    /// "kill ends it"; refused 14 once ended.
    pub fn kill(&mut self) -> Result<(), Refusal> {
        if self.state == State::Ended {
            return Err(Refusal::NoSuchProcess);
        }
        self.end(0);
        Ok(())
    }

    /// A command: refused 14 once ended, 15 if the state is not the one to leave.
    fn change(&mut self, from: State, to: State) -> Result<(), Refusal> {
        match self.state {
            State::Ended => Err(Refusal::NoSuchProcess),
            state if state == from => {
                self.state = to;
                Ok(())
            }
            _ => Err(Refusal::AlreadyInState),
        }
    }

    /// "Ended: fault (0 unless a fault), no variables, the rest 0."
    fn end(&mut self, fault: u8) {
        self.state = State::Ended;
        self.fault = fault;
        self.pc = 0;
        self.loop_pc = 0;
        self.stack.clear();
        self.variables.clear();
    }

    /// "Turn while running: the instruction at PC of those bytes, as above, printing what that prints."; refused 16
    /// unless running. It must not find a file instruction, FORK or WAITUNTILDONE: demand 3 leaves those out.
    pub fn turn(&mut self, clock: u32) -> Result<Vec<u8>, Refusal> {
        if self.state != State::Running {
            return Err(Refusal::NotRunning);
        }
        let mut after = self.clone();
        let mut output = Vec::new();
        match after.execute(clock as i16, &mut output) {
            Ok(Next::End) => self.end(0),
            Err(fault) => {
                self.end(fault as u8);
                output.clear();
            }
            Ok(_) => *self = after,
        }
        Ok(output)
    }

    /// Fetches and executes on a copy, so that "a faulting instruction changes nothing but the ending".
    fn execute(&mut self, clock: i16, output: &mut Vec<u8>) -> Result<Next, Fault> {
        let opcode = self.instruction().ok_or(Fault::CodeEnded)?;
        if !op::is_built(opcode) {
            return Err(Fault::NoInstruction);
        }
        let arguments = self.arguments(opcode)?;
        let past = self.pc + 1 + arguments.len();
        let next = self.instruct(opcode, &arguments, past, clock, output)?;
        if self.stack.len() > STACK_LEN {
            return Err(Fault::StackFull);
        }
        match next {
            Next::Past => self.pc = past,
            Next::Jump(distance) => self.pc = self.target(past, distance)?,
            Next::Stay | Next::End => {}
        }
        Ok(next)
    }

    /// The argument bytes; "2 code ended" if they are not all there.
    fn arguments(&self, opcode: u8) -> Result<Vec<u8>, Fault> {
        let rest = &self.program[self.pc + 1..];
        let length = if opcode == op::STRING {
            rest.iter().take_while(|&&byte| byte != 0).count() + 1
        } else {
            op::argument_count(opcode)
        };
        rest.get(..length).map(<[u8]>::to_vec).ok_or(Fault::CodeEnded)
    }

    /// "3 jump outside 0 to the code length".
    fn target(&self, past: usize, distance: i64) -> Result<usize, Fault> {
        let target = past as i64 + distance;
        if (0..=self.program.len() as i64).contains(&target) {
            Ok(target as usize)
        } else {
            Err(Fault::JumpOutside)
        }
    }

    /// The instruction itself: pops, pushes, variables and output, and where it leads.
    fn instruct(
        &mut self,
        opcode: u8,
        arguments: &[u8],
        past: usize,
        clock: i16,
        output: &mut Vec<u8>,
    ) -> Result<Next, Fault> {
        match opcode {
            op::CHAR | op::INT | op::FLOAT | op::STRING => self.push(opcode, arguments),
            op::SET => {
                let value = self.pop(VALUES)?;
                self.variables.insert(arguments[0], value);
            }
            op::GET => {
                let value = self.variables.get(&arguments[0]).cloned().ok_or(Fault::NoVariable)?;
                self.push(value.kind, &value.bytes);
            }
            op::PRINT | op::PRINTLN => {
                let value = self.pop(VALUES)?;
                output.extend(text(&value));
                output.extend((opcode == op::PRINTLN).then_some(b'\n'));
            }
            op::MILLIS => self.push(INT_TYPE, &clock.to_be_bytes()),
            op::DELAYUNTIL => {
                if is_ahead(&self.peek(WHOLES)?, clock) {
                    return Ok(Next::Stay);
                }
                self.pop(WHOLES)?;
            }
            op::IF | op::ELSE => {
                if number(&self.peek(NUMBERS)?).is_zero() == (opcode == op::IF) {
                    return Ok(Next::Jump(i64::from(arguments[0])));
                }
            }
            op::ENDIF => {
                self.pop_number()?;
            }
            op::WHILE => return self.begin_while(arguments[0], arguments[1]),
            op::ENDWHILE => {
                let back = self.stack.pop().ok_or(Fault::TooFewBytes)?;
                return Ok(Next::Jump(-i64::from(back)));
            }
            op::LOOP => self.loop_pc = past,
            op::ENDLOOP if self.loop_pc == NO_LOOP => return Err(Fault::JumpOutside),
            op::ENDLOOP => return Ok(Next::Jump(self.loop_pc as i64 - past as i64)),
            op::STOP => return Ok(Next::End),
            _ => self.operate(opcode)?,
        }
        Ok(Next::Past)
    }

    /// WHILE c b: "zero skips b + 1; otherwise the raw byte c + b + 4 is pushed"; above 251 together is fault 8.
    fn begin_while(&mut self, condition: u8, body: u8) -> Result<Next, Fault> {
        let (condition, body) = (i64::from(condition), i64::from(body));
        if self.pop_number()?.is_zero() {
            return Ok(Next::Jump(body + 1));
        }
        if condition + body > 251 {
            return Err(Fault::OutOfRange);
        }
        self.stack.push((condition + body + 4) as u8);
        Ok(Next::Past)
    }

    /// An operator of the guide's tables 2 and 3, or of Q-3.
    fn operate(&mut self, opcode: u8) -> Result<(), Fault> {
        let result = match operator(opcode).expect("demand 3 supposes no file instruction, FORK or WAITUNTILDONE") {
            Operator::Unary(taken, result) => result(number(&self.pop(taken)?))?,
            Operator::Binary(taken, result) => {
                let second = number(&self.pop(taken)?);
                let first = number(&self.pop(taken)?);
                result(first, second)?
            }
            Operator::Several(..) => return self.scale(opcode),
        };
        let kind = result.kind();
        self.push(kind, &result.encode()[..kind as usize]);
        Ok(())
    }

    /// Document 02, Q-3: "Operands stand in appendix C's order, first pushed lowest."; "a FLOAT y is fault 6".
    fn scale(&mut self, opcode: u8) -> Result<(), Fault> {
        let result = match opcode {
            op::CONSTRAIN => {
                let [b, a, x] = [self.pop(NUMBERS)?, self.pop(NUMBERS)?, self.pop(NUMBERS)?];
                scaling::constrain(&x, &a, &b)
            }
            op::MAP => {
                let [e, d, c] = [self.pop(NUMBERS)?, self.pop(NUMBERS)?, self.pop(NUMBERS)?];
                let [b, a] = [self.pop(NUMBERS)?, self.pop(NUMBERS)?];
                scaling::map([&a, &b, &c, &d, &e])?
            }
            _ => {
                let [y, x] = [self.pop(WHOLES)?, self.pop(NUMBERS)?];
                scaling::power(&x, &y)?
            }
        };
        self.push(result.kind, &result.bytes);
        Ok(())
    }

    /// Pushes a value; the stack's height is tested when the instruction is done.
    fn push(&mut self, kind: u8, bytes: &[u8]) {
        self.stack.extend(bytes);
        if kind == STRING_TYPE {
            self.stack.push(bytes.len() as u8);
        }
        self.stack.push(kind);
    }

    /// Pops a value of a taken type, trying "5, 6, 5, 6".
    fn pop(&mut self, taken: &[u8]) -> Result<Value, Fault> {
        let kind = self.stack.pop().ok_or(Fault::TooFewBytes)?;
        if !taken.contains(&kind) {
            return Err(Fault::TypeNotTaken);
        }
        let length = if kind == STRING_TYPE { self.stack.pop().ok_or(Fault::TooFewBytes)? } else { kind };
        let rest = self.stack.len().checked_sub(length as usize).ok_or(Fault::TooFewBytes)?;
        let bytes = self.stack.split_off(rest);
        if kind == STRING_TYPE && (bytes.last() != Some(&0) || bytes.iter().filter(|&&byte| byte == 0).count() != 1) {
            return Err(Fault::TypeNotTaken);
        }
        Ok(Value { kind, bytes })
    }

    /// Pops "a CHAR, an INT or a FLOAT".
    fn pop_number(&mut self) -> Result<Number, Fault> {
        Ok(number(&self.pop(NUMBERS)?))
    }

    /// Looks at a value of a taken type and leaves the stack as it is.
    fn peek(&mut self, taken: &[u8]) -> Result<Value, Fault> {
        let stack = self.stack.clone();
        let value = self.pop(taken);
        self.stack = stack;
        value
    }
}

/// Document 02, Q-4: DELAYUNTIL stays "while x minus the clock, modulo 65,536, is 1 to 32,767": a difference of 16 bits
/// above zero, "CHAR is widened first".
fn is_ahead(x: &Value, clock: i16) -> bool {
    let x = match x.bytes[..] {
        [byte] => i16::from(byte as i8),
        [high, low] => i16::from_be_bytes([high, low]),
        _ => unreachable!("the pop takes CHAR and INT"),
    };
    x.wrapping_sub(clock) > 0
}

/// The number that a numeric value is.
fn number(value: &Value) -> Number {
    Number::decode(value.kind, &value.bytes)
}

/// What PRINT prints of a value.
fn text(value: &Value) -> Vec<u8> {
    if value.kind == STRING_TYPE {
        return value.bytes[..value.bytes.len() - 1].to_vec();
    }
    let mut text = vec![0; STACK_LEN];
    let length = printing::print(number(value), &mut text);
    text.truncate(length);
    text
}

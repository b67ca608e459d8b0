//! Variables with names of several characters: each is given a byte.

use super::message::{Message, Problem};
use super::operands::Operands;
use super::Placed;
use crate::instruction::Arguments;

/// The names in the order of their first appearance, each with its byte.
#[derive(Debug, Default)]
pub struct Names {
    pub table: Vec<(String, u8)>,
}

impl Names {
    /// A name's byte is none that the source uses as a letter, a character or a number.
    pub fn assign(statements: &[Placed], problems: &mut Vec<(usize, Problem)>) -> Names {
        let mut used = used_bytes(statements);
        let mut names = Names::default();
        for placed in statements {
            let Operands::Variable(token) = &placed.statement.operands else { continue };
            if names.byte(token.text).is_some() {
                continue;
            }
            match candidates(token.text).find(|&byte| !used[usize::from(byte)]) {
                Some(byte) => {
                    used[usize::from(byte)] = true;
                    names.table.push((token.text.to_string(), byte));
                }
                None => {
                    let name = token.text.to_string();
                    problems.push((placed.line, token.problem(Message::TooManyVariables { name })));
                }
            }
        }
        names
    }

    pub fn byte(&self, name: &str) -> Option<u8> {
        self.table.iter().find(|(known, _)| known == name).map(|(_, byte)| *byte)
    }
}

fn used_bytes(statements: &[Placed]) -> [bool; 256] {
    let mut used = [false; 256];
    for Placed { statement, .. } in statements {
        let takes_name = statement.instruction.is_some_and(|found| found.arguments == Arguments::Name);
        match &statement.operands {
            Operands::Bytes(bytes) if takes_name => bytes.iter().for_each(|&byte| used[usize::from(byte)] = true),
            _ => {}
        }
    }
    used
}

/// The bytes that a name may have, the best first: its own letters, then other letters and digits, then the rest.
fn candidates(name: &str) -> impl Iterator<Item = u8> + '_ {
    let own = name.bytes().filter(u8::is_ascii_alphabetic);
    own.chain(b'a'..=b'z').chain(b'A'..=b'Z').chain(b'0'..=b'9').chain(0..=255)
}

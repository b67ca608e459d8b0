//! Variable memory as a picture: 16 rows of 16 bytes, a letter for each variable.

use crate::layout::{Variable, MEMORY_LEN};

const ROW: usize = 16;
const FREE: char = '.';
/// A byte that several variables claim, which no good area has.
const CLASH: char = '!';

/// The letter of a variable in the picture, by its place among the variables: A to Y.
pub fn letter(index: usize) -> char {
    u8::try_from(index).ok().and_then(|index| b'A'.checked_add(index)).map_or('?', char::from)
}

/// The picture, addresses in hex, a newline after each row.
pub fn memory(variables: &[Variable]) -> String {
    let mut cells = [FREE; MEMORY_LEN];
    for variable in variables {
        let claimed = variable.address.min(MEMORY_LEN)..variable.end().min(MEMORY_LEN);
        for cell in &mut cells[claimed] {
            *cell = if *cell == FREE { letter(variable.index) } else { CLASH };
        }
    }
    let mut picture = row("  ", (0..ROW).filter_map(|column| char::from_digit(column as u32, ROW as u32)));
    for (index, cells) in cells.chunks(ROW).enumerate() {
        picture += &row(&format!("{:02x}", index * ROW), cells.iter().copied());
    }
    picture
}

/// A row: its address and its cells, a space before each.
fn row(address: &str, cells: impl Iterator<Item = char>) -> String {
    let cells: String = cells.flat_map(|cell| [' ', cell]).collect();
    format!("  {address}{cells}\n")
}

#[cfg(test)]
mod tests {
    use super::*;

    fn variable(index: usize, address: usize, size: usize) -> Variable {
        Variable { index, name: b'n', kind: 3, address, size, id: 1 }
    }

    #[test]
    fn bytes_that_two_claim_are_marked() {
        let picture = memory(&[variable(0, 14, 4), variable(1, 17, 2), variable(24, 255, 30)]);
        let rows: Vec<&str> = picture.lines().collect();
        assert_eq!(rows.len(), 17);
        assert_eq!(rows[0], "     0 1 2 3 4 5 6 7 8 9 a b c d e f");
        assert_eq!(rows[1], "  00 . . . . . . . . . . . . . . A A");
        assert_eq!(rows[2], "  10 A ! B . . . . . . . . . . . . .");
        assert_eq!(rows[16], "  f0 . . . . . . . . . . . . . . . Y");
    }
}

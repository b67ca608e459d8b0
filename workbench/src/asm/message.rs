//! What can be wrong with a source text, and how it is told.

use std::fmt;

/// Declares the messages: a name, what is filled in, and the text.
macro_rules! messages {
    ($($name:ident { $($field:ident: $type:ty),* } $text:literal)*) => {
        #[derive(Clone, Debug, PartialEq, Eq)]
        pub enum Message {
            $($name { $($field: $type),* }),*
        }

        impl Message {
            pub const NAMES: &'static [&'static str] = &[$(stringify!($name)),*];

            pub fn name(&self) -> &'static str {
                match self {
                    $(Message::$name { .. } => stringify!($name)),*
                }
            }
        }

        impl fmt::Display for Message {
            fn fmt(&self, f: &mut fmt::Formatter<'_>) -> fmt::Result {
                match self {
                    $(Message::$name { $($field),* } => write!(f, $text)),*
                }
            }
        }
    };
}

messages! {
    NotText { byte: u8 } "expected text in UTF-8, found the byte {byte}"
    Unclosed { quote: char } "expected a closing {quote}, found the end of the line"
    Escape { found: String } "expected \\n, \\t, \\r, \\0, \\\\, \\', \\\" or \\xHH, found {found}"
    NotPrintable { found: String } "expected a printable ASCII character, found {found}; write its bytes as \\xHH"
    OneCharacter { found: usize } "expected one character between the quotes, found {found}"
    Number { found: String } "expected a number, found '{found}'"
    Symbol { found: String } "expected a word, a number or quotes, found '{found}'"
    FloatRange { found: String } "expected a number that fits a FLOAT (at most 3.4028235e38), found {found}"
    IntRange { found: String } "expected a whole number from -32768 to 32767, found {found}; with a point it is a FLOAT"

    Instruction { found: String, hint: String } "expected an instruction, a literal or DATA, found {found}{hint}"
    EndOfLine { after: String, found: String } "expected the end of the line after {after}, found {found}"
    Label { found: String } "expected a label in front of ':', found {found}"
    LabelTwice { name: String, line: usize } "expected a new label, found '{name}', the label of line {line}"

    CharArgument { found: String }
        "expected a number from -128 to 255, a 'c' or an instruction after CHAR, found {found}"
    IntArgument { found: String }
        "expected a whole number from -32768 to 32767, or two bytes, after INT, found {found}"
    FloatArgument { found: String } "expected a number, or four bytes, after FLOAT, found {found}"
    StringArgument { found: String } "expected \"text\", or bytes up to a zero, after STRING, found {found}"
    Byte { after: String, found: String } "expected a byte from 0 to 255 after {after}, found {found}"
    TextZero { } "expected text without a zero (STRING adds its own), found one"
    ZeroInside { } "expected a zero only at the end of STRING's bytes, found one before"
    ZeroMissing { } "expected a zero at the end of STRING's bytes, found the end of the line"
    ReservedName { after: String, found: String }
        "expected a variable after {after}, found {found}: that name cannot be a variable's"
    Variable { after: String, found: String }
        "expected a variable after {after} (a letter, a 'c', a number from 0 to 255 or a name), found {found}"
    TooManyVariables { name: String } "expected at most 256 variables, found one more: '{name}'"
    Length { after: String, found: String }
        "expected a length from 0 to 255, or the end of the line, after {after}, found {found}"
    Lengths { found: String }
        "expected two lengths from 0 to 255, a label, or the end of the line after WHILE, found {found}"
    SecondLength { first: String, found: String }
        "expected a second length from 0 to 255 (the body's) after WHILE {first}, found {found}"
    UnknownLabel { name: String } "expected the label of an earlier line after WHILE, found '{name}'"
    Data { found: String }
        "expected bytes after DATA (0 to 255, a 'c', \"text\" or an instruction), found {found}"

    NoEnd { opener: String, end: String } "expected {end} for this {opener}, found the end of the source"
    WrongEnd { end: String, opener: String, line: usize, found: String, hint: String }
        "expected {end} for the {opener} of line {line}, found {found}{hint}"
    SecondElse { line: usize } "expected ENDIF for the ELSE of line {line}, found another ELSE"
    ElseAlone { hint: String } "expected an open IF before this ELSE, or a length after it, found neither{hint}"
    BodyTooLong { opener: String, end: String, length: usize }
        "expected at most 255 bytes between {opener} and {end}, found {length}"
    WhileTooLong { length: usize }
        "expected at most 251 bytes of condition and body together, found {length}; WHILE would end by fault 8"
    ConditionMissing { }
        "expected a condition before WHILE that leaves one value, found the beginning of the source"
    ConditionUnclear { found: String, line: usize }
        "expected a condition of plain instructions before WHILE, found {found} in line {line}; \
         put a label where the condition begins: WHILE label"

    ClosesNone { found: String, opener: String, hint: String } "this {found} closes no {opener}{hint}"
    EndMissed { opener: String, end: &'static str, line: usize, length: String, hint: String }
        "{opener} does not lead to its {end} of line {line}, {length} on; without a number the length is counted{hint}"
    BodyDiffers { opener: String, line: usize, length: String, hint: String }
        "{opener}: its body up to the ENDWHILE of line {line} has {length}; \
         without numbers the lengths are counted{hint}"
    LengthsTooLarge { opener: String }
        "{opener}: condition and body together are at most 251 bytes; on a value that is not zero it ends by fault 8"
    NotBuilt { found: String } "{found} is not built: the box ends the process by fault 1 here"
    LongString { length: usize }
        "a STRING of {length} bytes and its length and type do not fit a stack of 32 bytes: fault 4"
    NeverSet { name: String } "{name} is never SET: GET ends by fault 9"
    NoLoop { } "the source has no LOOP: ENDLOOP ends by fault 3"
}

impl Message {
    /// Whether the source is assembled all the same.
    pub fn is_warning(&self) -> bool {
        matches!(
            self,
            Message::ClosesNone { .. }
                | Message::EndMissed { .. }
                | Message::BodyDiffers { .. }
                | Message::LengthsTooLarge { .. }
                | Message::NotBuilt { .. }
                | Message::LongString { .. }
                | Message::NeverSet { .. }
                | Message::NoLoop {}
        )
    }
}

/// A message and the characters of a line that it is about, counted from 1.
#[derive(Clone, Debug, PartialEq, Eq)]
pub struct Problem {
    pub column: usize,
    pub width: usize,
    pub message: Message,
}

/// An error or a warning: a problem and the source line that has it.
#[derive(Clone, Debug, PartialEq, Eq)]
pub struct Diagnostic {
    pub line: usize,
    pub problem: Problem,
    pub text: String,
}

impl Diagnostic {
    /// 'FILE:LINE:COLUMN: message', the source line, and a caret under the column.
    pub fn render(&self, file: &str) -> String {
        let Problem { column, width, message } = &self.problem;
        let text: String = self.text.chars().map(visible).collect();
        // Tabs stay tabs, so that the caret stands where the column is shown.
        let indent: String =
            text.chars().take(column.saturating_sub(1)).map(|c| if c == '\t' { '\t' } else { ' ' }).collect();
        let tail = "~".repeat(width.saturating_sub(1));
        let mark = if message.is_warning() { "warning: " } else { "" };
        format!("{file}:{}:{column}: {mark}{message}\n{text}\n{indent}^{tail}\n", self.line)
    }
}

/// A control character would move the caret or the terminal.
fn visible(c: char) -> char {
    if c.is_control() && c != '\t' {
        char::REPLACEMENT_CHARACTER
    } else {
        c
    }
}

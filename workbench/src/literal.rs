//! Bytes in quotes, as the assembler takes them: printable ASCII as it is, all else escaped.

/// A byte inside quotes of one kind.
fn escaped(byte: u8, quote: char) -> String {
    match byte {
        b'\n' => "\\n".into(),
        b'\t' => "\\t".into(),
        b'\r' => "\\r".into(),
        b'\\' => "\\\\".into(),
        _ if byte == quote as u8 => format!("\\{quote}"),
        b' '..=b'~' => (byte as char).to_string(),
        _ => format!("\\x{byte:02x}"),
    }
}

/// Bytes as "text".
pub fn text(bytes: &[u8]) -> String {
    let inside: String = bytes.iter().map(|&byte| escaped(byte, '"')).collect();
    format!("\"{inside}\"")
}

/// A byte as 'c'.
pub fn character(byte: u8) -> String {
    format!("'{}'", escaped(byte, '\''))
}

/// A variable's name: a letter as it is, any other byte as its number.
pub fn variable(name: u8) -> String {
    if name.is_ascii_alphabetic() {
        char::from(name).to_string()
    } else {
        name.to_string()
    }
}

/// The bytes of a "text" that stands at the front, and its length in characters of the source, all of them ASCII; only
/// as [`text`] writes it.
pub fn read_text(source: &str) -> Option<(Vec<u8>, usize)> {
    let inside = source.strip_prefix('"')?;
    let mut bytes = Vec::new();
    let mut rest = inside;
    loop {
        if rest.starts_with('"') {
            let length = source.len() - rest.len() + 1;
            return (text(&bytes) == source[..length]).then_some((bytes, length));
        }
        let (byte, length) = read_escaped(rest)?;
        bytes.push(byte);
        rest = &rest[length..];
    }
}

/// A byte inside quotes and the length of its source.
fn read_escaped(source: &str) -> Option<(u8, usize)> {
    match *source.as_bytes() {
        [b'\\', b'n', ..] => Some((b'\n', 2)),
        [b'\\', b't', ..] => Some((b'\t', 2)),
        [b'\\', b'r', ..] => Some((b'\r', 2)),
        [b'\\', b'x', ..] => Some((u8::from_str_radix(source.get(2..4)?, 16).ok()?, 4)),
        [b'\\', byte @ (b'\\' | b'"' | b'\''), ..] => Some((byte, 2)),
        [byte @ b' '..=b'~', ..] => Some((byte, 1)),
        _ => None,
    }
}

/// A FLOAT's shortest decimal that is this value and no other, with a point; a NaN other than the kernel's own as its
/// four bytes.
pub fn float(bits: u32) -> String {
    let value = f32::from_bits(bits);
    match bits {
        0x7FC0_0000 => "nan".into(),
        _ if value.is_nan() => bits.to_be_bytes().map(|byte| byte.to_string()).join(" "),
        _ => format!("{value:?}"),
    }
}

#[cfg(test)]
mod tests {
    use super::*;

    #[test]
    fn every_byte_is_read_as_it_was_written() {
        let bytes: Vec<u8> = (0..=255).collect();
        let written = text(&bytes);
        assert_eq!(read_text(&format!("{written} after")), Some((bytes, written.len())));
        assert_eq!(read_text("\"no end"), None);
        assert_eq!(read_text("\"\\x4\""), None);
        assert_eq!(read_text("\"\\x41\""), None);
    }
}

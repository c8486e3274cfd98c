//! Bytes in hexadecimal.
use std::fmt::Write;

/// A row has as many bytes as a number of the protocol.
const ROW: usize = 8;
/// Rows before and after the one that is looked at.
const AROUND: usize = 2;

/// The bytes without anything between them.
pub fn joined(bytes: &[u8]) -> String {
    bytes.iter().fold(String::new(), |mut text, byte| {
        let _ = write!(text, "{byte:02x}");
        text
    })
}

/// The byte as a character: a dot where it is no plain one.
pub fn letter(byte: u8) -> char {
    if (b' '..=b'~').contains(&byte) {
        char::from(byte)
    } else {
        '.'
    }
}

/// The rows around a place, which is marked; a place at the end of the bytes is marked as such.
pub fn view(bytes: &[u8], place: usize) -> Vec<String> {
    let place = place.min(bytes.len());
    let start = (place / ROW).saturating_sub(AROUND) * ROW;
    let end = bytes.len().min((place / ROW + AROUND + 1) * ROW);
    // A row for the mark where the place lies behind the last whole row.
    let rows = (end.max(place + 1) - start).div_ceil(ROW);
    let width = end.to_string().len();
    (0..rows).map(|row| view_row(bytes, start + row * ROW, place, width)).collect()
}

fn view_row(bytes: &[u8], start: usize, place: usize, width: usize) -> String {
    let mut line = format!("{start:>width$} ");
    let mut letters = String::new();
    for at in start..start + ROW {
        // Between two bytes stands one character: a bracket on either side of the place, else a space.
        line.push(match place {
            _ if at == place => '[',
            _ if at == place + 1 && at > start => ']',
            _ => ' ',
        });
        match bytes.get(at) {
            Some(&byte) => {
                let _ = write!(line, "{byte:02x}");
                letters.push(letter(byte));
            }
            None => line.push_str(if at == place { "--" } else { "  " }),
        }
    }
    let close = if place + 1 == start + ROW { ']' } else { ' ' };
    format!("{line}{close} {letters}").trim_end().to_owned()
}

#[cfg(test)]
mod tests {
    use super::*;

    #[test]
    fn the_place_is_marked_among_its_neighbours() {
        let bytes: Vec<u8> = (0x41..0x41 + 60).collect();
        assert_eq!(
            view(&bytes, 27),
            [
                " 8  49 4a 4b 4c 4d 4e 4f 50  IJKLMNOP",
                "16  51 52 53 54 55 56 57 58  QRSTUVWX",
                "24  59 5a 5b[5c]5d 5e 5f 60  YZ[\\]^_`",
                "32  61 62 63 64 65 66 67 68  abcdefgh",
                "40  69 6a 6b 6c 6d 6e 6f 70  ijklmnop",
            ]
        );
    }

    #[test]
    fn first_last_and_the_end() {
        assert_eq!(view(b"abcdefghi", 0), ["0 [61]62 63 64 65 66 67 68  abcdefgh", "8  69                       i"]);
        assert_eq!(view(b"abcdefgh", 7), ["0  61 62 63 64 65 66 67[68] abcdefgh"]);
        assert_eq!(view(b"abcdefgh", 8), ["0  61 62 63 64 65 66 67 68  abcdefgh", "8 [--]"]);
        assert_eq!(view(b"", 0), ["0 [--]"]);
        assert_eq!(view(b"abc", 99), ["0  61 62 63[--]             abc"]);
    }

    #[test]
    fn joined_bytes() {
        assert_eq!(joined(&[0, 0xff, 0x10]), "00ff10");
    }
}

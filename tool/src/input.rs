//! A description from a file or from standard input, as bytes or as text.

use crate::stop::{Stop, failed};
use genduvo::{LONGEST, description};
use std::fs::File;
use std::io::{self, Read};
use std::path::Path;

/// A text is longer than the bytes that it stands for, by some four to ten times.
const LONGEST_TEXT: usize = 32 * LONGEST;
/// So many bytes tell a text from a description.
const LOOKED_AT: usize = 512;

/// The description in a file, or on standard input, as bytes.
pub fn description(file: Option<&Path>) -> Result<Vec<u8>, Stop> {
    let name = name(file);
    let bytes = read(file).or_else(|error| failed(format!("{name}: {error}")))?;
    if !is_text(&bytes) {
        return Ok(bytes);
    }
    if bytes.len() > LONGEST_TEXT {
        return failed(format!("{name}: a text of more than {LONGEST_TEXT} bytes"));
    }
    let text = String::from_utf8(bytes).or_else(|_| failed(format!("{name}: a text that isn't UTF-8")))?;
    // Some editors put a mark before a text.
    let text = text.strip_prefix('\u{feff}').unwrap_or(&text);
    description::text_to_bytes(text).or_else(|error| failed(format!("{name}: {error}")))
}

/// How messages name the input.
pub fn name(file: Option<&Path>) -> String {
    file.map_or_else(|| "standard input".to_string(), |path| path.display().to_string())
}

/// A longer description is refused for its length alone, so no more of it is read.
fn read(file: Option<&Path>) -> io::Result<Vec<u8>> {
    let mut source: Box<dyn Read> = match file {
        Some(path) => Box::new(File::open(path)?),
        None => Box::new(io::stdin()),
    };
    let mut bytes = Vec::new();
    source.by_ref().take(LONGEST as u64 + 1).read_to_end(&mut bytes)?;
    if is_text(&bytes) {
        source.take((LONGEST_TEXT - LONGEST) as u64).read_to_end(&mut bytes)?;
    }
    Ok(bytes)
}

/// A description has the byte 1 first, and a 0 in the length after it; a text has no such bytes.
fn is_text(bytes: &[u8]) -> bool {
    let control = |byte: &u8| byte.is_ascii_control() && !matches!(byte, b'\t' | b'\n' | b'\r');
    !bytes.is_empty() && !bytes.iter().take(LOOKED_AT).any(control)
}

#[cfg(test)]
mod tests {
    use super::is_text;

    #[test]
    fn text_and_bytes_are_told_apart() {
        for text in ["header float=6\n", "# a comment\n", "\n\tchunk\r\n", "bytes 01"] {
            assert!(is_text(text.as_bytes()), "{text}");
        }
        for bytes in [&[][..], &[1, 16, 0], b"#\0\0", &[255, 0]] {
            assert!(!is_text(bytes), "{bytes:?}");
        }
    }
}

//! Names: of lumps and maps as eight bytes, and of files and of anything else as text that is safe to print.

use std::ffi::{OsStr, OsString};

/// A name as it is asked for: upper case, zero-padded to eight bytes. A longer one is left as long as it is, and is then no entry's.
pub fn asked(given: &OsStr) -> Vec<u8> {
    padded(&given.as_encoded_bytes().to_ascii_uppercase())
}

/// All names that are asked for, each once.
pub fn all_asked(given: &[OsString]) -> Vec<Vec<u8>> {
    let mut all: Vec<Vec<u8>> = Vec::new();
    for name in given.iter().map(|name| asked(name)) {
        if !all.contains(&name) {
            all.push(name);
        }
    }
    all
}

/// A name zero-padded to eight bytes, if it is not longer.
pub fn padded(name: &[u8]) -> Vec<u8> {
    let mut name = name.to_vec();
    name.resize(name.len().max(8), 0);
    name
}

/// A name is what precedes its first zero; tools leave what they like behind it.
pub fn cut(name: &[u8]) -> &[u8] {
    name.split(|&byte| byte == 0).next().unwrap_or_default()
}

/// A name's characters.
pub fn text(name: &[u8]) -> String {
    String::from_utf8_lossy(cut(name)).into_owned()
}

/// Text on one line: control characters, and those that turn or hide the text around them, are spelled out. So no name can forge a
/// verdict or command a terminal.
pub fn shown(text: &str) -> String {
    text.chars().map(|it| if is_hidden(it) { it.escape_default().to_string() } else { it.to_string() }).collect()
}

/// A file's name on one line. A backslash is doubled, and a byte that is no UTF-8 is `\xff`: so no two names print alike.
pub fn file(name: &OsStr) -> String {
    let chunks = name.as_encoded_bytes().utf8_chunks();
    chunks.map(|chunk| shown(&chunk.valid().replace('\\', "\\\\")) + &bytes(chunk.invalid())).collect()
}

/// The bytes of a file's name that is not UTF-8: ASCII as it is, a backslash doubled, and all else as `\xff`.
pub fn file_bytes(name: &OsStr) -> Option<String> {
    let is_utf_8 = name.to_str().is_some();
    (!is_utf_8).then(|| name.as_encoded_bytes().iter().map(|&byte| escaped(byte)).collect())
}

/// Bytes of a lump's name in quotes: what no name may have is spelled out.
pub fn quoted(name: &[u8]) -> String {
    format!("\"{}\"", name.escape_ascii())
}

/// Whether a character is not to be printed as it is: a control character, or one that changes the direction of text or has no width.
pub fn is_hidden(it: char) -> bool {
    it.is_control()
        || matches!(it, '\u{ad}' | '\u{61c}' | '\u{180e}' | '\u{200b}'..='\u{200f}' | '\u{2028}'..='\u{202e}')
        || matches!(it, '\u{2060}'..='\u{206f}' | '\u{feff}' | '\u{fff9}'..='\u{fffb}' | '\u{e0000}'..='\u{e007f}')
}

fn escaped(byte: u8) -> String {
    match byte {
        b'\\' => "\\\\".to_string(),
        b' '..=b'~' => char::from(byte).to_string(),
        _ => bytes(&[byte]),
    }
}

fn bytes(bytes: &[u8]) -> String {
    bytes.iter().map(|byte| format!("\\x{byte:02x}")).collect()
}

#[cfg(test)]
mod tests {
    use super::*;
    use std::os::unix::ffi::OsStrExt;

    #[test]
    fn no_two_file_names_print_alike() {
        let names: [&[u8]; 8] =
            [b"a\nb", b"a\\nb", b"a\\\\nb", b"a\xffb", b"a\\xffb", "a\u{202e}b".as_bytes(), b"a\x1bb", "aéb".as_bytes()];
        let said = names.map(|name| file(OsStr::from_bytes(name)));
        let expected = [r"a\nb", r"a\\nb", r"a\\\\nb", r"a\xffb", r"a\\xffb", r"a\u{202e}b", r"a\u{1b}b", "aéb"];
        assert_eq!(said, expected);
    }

    #[test]
    fn the_bytes_of_a_name_are_told_where_it_is_not_utf_8() {
        let names: [&[u8]; 3] = [b"a\xff\\ \n.wad", "é\n.wad".as_bytes(), b"a.wad"];
        let said = names.map(|name| file_bytes(OsStr::from_bytes(name)));
        assert_eq!(said, [Some(r"a\xff\\ \x0a.wad".to_string()), None, None]);
    }

    #[test]
    fn text_that_turns_other_text_is_spelled_out() {
        assert_eq!(shown("a\u{2066}b\u{200f}c\u{feff}d\\e\u{e0041}"), r"a\u{2066}b\u{200f}c\u{feff}d\e\u{e0041}");
    }
}

//! What `--help` prints: a page over all commands, and a part for each of them.

/// The page over all commands.
pub const WHOLE: &str = include_str!("help/whole.txt");

/// Each command's own part.
const PARTS: [(&str, &str); 13] = [
    ("judge", include_str!("help/judge.txt")),
    ("list", include_str!("help/list.txt")),
    ("index", include_str!("help/index.txt")),
    ("extract", include_str!("help/extract.txt")),
    ("descend", include_str!("help/descend.txt")),
    ("order", include_str!("help/order.txt")),
    ("picture", include_str!("help/picture.txt")),
    ("encode", include_str!("help/encode.txt")),
    ("sidedefs", include_str!("help/sidedefs.txt")),
    ("renumber", include_str!("help/renumber.txt")),
    ("diff", include_str!("help/diff.txt")),
    ("text", include_str!("help/text.txt")),
    ("spool", include_str!("help/spool.txt")),
];

/// The part of a command, if there is such a command.
pub fn part(command: &str) -> Option<&'static str> {
    PARTS.iter().find(|(name, _)| *name == command).map(|(_, part)| *part)
}

//! What a member can do about a refusal. Each sentence is said behind what was found.

/// What is to be done where a node builder wrote what is wrong.
pub const BUILD_AGAIN: &str = "Build the nodes again.";

/// The same where nothing else is wrong: the builder's lumps are at fault, and never the drawing.
pub fn build_again(lump: &str) -> String {
    let damaged = if matches!(lump, "REJECT" | "BLOCKMAP") { format!("{lump} is") } else { "the nodes are".to_string() };
    format!("Nothing is wrong in your drawing: {damaged} damaged. {BUILD_AGAIN}")
}

/// The file is not the one that was sent.
pub const SEND_AGAIN: &str = "Send it again.";

/// A lump that the editor writes is at fault.
pub const SAVE_AGAIN: &str = "The lump is damaged: save the map again.";

/// The nodes were not built.
pub const SWITCH_ON: &str = "Save the map with a node builder switched on.";

/// The nodes are there, and of a kind that the box cannot read.
pub const BUILD_PLAIN: &str = "which the box cannot read: build plain nodes (zdbsp without -X, -x and -z)";

/// How a part of a file that is too large gets a file of its own.
pub fn cut_out(what: &str) -> String {
    format!("Cut what you need out of it: meshpigeon extract FILE {what} -o OUT.wad")
}

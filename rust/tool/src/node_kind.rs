//! Nodes of another kind than the plain ones that the box reads: how a map that has them is told from one whose nodes are damaged.

use crate::advice::BUILD_PLAIN;
use crate::look::Look;
use crate::name;
use crate::wad::Wad;
use meshpigeon::{Node, Subsector};

/// What NODES or SSECTORS of another kind begin with, and what the kind is called.
const MARKS: [(&str, &str); 9] = [
    ("XNOD", "the extended kind"),
    ("ZNOD", "the compressed kind"),
    ("XGLN", "the extended GL kind"),
    ("XGL2", "the extended GL kind"),
    ("XGL3", "the extended GL kind"),
    ("ZGLN", "the compressed GL kind"),
    ("ZGL2", "the compressed GL kind"),
    ("ZGL3", "the compressed GL kind"),
    ("xNd4", "DeePBSP's kind"),
];

/// Nodes of another kind.
#[derive(Clone, Debug, PartialEq, Eq)]
pub enum NodeKind {
    /// By the mark that a lump begins with, and what the kind is called.
    Marked(&'static str, &'static str),
    /// By a GL marker of the map: its entry number and name.
    Gl(usize, String),
}

impl NodeKind {
    /// The kind that a map's own lumps are marked with.
    pub fn marked(look: &Look) -> Option<Self> {
        let lumps = [Node::PLACE, Subsector::PLACE].map(|place| look.lump(place));
        let find = |lump: &&[u8]| MARKS.iter().find(|(mark, _)| lump.starts_with(mark.as_bytes()));
        lumps.iter().find_map(find).map(|(mark, kind)| Self::Marked(mark, kind))
    }

    /// The GL nodes of a map, if they are in the file.
    pub fn gl(wad: &Wad, map: &[u8]) -> Option<Self> {
        let name = [b"GL_", name::cut(map)].concat();
        wad.last(&name).map(|entry| Self::Gl(entry, name::text(&name)))
    }

    /// What is said of them.
    pub fn words(&self) -> String {
        match self {
            Self::Marked(mark, kind) => format!("NODES are of {kind} ({mark}), {BUILD_PLAIN}"),
            Self::Gl(entry, name) => format!("the map has no nodes but GL nodes (entry {entry}, {name}), {BUILD_PLAIN}"),
        }
    }

    /// The mark, or the GL marker's name.
    pub fn name(&self) -> &str {
        match self {
            Self::Marked(mark, _) => mark,
            Self::Gl(_, name) => name,
        }
    }
}

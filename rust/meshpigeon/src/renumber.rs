//! NODES with every child numbered before its parent.

use crate::{raw, Node, Refusal, MOST_RENUMBERED, MOST_WORDS};

/// The NODES of a map of either game in the order of a list of old numbers, with words and room of its own: the refusals of
/// [`judge_map`](crate::judge_map), then 73, 70, 72 and 71, in this order.
///
/// The list must be as long as there are nodes that the root reaches (73), hold each of them once (70), end with the root if it is not empty (72),
/// and have every child that is a node before its parent (71). The node that it names first becomes node 0. Children that are nodes have their
/// new numbers, every other byte of a record stays, and nodes that the root does not reach are dropped. By the new NODES every point gets
/// the same subsector and count, and the map has the same depth.
///
/// ```
/// # let words = |words: &[u16]| words.iter().flat_map(|word| word.to_le_bytes()).collect::<Vec<u8>>();
/// use meshpigeon::{descend, renumber, Node};
///
/// // Three lines northward: node 0 at 20 and, the root, node 2 at 10. Nothing leads to node 1.
/// let mut nodes = [0; 3 * Node::SIZE];
/// Node { x: 20, dy: 64, right: 0x8002, left: 0x8001, ..Node::default() }.write(&mut nodes, 0).unwrap();
/// Node { right: 1, left: 2, ..Node::default() }.write(&mut nodes, 1).unwrap();
/// Node { x: 10, dy: 64, right: 0, left: 0x8000, ..Node::default() }.write(&mut nodes, 2).unwrap();
/// # let lumps: [(&[u8; 8], Vec<u8>); 11] = [
/// #     (b"MAP01\0\0\0", vec![]),
/// #     (b"THINGS\0\0", vec![]),
/// #     (b"LINEDEFS", words(&[0, 0, 0, 0, 0, 0, 65_535])),
/// #     (b"SIDEDEFS", vec![0; 30]),
/// #     (b"VERTEXES", vec![0; 4]),
/// #     (b"SEGS\0\0\0\0", vec![0; 12]),
/// #     (b"SSECTORS", words(&[1, 0, 1, 0, 1, 0])),
/// #     (b"NODES\0\0\0", nodes.to_vec()),
/// #     (b"SECTORS\0", vec![0; 26]),
/// #     (b"REJECT\0\0", vec![0]),
/// #     (b"BLOCKMAP", words(&[0, 0, 1, 1, 5, 0, 65_535])),
/// # ];
/// # let (mut wad, mut directory) = (b"PWAD\x0B\0\0\0\0\0\0\0".to_vec(), Vec::new());
/// # for (name, lump) in lumps {
/// #     directory.extend([(wad.len() as u32).to_le_bytes(), (lump.len() as u32).to_le_bytes()].concat());
/// #     directory.extend(name);
/// #     wad.extend(lump);
/// # }
/// # let start = wad.len() as u32;
/// # wad[8..12].copy_from_slice(&start.to_le_bytes());
/// # wad.extend(directory);
/// let new = renumber(&wad, b"MAP01\0\0\0", &[0, 2]).unwrap();
/// assert_eq!(new, [&nodes[..28], &nodes[56..]].concat());
/// assert_eq!(descend(&new, 3, 15, 0), descend(&nodes, 3, 15, 0));
///
/// let refused = |order: &[u16]| renumber(&wad, b"MAP01\0\0\0", order).unwrap_err().number;
/// assert_eq!([refused(&[2]), refused(&[1, 2]), refused(&[2, 0])], [73, 70, 72]);
/// ```
pub fn renumber(wad: &[u8], name: &[u8], order: &[u16]) -> Result<Vec<u8>, Refusal> {
    // A list of another length is 73, so that there is room for all of what is written.
    let mut out = vec![0; MOST_RENUMBERED.min(Node::SIZE.saturating_mul(order.len()))];
    let length = renumber_with(wad, name, &mut vec![0; MOST_WORDS], order, &mut out)?;
    out.truncate(length);
    Ok(out)
}

/// The same over lent work words and into a lent output, and answers how many bytes were written, 28 for each node. An output that is
/// shorter is 74, which is tested last.
///
/// The words end as [`judge_map_with`](crate::judge_map_with) leaves them; with 70 to 74 as acceptance does. The bytes behind the lump stay
/// as found, and a refusal writes nothing.
///
/// ```
/// let (wad, name) = (b"PWAD\0\0\0\0\x0C\0\0\0", b"MAP01\0\0\0");
/// let refusal = meshpigeon::renumber_with(wad, name, &mut [], &[0], &mut []).unwrap_err();
/// assert_eq!(refusal.number, 11);
/// ```
pub fn renumber_with(wad: &[u8], name: &[u8], words: &mut [u16], order: &[u16], out: &mut [u8]) -> Result<usize, Refusal> {
    raw::renumber(wad, name, words, order, out).map(|answer| answer.length)
}

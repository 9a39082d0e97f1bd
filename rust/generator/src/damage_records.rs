//! Minimal damages inside a map's lumps (23 to 30); the damages of the node graph are in `damage_graph`.

use crate::blockmap::LIST_END;
use crate::damage::{damage, Damage};
use crate::{Plan, Rng};
use reader::{Refusal, NO_SIDEDEF, SUBSECTOR_BIT, TWO_SIDED};

/// The damages, numbers rising.
pub(crate) const RECORD_DAMAGES: &[Damage] = &[
    damage(23, "linedef's vertex", |plan, rng| {
        let vertices = plan.map.vertices.len() as u16;
        let record = rng.below(plan.map.linedefs.len());
        let linedef = &mut plan.map.linedefs[record];
        *rng.either(&mut linedef.start, &mut linedef.end) = rng.pick(&[vertices, 0xFFFF]);
        Refusal::new(23, 2, record)
    }),
    damage(23, "linedef's right side", |plan, rng| {
        let sidedefs = plan.map.sidedefs.len() as u16;
        let record = rng.below(plan.map.linedefs.len());
        plan.map.linedefs[record].right = rng.pick(&[sidedefs, NO_SIDEDEF, NO_SIDEDEF - 1]);
        Refusal::new(23, 2, record)
    }),
    damage(23, "linedef's left side", |plan, rng| {
        let sidedefs = plan.map.sidedefs.len() as u16;
        let record = rng.below(plan.map.linedefs.len());
        plan.map.linedefs[record].left = rng.pick(&[sidedefs, NO_SIDEDEF - 1]);
        Refusal::new(23, 2, record)
    }),
    damage(23, "two-sided linedef without a left side", |plan, rng| {
        let record = rng.below(plan.map.linedefs.len());
        plan.map.linedefs[record].flags |= TWO_SIDED;
        plan.map.linedefs[record].left = NO_SIDEDEF;
        Refusal::new(23, 2, record)
    }),
    damage(24, "sidedef's sector", |plan, rng| {
        let sectors = plan.map.sectors.len() as u16;
        let record = rng.below(plan.map.sidedefs.len());
        plan.map.sidedefs[record].sector = rng.pick(&[sectors, 0xFFFF]);
        Refusal::new(24, 3, record)
    }),
    damage(25, "seg's vertex", |plan, rng| {
        let vertices = plan.map.vertices.len() as u16;
        let record = rng.below(plan.map.segs.len());
        let seg = &mut plan.map.segs[record];
        *rng.either(&mut seg.start, &mut seg.end) = rng.pick(&[vertices, 0xFFFF]);
        Refusal::new(25, 5, record)
    }),
    damage(25, "seg's linedef", |plan, rng| {
        let linedefs = plan.map.linedefs.len() as u16;
        let record = rng.below(plan.map.segs.len());
        plan.map.segs[record].linedef = rng.pick(&[linedefs, 0xFFFF]);
        Refusal::new(25, 5, record)
    }),
    damage(25, "seg's direction", |plan, rng| {
        let record = rng.below(plan.map.segs.len());
        plan.map.segs[record].direction = rng.pick(&[2, 0xFFFF, 0x0100, 0x0101]);
        Refusal::new(25, 5, record)
    }),
    damage(25, "seg on a left side that is not there", |plan, rng| {
        let record = rng.below(plan.map.segs.len());
        plan.map.segs[record].linedef = 0;
        plan.map.segs[record].direction = 1;
        Refusal::new(25, 5, record)
    }),
    damage(26, "subsector without a seg", |plan, rng| {
        let record = rng.below(plan.map.subsectors.len());
        plan.map.subsectors[record].number = 0;
        Refusal::new(26, 6, record)
    }),
    damage(26, "subsector past the last seg", |plan, rng| {
        let segs = plan.map.segs.len() as u16;
        let record = rng.below(plan.map.subsectors.len());
        let wrong = [(0, segs + 1), (segs, 1), (0xFFFF, 0xFFFF), (0xFFFF, 1), (1, 0xFFFF)];
        let subsector = &mut plan.map.subsectors[record];
        (subsector.first, subsector.number) = rng.pick(&wrong);
        Refusal::new(26, 6, record)
    }),
    damage(27, "node's child", |plan, rng| {
        let nodes = plan.map.nodes.len() as u16;
        let subsector = SUBSECTOR_BIT | plan.map.subsectors.len() as u16;
        let record = rng.below(plan.map.nodes.len());
        let node = &mut plan.map.nodes[record];
        *rng.either(&mut node.right, &mut node.left) = rng.pick(&[nodes, subsector, 0x7FFF, 0xFFFF]);
        Refusal::new(27, 7, record)
    }),
    damage(28, "BLOCKMAP of an odd size", |plan, _| {
        plan.entry_at(10).padding = vec![0];
        Refusal::new(28, 10, 0)
    }),
    damage(28, "BLOCKMAP under 8 bytes", |plan, rng| {
        plan.map.blockmap.cut = Some(rng.pick(&[0, 2, 4, 6]));
        Refusal::new(28, 10, 0)
    }),
    damage(28, "BLOCKMAP's columns or rows", |plan, rng| {
        let blockmap = &mut plan.map.blockmap;
        *rng.either(&mut blockmap.columns, &mut blockmap.rows) = rng.pick(&[0, 513, 0x8000, 0xFFFF]);
        Refusal::new(28, 10, 0)
    }),
    damage(28, "BLOCKMAP's offsets past the end", |plan, rng| {
        let blockmap = &mut plan.map.blockmap;
        let cells = blockmap.offsets.len();
        blockmap.cut = Some(rng.pick(&[8, 8 + 2 * cells - 2]));
        Refusal::new(28, 10, 0)
    }),
    damage(28, "offset into the table", |plan, rng| {
        let cell = any_cell(plan, rng);
        let table_end = 4 + plan.map.blockmap.offsets.len() as u16;
        plan.map.blockmap.offsets[cell] = rng.pick(&[table_end - 1, 0, 3, 4]);
        Refusal::new(28, 10, cell)
    }),
    damage(28, "offset past the end", |plan, rng| {
        let cell = any_cell(plan, rng);
        plan.map.blockmap.offsets[cell] = rng.pick(&[0xFFFF, 0x8000]);
        Refusal::new(28, 10, cell)
    }),
    damage(28, "list without its 0", |plan, rng| {
        let cell = any_cell(plan, rng);
        let leading = rng.pick(&[1, LIST_END, 0x0100]);
        plan.map.blockmap.give_list(cell, &[leading, 0, LIST_END]);
        Refusal::new(28, 10, cell)
    }),
    damage(28, "linedef of a list", |plan, rng| {
        let cell = any_cell(plan, rng);
        let linedef = rng.pick(&[plan.map.linedefs.len() as u16, 0xFFFE]);
        plan.map.blockmap.give_list(cell, &[0, 0, linedef, 0, LIST_END]);
        Refusal::new(28, 10, cell)
    }),
    damage(28, "list without an end", |plan, rng| {
        let cell = any_cell(plan, rng);
        let list = vec![0; rng.between(1, 4)];
        plan.map.blockmap.give_list(cell, &list);
        Refusal::new(28, 10, cell)
    }),
    damage(30, "too few work words", |plan, rng| {
        let all = -4 * plan.map.nodes.len() as isize;
        plan.spare_words = rng.pick(&[-1, -1, -2, all]);
        Refusal::new(30, 7, 0)
    }),
];

fn any_cell(plan: &Plan, rng: &mut Rng) -> usize {
    rng.below(plan.map.blockmap.offsets.len())
}

/* Holds the header to the library. Every function is called, and every field of every answer and of every record is seen with a
 * value that no field beside it has, so that a field which stands elsewhere in the library than in the header shows another's.
 * Sizes and offsets are asserted too, and rust/meshpigeon/src/raw/layout.rs asserts the same numbers of the Rust side. */
#include "meshpigeon.h"

#include <stdio.h>
#include <string.h>

static int failures;

#define EXPECT(ok)                                                                                                                 \
    do {                                                                                                                           \
        if (!(ok)) {                                                                                                               \
            printf("%s:%d: %s\n", __FILE__, __LINE__, #ok);                                                                        \
            failures++;                                                                                                            \
        }                                                                                                                          \
    } while (0)

/* ---- sizes and offsets ---- */

#define SIZE(type, bytes) _Static_assert(sizeof(meshpigeon_##type) == (bytes), "size of " #type)
#define AT(type, field, bytes) _Static_assert(offsetof(meshpigeon_##type, field) == (bytes), #type "." #field)

SIZE(status, 24);
AT(status, number, 0);
AT(status, place, 8);
AT(status, record, 16);

SIZE(directory_answer, 40);
AT(directory_answer, status, 0);
AT(directory_answer, count, 24);
AT(directory_answer, start, 32);

SIZE(entry_answer, 40);
AT(entry_answer, status, 0);
AT(entry_answer, offset, 24);
AT(entry_answer, size, 32);

SIZE(marker_answer, 40);
AT(marker_answer, status, 0);
AT(marker_answer, marker, 24);
AT(marker_answer, compared, 32);

SIZE(game_answer, 32);
AT(game_answer, status, 0);
AT(game_answer, hexen, 24);

SIZE(map_answer, 40);
AT(map_answer, status, 0);
AT(map_answer, depth, 24);
AT(map_answer, marker, 32);

SIZE(reason_answer, 48);
AT(reason_answer, status, 0);
AT(reason_answer, depth, 24);
AT(reason_answer, marker, 32);
AT(reason_answer, length, 40);

SIZE(descent_answer, 40);
AT(descent_answer, status, 0);
AT(descent_answer, subsector, 24);
AT(descent_answer, count, 32);

SIZE(order_answer, 32);
AT(order_answer, status, 0);
AT(order_answer, count, 24);

SIZE(sidedefs, 32);
AT(sidedefs, sectors, 0);
AT(sidedefs, bytes, 8);
AT(sidedefs, bad, 16);
AT(sidedefs, low, 24);
AT(sidedefs, found, 25);

SIZE(pair_entry_answer, 48);
AT(pair_entry_answer, status, 0);
AT(pair_entry_answer, file, 24);
AT(pair_entry_answer, offset, 32);
AT(pair_entry_answer, size, 40);

SIZE(pair_map_answer, 48);
AT(pair_map_answer, status, 0);
AT(pair_map_answer, file, 24);
AT(pair_map_answer, depth, 32);
AT(pair_map_answer, marker, 40);

SIZE(differences_answer, 96);
AT(differences_answer, status, 0);
AT(differences_answer, file, 24);
AT(differences_answer, counts, 32);

SIZE(index_record, 10);
AT(index_record, name, 0);
AT(index_record, number, 8);

SIZE(index_answer, 40);
AT(index_answer, status, 0);
AT(index_answer, entry, 24);
AT(index_answer, compared, 32);

SIZE(picture, 24);
AT(picture, width, 0);
AT(picture, height, 8);
AT(picture, left, 16);
AT(picture, top, 18);

SIZE(picture_answer, 48);
AT(picture_answer, status, 0);
AT(picture_answer, picture, 24);

SIZE(length_answer, 32);
AT(length_answer, status, 0);
AT(length_answer, length, 24);

/* ---- a file with one map ---- */

/* A number of two bytes, and of four, the lowest first. */
#define W(number) (uint8_t)((number)&255), (uint8_t)(((number) >> 8) & 255)
#define L(number) W(number), W((number) >> 16)
#define SUBSECTOR(number) W(0x8000 + (number))
#define NO_NAME 0, 0, 0, 0, 0, 0, 0, 0
#define NO_BOX NO_NAME
#define NO_SIDEDEF W(65535)

static const uint8_t palette[] = {1, 2, 3, 4, 5};

/* Start, end, flags, special, tag, right, left. */
static const uint8_t linedefs[] = {W(0), W(1), W(0), W(0), W(0), W(0), NO_SIDEDEF,
                                   W(1), W(0), W(0), W(0), W(0), W(0), NO_SIDEDEF};
/* Offsets, three textures, sector. */
static const uint8_t sidedefs[] = {W(0), W(0), NO_NAME, NO_NAME, NO_NAME, W(0)};
/* Eastward, northward. */
static const uint8_t vertexes[] = {W(0), W(0), W(64), W(64)};
/* Start, end, angle, linedef, direction, offset. */
static const uint8_t segs[] = {W(0), W(1), W(0), W(0), W(0), W(0),
                               W(1), W(0), W(0), W(1), W(0), W(0)};
/* Number of segs, first. */
static const uint8_t subsectors[] = {W(1), W(0), W(1), W(1), W(2), W(0), W(1), W(0)};
/* Start, direction, two boxes, right, left. Both lines go northward, so that east of a line is its right. The root is the last:
 * west of 10 is subsector 3, and node 0 parts the rest at 20 into subsector 1 in the east and subsector 0. */
static const uint8_t nodes[] = {W(20), W(0), W(0), W(64), NO_BOX, NO_BOX, SUBSECTOR(1), SUBSECTOR(0),
                                W(10), W(0), W(0), W(64), NO_BOX, NO_BOX, W(0), SUBSECTOR(3)};
/* Floor, ceiling, two flats, light, special, tag. */
static const uint8_t sectors[] = {W(0), W(128), NO_NAME, NO_NAME, W(160), W(0), W(0)};
static const uint8_t reject[] = {0};
/* Origin, columns, rows; the offset of the one cell; its list. */
static const uint8_t blockmap[] = {W(0), W(0), W(1), W(1), W(5), W(0), W(0), W(1), W(65535)};

static const uint8_t map_name[8] = "MAP01";

enum { BEFORE = 3, ENTRIES = BEFORE + 11, NODES = 2, DEPTH = 2 };

static const struct {
    char name[9];
    const uint8_t *bytes;
    size_t size;
} lumps[ENTRIES] = {
    {"DEMO1", NULL, 0},
    {"PLAYPAL", palette, sizeof palette},
    {"DEMO2", NULL, 0},
    {"MAP01", NULL, 0},
    {"THINGS", NULL, 0},
    {"LINEDEFS", linedefs, sizeof linedefs},
    {"SIDEDEFS", sidedefs, sizeof sidedefs},
    {"VERTEXES", vertexes, sizeof vertexes},
    {"SEGS", segs, sizeof segs},
    {"SSECTORS", subsectors, sizeof subsectors},
    {"NODES", nodes, sizeof nodes},
    {"SECTORS", sectors, sizeof sectors},
    {"REJECT", reject, sizeof reject},
    {"BLOCKMAP", blockmap, sizeof blockmap},
};

/* The file: header, lumps in turn, directory. */
static uint8_t wad[2048];
static size_t wad_len, wad_start;

static void put(const void *bytes, size_t size)
{
    if (size > 0)
        memcpy(wad + wad_len, bytes, size);
    wad_len += size;
}

static size_t lump_offset(size_t entry)
{
    size_t offset = 12;
    for (size_t i = 0; i < entry; i++)
        offset += lumps[i].size;
    return offset;
}

static void build_wad(void)
{
    wad_len = 0;
    wad_start = lump_offset(ENTRIES);
    const uint8_t header[] = {'P', 'W', 'A', 'D', L(ENTRIES), L(wad_start)};
    put(header, sizeof header);
    for (size_t i = 0; i < ENTRIES; i++)
        put(lumps[i].bytes, lumps[i].size);
    for (size_t i = 0; i < ENTRIES; i++) {
        const uint8_t part[] = {L(lump_offset(i)), L(lumps[i].size)};
        put(part, sizeof part);
        put(lumps[i].name, 8);
    }
}

/* ---- statuses ---- */

static int status_is(meshpigeon_status status, uint32_t number, size_t place, size_t record)
{
    return status.number == number && status.place == place && status.record == record;
}

static int accepted(meshpigeon_status status)
{
    return status_is(status, 0, 0, 0);
}

/* A refusal whose number, place and record are three different numbers, none of them 0: linedef 1 starts at vertex 2. */
static void statuses(void)
{
    uint16_t words[4 * NODES];
    build_wad();
    wad[lump_offset(BEFORE + 2) + 14] = 2;
    meshpigeon_map_answer j = meshpigeon_judge_map(wad, wad_len, map_name, 8, words, 4 * NODES);
    EXPECT(status_is(j.status, 23, 2, 1) && j.depth == 0 && j.marker == 0);
}

/* ---- files ---- */

static void directories(void)
{
    build_wad();
    meshpigeon_directory_answer d = meshpigeon_directory(wad, wad_len);
    EXPECT(accepted(d.status) && d.count == ENTRIES && d.start == wad_start);
    d = meshpigeon_directory(wad, 11);
    EXPECT(status_is(d.status, 1, 0, 0) && d.count == 0 && d.start == 0);
    wad[wad_start + 8 + 7] = 'p';
    d = meshpigeon_directory(wad, wad_len);
    EXPECT(accepted(d.status) && d.count == ENTRIES && d.start == wad_start);
    wad[wad_start + 16 + 8] = 'p';
    d = meshpigeon_directory(wad, wad_len);
    EXPECT(status_is(d.status, 6, 0, 1) && d.count == 0 && d.start == 0);
}

static void entries(void)
{
    build_wad();
    for (size_t i = 0; i < ENTRIES; i++) {
        meshpigeon_entry_answer e = meshpigeon_entry(wad, wad_len, i);
        EXPECT(accepted(e.status) && e.size == lumps[i].size);
        EXPECT(e.offset == (lumps[i].size == 0 ? 0 : lump_offset(i)));
    }
    meshpigeon_entry_answer e = meshpigeon_entry(wad, wad_len, ENTRIES);
    EXPECT(status_is(e.status, 7, 0, 0) && e.offset == 0 && e.size == 0);
}

static void markers(void)
{
    build_wad();
    meshpigeon_marker_answer m = meshpigeon_find_map(wad, wad_len, map_name, 8);
    EXPECT(accepted(m.status) && m.marker == BEFORE && m.compared == ENTRIES - BEFORE);
    m = meshpigeon_find_map(wad, wad_len, (const uint8_t *)"MAP01\0zz", 8);
    EXPECT(accepted(m.status) && m.marker == BEFORE && m.compared == ENTRIES - BEFORE);
    m = meshpigeon_find_map(wad, wad_len, (const uint8_t *)"MAP02\0\0", 8);
    EXPECT(status_is(m.status, 11, 0, 0) && m.marker == 0 && m.compared == ENTRIES);
    m = meshpigeon_find_map(wad, wad_len, map_name, 5);
    EXPECT(status_is(m.status, 10, 0, 0) && m.marker == 0 && m.compared == 0);
    wad[wad_start + 16 + 8] = 'p';
    m = meshpigeon_find_map(wad, wad_len, map_name, 8);
    EXPECT(status_is(m.status, 6, 0, 1) && m.marker == 0 && m.compared == 0);
}

/* ---- maps ---- */

/* The twelfth of so many entries that are called BLOCKMAP is BEHAVIOR: it stands eleven behind the first. */
static void games(void)
{
    wad_len = 0;
    const uint8_t header[] = {'P', 'W', 'A', 'D', L(13), L(12)}, part[] = {L(0), L(0)};
    put(header, sizeof header);
    for (size_t i = 0; i < 13; i++) {
        put(part, sizeof part);
        put(i == 11 ? "BEHAVIOR" : "BLOCKMAP", 8);
    }
    meshpigeon_game_answer g = meshpigeon_map_game(wad, wad_len, 0);
    EXPECT(accepted(g.status) && g.hexen);
    g = meshpigeon_map_game(wad, wad_len, 1);
    EXPECT(accepted(g.status) && !g.hexen);
    g = meshpigeon_map_game(wad, wad_len, 13);
    EXPECT(status_is(g.status, 7, 0, 0) && !g.hexen);
    wad[12 + 16 * 3 + 8] = 'b';
    g = meshpigeon_map_game(wad, wad_len, 0);
    EXPECT(status_is(g.status, 6, 0, 3) && !g.hexen);
}

static void maps(void)
{
    uint16_t words[4 * NODES + 1];
    memset(words, 0xA5, sizeof words);
    build_wad();
    meshpigeon_map_answer j = meshpigeon_judge_map(wad, wad_len, map_name, 8, words, 4 * NODES - 1);
    EXPECT(status_is(j.status, 30, 7, 0) && j.depth == 0 && j.marker == 0);
    for (size_t i = 0; i <= 4 * NODES; i++)
        EXPECT(words[i] == 0xA5A5);
    j = meshpigeon_judge_map(wad, wad_len, map_name, 8, words, 4 * NODES + 1);
    EXPECT(accepted(j.status) && j.depth == DEPTH && j.marker == BEFORE);
    for (size_t i = 0; i < 4 * NODES; i++)
        EXPECT(words[i] == 0);
    EXPECT(words[4 * NODES] == 0xA5A5);
}

/* What both children of node 0 are, of a map whose root has node 0 and subsector 3; the words end as they do for acceptance. */
static void graph_is_refused(uint16_t child, uint32_t number)
{
    uint16_t words[4 * NODES + 1];
    memset(words, 0xA5, sizeof words);
    build_wad();
    const uint8_t children[] = {W(child), W(child)};
    memcpy(wad + lump_offset(BEFORE + 7) + 24, children, sizeof children);
    meshpigeon_map_answer j = meshpigeon_judge_map(wad, wad_len, map_name, 8, words, 4 * NODES + 1);
    EXPECT(status_is(j.status, number, 7, 0) && j.depth == 0 && j.marker == 0);
    for (size_t i = 0; i < 4 * NODES; i++)
        EXPECT(words[i] == 0);
    EXPECT(words[4 * NODES] == 0xA5A5);
}

static void graphs(void)
{
    graph_is_refused(1, 31);
    graph_is_refused(0x8000, 32);
}

/* ---- a map, and why ---- */

static int all_are(const void *bytes, size_t size, uint8_t value)
{
    for (size_t i = 0; i < size; i++)
        if (((const uint8_t *)bytes)[i] != value)
            return 0;
    return 1;
}

/* What the library is lent: as many bytes as a field needs and one more, and a word more than the nodes need. */
static uint8_t reason[17];
static uint16_t lent[4 * NODES + 1];

static meshpigeon_reason_answer why(size_t words_len, size_t out_len)
{
    memset(reason, 0xA5, sizeof reason);
    memset(lent, 0xA5, sizeof lent);
    return meshpigeon_why(wad, wad_len, map_name, 8, lent, words_len, reason, out_len);
}

static int reason_is(meshpigeon_reason_answer w, size_t depth, size_t marker, size_t length)
{
    return w.depth == depth && w.marker == marker && w.length == length;
}

/* What was printed, with all bytes behind it as found. */
static int printed_is(const void *bytes, size_t length)
{
    return memcmp(reason, bytes, length) == 0 && all_are(reason + length, sizeof reason - length, 0xA5);
}

/* The words as a refusal below 31 leaves them, and as 31, 32 and acceptance do. */
static int words_as_found(void)
{
    return all_are(lent, sizeof lent, 0xA5);
}

static int words_cleared(void)
{
    return all_are(lent, 8 * NODES, 0) && lent[4 * NODES] == 0xA5A5;
}

/* The children of node 0 and of node 1, the root. */
static void give_children(uint16_t right_0, uint16_t left_0, uint16_t right_1, uint16_t left_1)
{
    const uint8_t of_0[] = {W(right_0), W(left_0)}, of_1[] = {W(right_1), W(left_1)};
    memcpy(wad + lump_offset(BEFORE + 7) + 24, of_0, sizeof of_0);
    memcpy(wad + lump_offset(BEFORE + 7) + 28 + 24, of_1, sizeof of_1);
}

/* The deepest route: through node 0 on either side of the root, and right where both children are as deep. */
static void routes(void)
{
    build_wad();
    meshpigeon_reason_answer w = why(4 * NODES + 1, sizeof reason);
    EXPECT(accepted(w.status) && reason_is(w, DEPTH, BEFORE, 2) && printed_is("RR", 2) && words_cleared());
    give_children(0x8001, 0x8000, 0x8003, 0);
    w = why(4 * NODES, 2);
    EXPECT(accepted(w.status) && reason_is(w, DEPTH, BEFORE, 2) && printed_is("LR", 2) && words_cleared());
    w = why(4 * NODES, 1);
    EXPECT(status_is(w.status, 85, 0, 0) && reason_is(w, 0, 0, 0) && printed_is("", 0) && words_cleared());
}

/* Linedef 1 has right sidedef 513 of one sidedef. */
static void fields(void)
{
    static const uint8_t field[] = {L(10), L(513), L(0), L(0)};
    build_wad();
    wad[lump_offset(BEFORE + 2) + 14 + 10] = 1;
    wad[lump_offset(BEFORE + 2) + 14 + 11] = 2;
    meshpigeon_reason_answer w = why(4 * NODES, sizeof reason);
    EXPECT(status_is(w.status, 23, 2, 1) && reason_is(w, 0, 0, 16) && printed_is(field, 16) && words_as_found());
    w = why(0, 16);
    EXPECT(status_is(w.status, 23, 2, 1) && reason_is(w, 0, 0, 16) && printed_is(field, 16) && words_as_found());
    w = why(4 * NODES, 15);
    EXPECT(status_is(w.status, 85, 0, 0) && reason_is(w, 0, 0, 0) && printed_is("", 0) && words_as_found());
}

/* Four numbers of which each is another: the offset of cell 0 leads to word 259, and words 5 to 8 are behind the offsets. */
static void cells(void)
{
    static const uint8_t field[] = {L(8), L(259), L(5), L(8)}, offset[] = {W(259)};
    build_wad();
    memcpy(wad + lump_offset(BEFORE + 10) + 8, offset, sizeof offset);
    meshpigeon_reason_answer w = why(4 * NODES, 16);
    EXPECT(status_is(w.status, 28, 10, 0) && reason_is(w, 0, 0, 16) && printed_is(field, 16) && words_as_found());
}

/* From the root right to node 0, whose left child is node 0 again; and left to it, whose right child is the root. */
static void loops(void)
{
    build_wad();
    give_children(0x8001, 0, 0, 0x8003);
    meshpigeon_reason_answer w = why(4 * NODES + 1, sizeof reason);
    EXPECT(status_is(w.status, 31, 7, 0) && reason_is(w, 0, 0, 2) && printed_is("RL", 2) && words_cleared());
    w = why(4 * NODES + 1, 1);
    EXPECT(status_is(w.status, 85, 0, 0) && reason_is(w, 0, 0, 0) && printed_is("", 0) && words_cleared());
    give_children(1, 0, 0x8003, 0);
    w = why(4 * NODES, 2);
    EXPECT(status_is(w.status, 31, 7, 0) && reason_is(w, 0, 0, 2) && printed_is("LR", 2) && words_cleared());
}

/* Refusals that print nothing ask for no room. */
static void silences(void)
{
    build_wad();
    meshpigeon_reason_answer w = why(4 * NODES - 1, 0);
    EXPECT(status_is(w.status, 30, 7, 0) && reason_is(w, 0, 0, 0) && printed_is("", 0) && words_as_found());
    give_children(0x8001, 0x8001, 0, 0x8003);
    w = why(4 * NODES, 0);
    EXPECT(status_is(w.status, 32, 7, 0) && reason_is(w, 0, 0, 0) && printed_is("", 0) && words_cleared());
    wad[wad_start + 16 + 8] = 'p';
    w = why(4 * NODES, sizeof reason);
    EXPECT(status_is(w.status, 6, 0, 1) && reason_is(w, 0, 0, 0) && printed_is("", 0) && words_as_found());
}

static void reasons(void)
{
    routes();
    fields();
    cells();
    loops();
    silences();
}

static void points(void)
{
    meshpigeon_descent_answer r = meshpigeon_descend(nodes, sizeof nodes, 4, -5, 30);
    EXPECT(accepted(r.status) && r.subsector == 3 && r.count == 1);
    r = meshpigeon_descend(nodes, sizeof nodes, 4, 15, 30);
    EXPECT(accepted(r.status) && r.subsector == 0 && r.count == 2);
    r = meshpigeon_descend(nodes, sizeof nodes, 4, 30, 15);
    EXPECT(accepted(r.status) && r.subsector == 1 && r.count == 2);
    r = meshpigeon_descend(nodes, sizeof nodes - 1, 4, 0, 0);
    EXPECT(status_is(r.status, 40, 0, 0) && r.subsector == 0 && r.count == 0);
    r = meshpigeon_descend(nodes, sizeof nodes, 3, -5, 30);
    EXPECT(status_is(r.status, 42, 0, 1) && r.subsector == 0 && r.count == 0);
}

static int words_are(const uint16_t *words, uint16_t first, uint16_t second, uint16_t third, uint16_t fourth)
{
    return words[0] == first && words[1] == second && words[2] == third && words[3] == fourth;
}

static void orders(void)
{
    uint16_t words[4] = {9, 9, 9, 9};
    meshpigeon_order_answer o = meshpigeon_draw_order(nodes, sizeof nodes, 4, 15, 30, words, 2);
    EXPECT(status_is(o.status, 45, 0, 0) && o.count == 0 && words_are(words, 9, 9, 9, 9));
    o = meshpigeon_draw_order(nodes, sizeof nodes, 0, 15, 30, words, 2);
    EXPECT(status_is(o.status, 41, 0, 0) && o.count == 0 && words_are(words, 9, 9, 9, 9));
    o = meshpigeon_draw_order(nodes, sizeof nodes, 4, 15, 30, words, 4);
    EXPECT(accepted(o.status) && o.count == 3 && words_are(words, 0, 1, 3, 9));
    o = meshpigeon_draw_order(nodes, sizeof nodes, 4, -5, 30, words, 4);
    EXPECT(accepted(o.status) && o.count == 3 && words_are(words, 3, 0, 1, 9));
    o = meshpigeon_draw_order(nodes, sizeof nodes, 4, 30, 15, words, 3);
    EXPECT(accepted(o.status) && o.count == 3 && words_are(words, 1, 0, 3, 9));
    o = meshpigeon_draw_order(nodes, sizeof nodes, 3, 30, 15, words, 4);
    EXPECT(status_is(o.status, 42, 0, 1) && o.count == 0 && words_are(words, 0, 0, 0, 9));
}

/* Both children of the root are what is given, and both of node 0 a subsector that is there. */
static void orders_are_refused(uint16_t child, uint32_t number)
{
    uint16_t words[4] = {9, 9, 9, 9};
    const uint8_t graph[] = {W(0), W(0), W(0), W(64), NO_BOX, NO_BOX, SUBSECTOR(0), SUBSECTOR(0),
                             W(0), W(0), W(0), W(64), NO_BOX, NO_BOX, W(child), W(child)};
    meshpigeon_order_answer o = meshpigeon_draw_order(graph, sizeof graph, 1, 5, 5, words, 4);
    EXPECT(status_is(o.status, number, 0, 0) && o.count == 0 && words_are(words, 0, 0, 0, 9));
}

/* ---- NODES numbered anew ---- */

/* Four nodes over four subsectors, with fields that are all different: the root, the last, has node 0, and that has node 2, a child above its
 * parent. Nothing leads to node 1. Then the three that are reached, children first. */
#define FOUR(n) W(n), W((n) + 1), W((n) + 2), W((n) + 3)
#define LINE(n) FOUR(n), FOUR((n) + 4), FOUR((n) + 8)
enum { TANGLED = 4, REACHED = 3, NEW_SIZE = 28 * REACHED };
static const uint8_t tangled[28 * TANGLED] = {LINE(0x1110), SUBSECTOR(1), W(2), LINE(0x2220), W(1), W(3),
                                              LINE(0x3330), SUBSECTOR(0), SUBSECTOR(2), LINE(0x4440), W(0), SUBSECTOR(3)};
static const uint8_t numbered[NEW_SIZE] = {LINE(0x3330), SUBSECTOR(0), SUBSECTOR(2), LINE(0x1110), SUBSECTOR(1), W(0),
                                           LINE(0x4440), W(1), SUBSECTOR(3)};

/* An entry's part of the file. */
static void give_part(size_t entry, size_t offset, size_t size)
{
    const uint8_t part[] = {L(offset), L(size)};
    memcpy(wad + wad_start + 16 * entry, part, sizeof part);
}

/* The file with these nodes, behind all the rest. */
static void build_wad_of(const uint8_t *bytes, size_t size)
{
    build_wad();
    give_part(BEFORE + 7, wad_len, size);
    put(bytes, size);
}

/* What the library is lent: a byte more than the new lump has, and a word more than the nodes need. */
static uint8_t renumbered[NEW_SIZE + 1];
static uint16_t work[4 * TANGLED + 1];

static meshpigeon_length_answer renumber(size_t words_len, const uint16_t *order, size_t order_len, size_t out_len)
{
    memset(renumbered, 0xA5, sizeof renumbered);
    memset(work, 0xA5, sizeof work);
    return meshpigeon_renumber(wad, wad_len, map_name, 8, work, words_len, order, order_len, renumbered, out_len);
}

/* The first words zero, as many as are given, and all others as found. */
static int work_is(size_t zero)
{
    return all_are(work, 2 * zero, 0) && all_are(work + zero, sizeof work - 2 * zero, 0xA5);
}

/* A refusal: nothing is written. */
static int is_renumber_refused(meshpigeon_length_answer r, uint32_t number, size_t place, size_t record, size_t zero)
{
    return status_is(r.status, number, place, record) && r.length == 0 && all_are(renumbered, sizeof renumbered, 0xA5) && work_is(zero);
}

#define ORDER(...) (const uint16_t[]){__VA_ARGS__}, sizeof((const uint16_t[]){__VA_ARGS__}) / sizeof(uint16_t)
#define ORDER_IS_REFUSED(number, out_len, ...)                                                                                     \
    EXPECT(is_renumber_refused(renumber(4 * TANGLED, ORDER(__VA_ARGS__), out_len), number, 0, 0, 4 * TANGLED))

static void renumberings(void)
{
    build_wad_of(tangled, sizeof tangled);
    meshpigeon_length_answer r = renumber(4 * TANGLED + 1, ORDER(2, 0, 3), NEW_SIZE + 1);
    EXPECT(accepted(r.status) && r.length == NEW_SIZE && work_is(4 * TANGLED));
    EXPECT(memcmp(renumbered, numbered, NEW_SIZE) == 0 && renumbered[NEW_SIZE] == 0xA5);
    r = renumber(4 * TANGLED, ORDER(2, 0, 3), NEW_SIZE);
    EXPECT(accepted(r.status) && r.length == NEW_SIZE && memcmp(renumbered, numbered, NEW_SIZE) == 0);
    build_wad_of(numbered, sizeof numbered);
    r = renumber(4 * REACHED, ORDER(0, 1, 2), NEW_SIZE);
    EXPECT(accepted(r.status) && r.length == NEW_SIZE && memcmp(renumbered, numbered, NEW_SIZE) == 0);
}

/* Of each number a list that is wrong in this alone, and one that is wrong in all that is tested later too. */
static void bad_orders(void)
{
    static const uint16_t none = 0;
    build_wad_of(tangled, sizeof tangled);
    EXPECT(is_renumber_refused(renumber(4 * TANGLED, &none, 0, NEW_SIZE), 73, 0, 0, 4 * TANGLED));
    ORDER_IS_REFUSED(73, NEW_SIZE, 2, 0);
    ORDER_IS_REFUSED(73, NEW_SIZE, 2, 0, 3, 3);
    ORDER_IS_REFUSED(73, 0, 3, 1, 2, 9);
    ORDER_IS_REFUSED(70, NEW_SIZE, 2, 2, 3);
    ORDER_IS_REFUSED(70, NEW_SIZE, 2, 1, 3);
    ORDER_IS_REFUSED(70, NEW_SIZE, 4, 0, 3);
    ORDER_IS_REFUSED(70, NEW_SIZE, 0x8002, 0, 3);
    ORDER_IS_REFUSED(70, 0, 3, 0, 0);
    ORDER_IS_REFUSED(72, NEW_SIZE, 2, 3, 0);
    ORDER_IS_REFUSED(72, 0, 3, 0, 2);
    ORDER_IS_REFUSED(71, NEW_SIZE, 0, 2, 3);
    ORDER_IS_REFUSED(71, 0, 0, 2, 3);
    ORDER_IS_REFUSED(74, NEW_SIZE - 1, 2, 0, 3);
    ORDER_IS_REFUSED(74, 0, 2, 0, 3);
}

/* A map's own refusals come first, whatever the list; and a map without nodes has the empty list alone. */
static void renumbered_maps(void)
{
    static const uint16_t none = 0;
    build_wad_of(tangled, sizeof tangled);
    EXPECT(is_renumber_refused(renumber(4 * TANGLED - 1, ORDER(9), 0), 30, 7, 0, 0));
    wad[lump_offset(BEFORE + 2) + 14] = 2;
    EXPECT(is_renumber_refused(renumber(4 * TANGLED, ORDER(2, 0, 3), NEW_SIZE), 23, 2, 1, 0));
    build_wad_of(tangled, sizeof tangled);
    wad[wad_len - 28 * TANGLED + 26] = 0;
    EXPECT(is_renumber_refused(renumber(4 * TANGLED, ORDER(2, 0, 3), NEW_SIZE), 31, 7, 0, 4 * TANGLED));
    build_wad_of(tangled, 0);
    give_part(BEFORE + 6, lump_offset(BEFORE + 6), 4);
    meshpigeon_length_answer r = renumber(0, &none, 0, 0);
    EXPECT(accepted(r.status) && r.length == 0 && all_are(renumbered, sizeof renumbered, 0xA5) && work_is(0));
    EXPECT(is_renumber_refused(renumber(1, ORDER(0), NEW_SIZE), 73, 0, 0, 0));
}

/* ---- SIDEDEFS as it arrives ---- */

static int state_is(meshpigeon_sidedefs s, size_t sectors, size_t bytes, size_t bad, uint8_t low, bool found)
{
    return s.sectors == sectors && s.bytes == bytes && s.bad == bad && s.low == low && s.found == found;
}

/* Five sidedefs and a half: the sectors of the fourth and of the fifth, numbers 3 and 4, are not there. Two scraps end between the bytes of
 * a sector. */
static void scraps(void)
{
    enum { SECTORS = 1000, RECORD = 30 };
    static const uint8_t any[28] = {0};
    static const uint8_t good[] = {W(999)}, bad[] = {W(1001)}, last[] = {W(0x4D4D)};
    meshpigeon_sidedefs s = meshpigeon_sidedefs_start(SECTORS);
    EXPECT(state_is(s, SECTORS, 0, 0, 0, false));
    EXPECT(status_is(meshpigeon_sidedefs_verdict(s), 21, 3, 0));
    for (size_t i = 0; i < 5; i++) {
        s = meshpigeon_sidedefs_feed(s, any, sizeof any);
        EXPECT(status_is(meshpigeon_sidedefs_verdict(s), 20, 3, 0));
        s = meshpigeon_sidedefs_feed(s, i < 3 ? good : bad, 1);
        EXPECT(state_is(s, SECTORS, RECORD * i + 29, i > 3 ? 3 : 0, i < 3 ? 0xE7 : 0xE9, i > 3));
        s = meshpigeon_sidedefs_feed(s, any, 0);
        s = meshpigeon_sidedefs_feed(s, (i < 3 ? good : bad) + 1, 1);
        EXPECT(state_is(s, SECTORS, RECORD * (i + 1), i < 3 ? 0 : 3, 0, i >= 3));
        EXPECT(i < 3 ? accepted(meshpigeon_sidedefs_verdict(s)) : status_is(meshpigeon_sidedefs_verdict(s), 24, 3, 3));
    }
    s = meshpigeon_sidedefs_feed(s, any, sizeof any);
    s = meshpigeon_sidedefs_feed(s, last, 1);
    EXPECT(state_is(s, SECTORS, 179, 3, 0x4D, true));
    EXPECT(status_is(meshpigeon_sidedefs_verdict(meshpigeon_sidedefs_start(0)), 80, 0, 0));
    EXPECT(status_is(meshpigeon_sidedefs_verdict(meshpigeon_sidedefs_start(65536)), 80, 0, 0));
}

/* States that no start made: each field is given with a value of its own, and each counts. */
static void any_states(void)
{
    static const uint8_t two[] = {3, 4};
    const meshpigeon_sidedefs in_sector = {.sectors = 700, .bytes = 30 * 8 + 29, .bad = 11, .low = 5, .found = false};
    EXPECT(state_is(meshpigeon_sidedefs_feed(in_sector, two, 0), 700, 269, 11, 5, false));
    EXPECT(state_is(meshpigeon_sidedefs_feed(in_sector, two, 1), 700, 270, 8, 0, true));
    meshpigeon_sidedefs s = in_sector;
    s.sectors = 0x0306;
    EXPECT(state_is(meshpigeon_sidedefs_feed(s, two, 2), 0x0306, 271, 11, 0, false));
    s.sectors = 0x0305;
    EXPECT(state_is(meshpigeon_sidedefs_feed(s, two, 2), 0x0305, 271, 8, 0, true));
    s.found = true;
    EXPECT(state_is(meshpigeon_sidedefs_feed(s, two, 2), 0x0305, 271, 11, 0, true));
    s.bytes = 270;
    EXPECT(status_is(meshpigeon_sidedefs_verdict(s), 24, 3, 11));
    s.bytes = 30 * 65536;
    EXPECT(status_is(meshpigeon_sidedefs_verdict(s), 21, 3, 0));
    s.bytes = 16777216;
    EXPECT(status_is(meshpigeon_sidedefs_verdict(s), 20, 3, 0));
    EXPECT(state_is(meshpigeon_sidedefs_feed(s, two, 0), 0x0305, 16777216, 11, 5, true));
    EXPECT(state_is(meshpigeon_sidedefs_feed(s, two, 2), 0x0305, 16777217, 11, 0, true));
    s.bytes = (size_t)-1;
    EXPECT(status_is(meshpigeon_sidedefs_verdict(s), 81, 0, 0));
    EXPECT(state_is(meshpigeon_sidedefs_feed(s, two, 2), 0x0305, (size_t)-1, 11, 5, true));
}

/* ---- a pair of files ---- */

static const uint8_t empty[] = {'I', 'W', 'A', 'D', L(0), L(12)};
/* Two lumps of one name, of three bytes and of four. */
#define PLAYPAL 'P', 'L', 'A', 'Y', 'P', 'A', 'L', 0
static const uint8_t patch[] = {'P', 'W', 'A', 'D', L(2), L(19), 1, 2, 3, 4, 5, 6, 7,
                                L(12), L(3), PLAYPAL, L(15), L(4), PLAYPAL};
static const uint8_t palette_name[8] = {PLAYPAL};

static int lump_is(meshpigeon_pair_entry_answer f, uint32_t file, size_t offset, size_t size)
{
    return f.file == file && f.offset == offset && f.size == size;
}

static void pair_lumps(void)
{
    build_wad();
    meshpigeon_pair_entry_answer f = meshpigeon_pair_find(wad, wad_len, patch, sizeof patch, palette_name, 8);
    EXPECT(accepted(f.status) && lump_is(f, MESHPIGEON_PATCH, 15, 4));
    f = meshpigeon_pair_find(wad, wad_len, empty, sizeof empty, palette_name, 8);
    EXPECT(accepted(f.status) && lump_is(f, MESHPIGEON_BASE, 12, 5));
    f = meshpigeon_pair_find(wad, wad_len, patch, sizeof patch, (const uint8_t *)"DEMO2\0zz", 8);
    EXPECT(accepted(f.status) && lump_is(f, MESHPIGEON_BASE, 0, 0));
    f = meshpigeon_pair_find(empty, sizeof empty, wad, wad_len, (const uint8_t *)"DEMO2\0\0", 8);
    EXPECT(accepted(f.status) && lump_is(f, MESHPIGEON_PATCH, 0, 0));
    f = meshpigeon_pair_find(wad, wad_len, patch, sizeof patch, palette_name, 7);
    EXPECT(status_is(f.status, 11, 0, 0) && lump_is(f, MESHPIGEON_NO_FILE, 0, 0));
    f = meshpigeon_pair_find(wad, wad_len, patch, sizeof patch, (const uint8_t *)"\0LAYPAL", 8);
    EXPECT(status_is(f.status, 11, 0, 0) && lump_is(f, MESHPIGEON_NO_FILE, 0, 0));
}

/* Entry 3 of the one file has a bad name, the other file is too short or good. */
static void pair_files(void)
{
    uint16_t word = 9;
    build_wad();
    wad[wad_start + 16 * 3 + 8] = 'm';
    meshpigeon_pair_entry_answer f = meshpigeon_pair_find(empty, 11, wad, wad_len, palette_name, 8);
    EXPECT(status_is(f.status, 6, 0, 3) && lump_is(f, MESHPIGEON_PATCH, 0, 0));
    f = meshpigeon_pair_find(wad, wad_len, empty, 11, palette_name, 8);
    EXPECT(status_is(f.status, 1, 0, 0) && lump_is(f, MESHPIGEON_PATCH, 0, 0));
    f = meshpigeon_pair_find(wad, wad_len, patch, sizeof patch, palette_name, 8);
    EXPECT(status_is(f.status, 6, 0, 3) && lump_is(f, MESHPIGEON_BASE, 0, 0));
    meshpigeon_pair_map_answer j = meshpigeon_pair_judge_map(wad, wad_len, patch, sizeof patch, palette_name, 8, &word, 1);
    EXPECT(status_is(j.status, 6, 0, 3) && j.file == MESHPIGEON_BASE && j.depth == 0 && j.marker == 0 && word == 9);
}

static void pair_maps(void)
{
    uint16_t words[4 * NODES + 1];
    memset(words, 0xA5, sizeof words);
    build_wad();
    meshpigeon_pair_map_answer j = meshpigeon_pair_judge_map(wad, wad_len, patch, sizeof patch, palette_name, 8, words, 4 * NODES);
    EXPECT(status_is(j.status, 10, 0, 0) && j.file == MESHPIGEON_NO_FILE && j.depth == 0 && j.marker == 0);
    j = meshpigeon_pair_judge_map(empty, sizeof empty, patch, sizeof patch, map_name, 8, words, 4 * NODES);
    EXPECT(status_is(j.status, 11, 0, 0) && j.file == MESHPIGEON_NO_FILE && j.depth == 0 && j.marker == 0);
    j = meshpigeon_pair_judge_map(wad, wad_len, patch, sizeof patch, map_name, 8, words, 4 * NODES - 1);
    EXPECT(status_is(j.status, 30, 7, 0) && j.file == MESHPIGEON_BASE && j.depth == 0 && j.marker == 0);
    for (size_t i = 0; i <= 4 * NODES; i++)
        EXPECT(words[i] == 0xA5A5);
    j = meshpigeon_pair_judge_map(wad, wad_len, patch, sizeof patch, map_name, 8, words, 4 * NODES + 1);
    EXPECT(accepted(j.status) && j.file == MESHPIGEON_BASE && j.depth == DEPTH && j.marker == BEFORE);
    for (size_t i = 0; i < 4 * NODES; i++)
        EXPECT(words[i] == 0);
    EXPECT(words[4 * NODES] == 0xA5A5);
    /* Seg 1 starts at a vertex that is not there. */
    wad[lump_offset(BEFORE + 5) + 12] = 9;
    j = meshpigeon_pair_judge_map(patch, sizeof patch, wad, wad_len, map_name, 8, words, 4 * NODES);
    EXPECT(status_is(j.status, 25, 5, 1) && j.file == MESHPIGEON_PATCH && j.depth == 0 && j.marker == 0);
}

/* ---- two maps compared ---- */

/* The file as it is built first; `wad` is the new one. */
static uint8_t old_wad[sizeof wad];
static size_t old_wad_len;

static void keep_as_old(void)
{
    memcpy(old_wad, wad, wad_len);
    old_wad_len = wad_len;
}

/* The lump at a place moves behind all the rest, with more records of one kind. */
static void grow(size_t place, const uint8_t *record, size_t size, size_t times)
{
    const size_t old_size = lumps[BEFORE + place].size, offset = wad_len;
    put(lumps[BEFORE + place].bytes, old_size);
    for (size_t i = 0; i < times; i++)
        put(record, size);
    give_part(BEFORE + place, offset, old_size + size * times);
}

/* A new map with a count of its own of each lump's differing records: three things more; linedef 1 changed, and three more; five sidedefs
 * more; both vertices changed; six segs and seven subsectors more; the root changed; eight sectors more. */
enum { LISTED = 36 };
static const size_t listed_counts[8] = {3, 4, 5, 2, 6, 7, 1, 8};
static const uint16_t listed[LISTED] = {0, 1, 2, 1, 2, 3, 4, 1, 2, 3,  4, 5, 0, 1, 2, 3, 4, 5,
                                        6, 7, 4, 5, 6, 7, 8, 9, 10, 1, 1, 2, 3, 4, 5, 6, 7, 8};

static void build_new(void)
{
    static const uint8_t nothing[30] = {0}, subsector[] = {W(1), W(0)};
    build_wad();
    wad[lump_offset(BEFORE + 4)] = 9;
    wad[lump_offset(BEFORE + 4) + 7] = 9;
    wad[lump_offset(BEFORE + 7) + 28] = 9;
    grow(1, nothing, 10, 3);
    grow(2, nothing, 14, 3);
    wad[wad_len - 3 * 14 - 6] = 9;
    grow(3, nothing, 30, 5);
    grow(5, nothing, 12, 6);
    grow(6, subsector, sizeof subsector, 7);
    grow(8, nothing, 26, 8);
    grow(9, nothing, 1, (9 * 9 + 7) / 8 - 1);
}

/* What the library is lent: a word more than the list has, and one more than the nodes need. */
static uint16_t differing[LISTED + 1];

static meshpigeon_differences_answer differences(const uint8_t *old_name, const uint8_t *new_name, size_t words_len, size_t list_len)
{
    memset(differing, 0xA5, sizeof differing);
    memset(lent, 0xA5, sizeof lent);
    return meshpigeon_differences(old_wad, old_wad_len, old_name, 8, wad, wad_len, new_name, 8, lent, words_len, differing, list_len);
}

static int is_difference_refused(meshpigeon_differences_answer d, uint32_t number, size_t place, size_t record, uint32_t file)
{
    return status_is(d.status, number, place, record) && d.file == file && all_are(d.counts, sizeof d.counts, 0) &&
           all_are(differing, sizeof differing, 0xA5);
}

static void compared_maps(void)
{
    build_wad();
    keep_as_old();
    meshpigeon_differences_answer d = differences(map_name, map_name, 4 * NODES + 1, 0);
    EXPECT(accepted(d.status) && d.file == MESHPIGEON_NO_FILE && all_are(d.counts, sizeof d.counts, 0));
    EXPECT(all_are(differing, sizeof differing, 0xA5) && words_cleared());
    build_new();
    for (size_t room = LISTED; room <= LISTED + 1; room++) {
        d = differences(map_name, map_name, 4 * NODES + 1, room);
        EXPECT(accepted(d.status) && d.file == MESHPIGEON_NO_FILE && memcmp(d.counts, listed_counts, sizeof d.counts) == 0);
        EXPECT(memcmp(differing, listed, sizeof listed) == 0 && differing[LISTED] == 0xA5A5 && words_cleared());
    }
    EXPECT(is_difference_refused(differences(map_name, map_name, 4 * NODES, LISTED - 1), 75, 0, 0, MESHPIGEON_NO_FILE) && words_cleared());
    EXPECT(is_difference_refused(differences(map_name, map_name, 4 * NODES, 0), 75, 0, 0, MESHPIGEON_NO_FILE) && words_cleared());
}

/* What the old map alone has is not listed: with both maps exchanged the changed records are left. */
static void dropped_records(void)
{
    static const size_t counts[8] = {0, 1, 0, 2, 0, 0, 1, 0};
    static const uint16_t changed[4] = {1, 0, 1, 1};
    build_new();
    keep_as_old();
    build_wad();
    meshpigeon_differences_answer d = differences(map_name, map_name, 4 * NODES, 4);
    EXPECT(accepted(d.status) && d.file == MESHPIGEON_NO_FILE && memcmp(d.counts, counts, sizeof counts) == 0);
    EXPECT(memcmp(differing, changed, sizeof changed) == 0 && all_are(differing + 4, sizeof differing - sizeof changed, 0xA5));
    EXPECT(is_difference_refused(differences(map_name, map_name, 4 * NODES, 3), 75, 0, 0, MESHPIGEON_NO_FILE) && words_cleared());
}

/* The new map becomes one of Hexen: two of its linedefs, and BEHAVIOR behind the last entry. */
static void build_hexen(void)
{
    static const uint8_t of_hexen[] = {W(0), W(1), W(0), 0, 0, 0, 0, 0, 0, W(0), NO_SIDEDEF,
                                       W(1), W(0), W(0), 0, 0, 0, 0, 0, 0, W(0), NO_SIDEDEF};
    static const uint8_t part[] = {L(0), L(0)};
    build_wad();
    put(part, sizeof part);
    put("BEHAVIOR", 8);
    wad[4] = ENTRIES + 1;
    give_part(BEFORE + 2, wad_len, sizeof of_hexen);
    put(of_hexen, sizeof of_hexen);
}

/* 76 comes before 75, and after either map's refusal. */
static void compared_games(void)
{
    build_wad();
    keep_as_old();
    build_hexen();
    for (size_t room = 0; room <= LISTED; room += LISTED)
        EXPECT(is_difference_refused(differences(map_name, map_name, 4 * NODES, room), 76, 0, 0, MESHPIGEON_NO_FILE) && words_cleared());
    wad[wad_len - 16] = 2;
    EXPECT(is_difference_refused(differences(map_name, map_name, 4 * NODES, 0), 23, 2, 1, MESHPIGEON_NEW) && words_cleared());
    build_hexen();
    keep_as_old();
    meshpigeon_differences_answer d = differences(map_name, map_name, 4 * NODES, 0);
    EXPECT(accepted(d.status) && all_are(d.counts, sizeof d.counts, 0));
    build_wad();
    EXPECT(is_difference_refused(differences(map_name, map_name, 4 * NODES, 0), 76, 0, 0, MESHPIGEON_NO_FILE) && words_cleared());
}

/* The old map's refusal comes before the new one's, and leaves the words as found where it is below 31; then those of the old map, which is
 * accepted, are zero. */
static void compared_refusals(void)
{
    build_wad();
    keep_as_old();
    wad[lump_offset(BEFORE + 5) + 6] = 2;
    EXPECT(is_difference_refused(differences(map_name, map_name, 4 * NODES, LISTED), 25, 5, 0, MESHPIGEON_NEW) && words_cleared());
    old_wad[lump_offset(BEFORE + 2) + 14] = 2;
    EXPECT(is_difference_refused(differences(map_name, map_name, 4 * NODES, LISTED), 23, 2, 1, MESHPIGEON_OLD) && words_as_found());
    build_wad();
    EXPECT(is_difference_refused(differences(map_name, map_name, 4 * NODES, LISTED), 23, 2, 1, MESHPIGEON_OLD) && words_as_found());
    give_children(1, 1, 0, 0x8003);
    keep_as_old();
    EXPECT(is_difference_refused(differences(map_name, map_name, 4 * NODES, LISTED), 31, 7, 0, MESHPIGEON_OLD) && words_cleared());
    build_wad();
    keep_as_old();
    give_children(0x8000, 0x8000, 0, 0x8003);
    EXPECT(is_difference_refused(differences(map_name, map_name, 4 * NODES, LISTED), 32, 7, 0, MESHPIGEON_NEW) && words_cleared());
    EXPECT(is_difference_refused(differences(map_name, map_name, 4 * NODES - 1, LISTED), 30, 7, 0, MESHPIGEON_OLD) && words_as_found());
    EXPECT(is_difference_refused(differences(map_name, palette_name, 4 * NODES, 0), 10, 0, 0, MESHPIGEON_NEW) && words_cleared());
}

/* Each map has its own name, and the words must be enough for each: the one map has no nodes, and one subsector. */
static void compared_names_and_words(void)
{
    static const uint8_t other_name[8] = "MAP02";
    build_wad();
    give_part(BEFORE + 6, lump_offset(BEFORE + 6), 4);
    give_part(BEFORE + 7, 0, 0);
    keep_as_old();
    build_wad();
    memcpy(wad + wad_start + 16 * BEFORE + 8, other_name, 8);
    EXPECT(is_difference_refused(differences(map_name, other_name, 4 * NODES - 1, LISTED), 30, 7, 0, MESHPIGEON_NEW) && words_as_found());
    EXPECT(is_difference_refused(differences(other_name, map_name, 4 * NODES, LISTED), 11, 0, 0, MESHPIGEON_OLD) && words_as_found());
    EXPECT(is_difference_refused(differences(map_name, map_name, 4 * NODES, LISTED), 11, 0, 0, MESHPIGEON_NEW) && words_as_found());
    meshpigeon_differences_answer d = differences(map_name, other_name, 4 * NODES, LISTED);
    EXPECT(accepted(d.status) && d.counts[5] == 3 && d.counts[6] == 2 && words_cleared());
    EXPECT(words_are(differing, 1, 2, 3, 0) && differing[4] == 1 && differing[5] == 0xA5A5);
}

/* ---- a name index ---- */

/* Five entries of no size; three have one name, two of them with rubbish after its zero. */
enum { INDEXED = 5, INDEX_SIZE = 11 + 10 * INDEXED };
#define NAMED(name) L(0), L(0), name
#define LONG_NAME 'A', 'B', 'C', 'D', 'E', 'F', 'G', 'H'
#define SKY 'S', 'K', 'Y', 0, 0, 0, 0, 0
#define SKY1 'S', 'K', 'Y', '1', 0, 0, 0, 0
#define SKY1_AND_RUBBISH 'S', 'K', 'Y', '1', 0, 'z', 'z', 'z'
#define SKY1_AND_AN_A 'S', 'K', 'Y', '1', 0, 0, 0, 'A'
static uint8_t named[] = {'P', 'W', 'A', 'D', L(INDEXED), L(12), NAMED(SKY1), NAMED(LONG_NAME), NAMED(SKY1_AND_RUBBISH), NAMED(SKY),
                          NAMED(SKY1_AND_AN_A)};
static const uint8_t right_index[INDEX_SIZE] = {'W', 'I', 'X', W(1), W(INDEXED), L(sizeof named), LONG_NAME, W(1), SKY, W(3), SKY1, W(0),
                                                SKY1, W(2), SKY1, W(4)};

/* What the library is lent: a record and a byte more than it needs. */
static meshpigeon_index_record index_records[INDEXED + 1];
static uint8_t index_bytes[INDEX_SIZE + 1];

static meshpigeon_length_answer index_build(size_t records_len, size_t out_len)
{
    memset(index_records, 0xA5, sizeof index_records);
    memset(index_bytes, 0xA5, sizeof index_bytes);
    return meshpigeon_index_build(named, sizeof named, index_records, records_len, index_bytes, out_len);
}

static int is_index_refused(meshpigeon_length_answer b, uint32_t number, size_t record)
{
    return status_is(b.status, number, 0, record) && b.length == 0 && all_are(index_records, sizeof index_records, 0xA5) &&
           all_are(index_bytes, sizeof index_bytes, 0xA5);
}

static void indexes(void)
{
    static const uint16_t sorted[INDEXED] = {1, 3, 0, 2, 4};
    for (size_t more = 0; more <= 1; more++) {
        meshpigeon_length_answer b = index_build(INDEXED + more, INDEX_SIZE + more);
        EXPECT(accepted(b.status) && b.length == INDEX_SIZE && memcmp(index_bytes, right_index, INDEX_SIZE) == 0);
        EXPECT(index_bytes[INDEX_SIZE] == 0xA5 && all_are(&index_records[INDEXED], sizeof index_records[INDEXED], 0xA5));
        for (size_t i = 0; i < INDEXED; i++)
            EXPECT(memcmp(index_records[i].name, right_index + 11 + 10 * i, 8) == 0 && index_records[i].number == sorted[i]);
    }
    EXPECT(is_index_refused(index_build(INDEXED - 1, INDEX_SIZE), 86, 0));
    EXPECT(is_index_refused(index_build(INDEXED, INDEX_SIZE - 1), 86, 0));
    EXPECT(is_index_refused(index_build(0, 0), 86, 0));
    named[12 + 16 * 3 + 8] = 's';
    EXPECT(is_index_refused(index_build(0, 0), 6, 3));
    EXPECT(status_is(meshpigeon_index_check(named, sizeof named, right_index, 0), 6, 0, 3));
    named[12 + 16 * 3 + 8] = 'S';
}

/* The right index with one byte changed, and room for a byte behind it. */
static uint8_t changed_index[INDEX_SIZE + 1];

static void change_index(size_t at, uint8_t byte)
{
    memcpy(changed_index, right_index, INDEX_SIZE);
    changed_index[at] = byte;
}

static int is_checked(size_t index_len, uint32_t number)
{
    return status_is(meshpigeon_index_check(named, sizeof named, changed_index, index_len), number, 0, 0);
}

static int is_found(size_t index_len, const char *name, size_t name_len, size_t entry, size_t compared)
{
    meshpigeon_index_answer f =
        meshpigeon_index_find(named, sizeof named, changed_index, index_len, (const uint8_t *)name, name_len);
    return accepted(f.status) && f.entry == entry && f.compared == compared;
}

static int is_lookup_refused(size_t index_len, const char *name, size_t name_len, uint32_t number, size_t compared)
{
    meshpigeon_index_answer f =
        meshpigeon_index_find(named, sizeof named, changed_index, index_len, (const uint8_t *)name, name_len);
    return status_is(f.status, number, 0, 0) && f.entry == 0 && f.compared == compared;
}

static void lookups(void)
{
    change_index(0, 'W');
    EXPECT(is_checked(INDEX_SIZE, 0));
    EXPECT(is_found(INDEX_SIZE, "SKY1\0\0\0", 8, 4, 2) && is_found(INDEX_SIZE, "SKY1\0yyy", 8, 4, 2));
    EXPECT(is_found(INDEX_SIZE, "ABCDEFGH", 8, 1, 3) && is_found(INDEX_SIZE, "SKY\0\0\0\0", 8, 3, 2));
    EXPECT(is_lookup_refused(INDEX_SIZE, "SKY0\0\0\0", 8, 11, 2) && is_lookup_refused(INDEX_SIZE, "AAA\0\0\0\0", 8, 11, 3));
    EXPECT(is_lookup_refused(INDEX_SIZE, "\0SKY1\0\0", 8, 11, 3));
    EXPECT(is_lookup_refused(INDEX_SIZE, "SKY1\0\0\0", 7, 11, 0) && is_lookup_refused(INDEX_SIZE, "ABCDEFGH", 9, 11, 0));
    named[12 + 16 * 2 + 8] = 's';
    meshpigeon_index_answer f = meshpigeon_index_find(named, sizeof named, changed_index, 0, (const uint8_t *)"SKY1\0\0\0", 8);
    EXPECT(status_is(f.status, 6, 0, 2) && f.entry == 0 && f.compared == 0);
    named[12 + 16 * 2 + 8] = 'S';
}

/* Both refuse the header alike: 82 for a short index, then for mark, count and length, and before the version's 83. */
static void bad_index_headers(void)
{
    static const size_t disagree[] = {0, 1, 2, 5, 6, 7, 8, 9, 10};
    change_index(3, 2);
    EXPECT(is_checked(INDEX_SIZE, 83) && is_lookup_refused(INDEX_SIZE, "SKY1\0\0\0", 8, 83, 0));
    EXPECT(is_checked(INDEX_SIZE - 1, 82) && is_lookup_refused(INDEX_SIZE - 1, "SKY1\0\0\0", 8, 82, 0));
    EXPECT(is_checked(0, 82) && is_lookup_refused(0, "SKY1", 4, 82, 0));
    change_index(4, 1);
    EXPECT(is_checked(INDEX_SIZE, 83) && is_lookup_refused(INDEX_SIZE, "SKY1", 4, 83, 0));
    for (size_t i = 0; i < sizeof disagree / sizeof *disagree; i++) {
        change_index(disagree[i], 77);
        changed_index[3] = 2;
        EXPECT(is_checked(INDEX_SIZE, 82) && is_lookup_refused(INDEX_SIZE, "SKY1\0\0\0", 8, 82, 0));
    }
}

/* Any other difference is 84 for the check. A lookup does not look for it, and believes no number that leads to another name. */
static void wrong_indexes(void)
{
    for (size_t at = 11; at < INDEX_SIZE; at++) {
        change_index(at, right_index[at] + 1);
        EXPECT(is_checked(INDEX_SIZE, 84));
    }
    change_index(INDEX_SIZE, 0);
    EXPECT(is_checked(INDEX_SIZE + 1, 84) && is_found(INDEX_SIZE + 1, "SKY1\0\0\0", 8, 4, 2));
    change_index(INDEX_SIZE - 2, 2);
    EXPECT(is_checked(INDEX_SIZE, 84) && is_found(INDEX_SIZE, "SKY1\0\0\0", 8, 2, 2));
    change_index(INDEX_SIZE - 2, 3);
    EXPECT(is_lookup_refused(INDEX_SIZE, "SKY1\0\0\0", 8, 11, 2));
    change_index(INDEX_SIZE - 2, INDEXED);
    EXPECT(is_lookup_refused(INDEX_SIZE, "SKY1\0\0\0", 8, 11, 2));
    /* The last name has rubbish after its zero, and is above the asked one by its bytes. */
    change_index(INDEX_SIZE - 3, 'A');
    EXPECT(is_checked(INDEX_SIZE, 84) && is_found(INDEX_SIZE, "SKY1\0\0\0", 8, 2, 3));
}

/* ---- pictures ---- */

/* Three columns of two rows: a pixel of colour 7 in the second row of the first column, and two columns of nothing. */
#define PICTURE(left, top)                                                                                                         \
    {                                                                                                                              \
        W(3), W(2), W(left), W(top), L(20), L(25), L(25), 1, 1, 0, 7, 0, 255                                                       \
    }

static int picture_is(meshpigeon_picture picture, size_t width, size_t height, int left, int top)
{
    return picture.width == width && picture.height == height && picture.left == left && picture.top == top;
}

static void pictures(void)
{
    const uint8_t leftward[] = PICTURE(-4, 5), upward[] = PICTURE(6, -7);
    meshpigeon_picture_answer p = meshpigeon_judge_picture(leftward, sizeof leftward);
    EXPECT(accepted(p.status) && picture_is(p.picture, 3, 2, -4, 5));
    p = meshpigeon_judge_picture(upward, sizeof upward);
    EXPECT(accepted(p.status) && picture_is(p.picture, 3, 2, 6, -7));
    p = meshpigeon_judge_picture(upward, sizeof upward - 1);
    EXPECT(status_is(p.status, 53, 0, 0) && picture_is(p.picture, 0, 0, 0, 0));
}

static void paintings(void)
{
    const uint8_t lump[] = PICTURE(-4, 5);
    uint8_t colour[7], cover[7];
    memset(colour, 9, sizeof colour);
    memset(cover, 8, sizeof cover);
    meshpigeon_picture_answer p = meshpigeon_paint_picture(lump, sizeof lump, colour, 5, cover, 7);
    EXPECT(status_is(p.status, 55, 0, 0) && picture_is(p.picture, 0, 0, 0, 0));
    p = meshpigeon_paint_picture(lump, sizeof lump, colour, 7, cover, 5);
    EXPECT(status_is(p.status, 55, 0, 0) && picture_is(p.picture, 0, 0, 0, 0));
    EXPECT(memcmp(colour, "\11\11\11\11\11\11\11", 7) == 0 && memcmp(cover, "\10\10\10\10\10\10\10", 7) == 0);
    p = meshpigeon_paint_picture(lump, sizeof lump, colour, 6, cover, 7);
    EXPECT(accepted(p.status) && picture_is(p.picture, 3, 2, -4, 5));
    EXPECT(memcmp(colour, "\0\0\0\7\0\0\11", 7) == 0 && memcmp(cover, "\0\0\0\1\0\0\10", 7) == 0);
}

/* Written from three columns of two rows, with a colour of its own for each pixel: a pixel in the second row, nothing, and both rows. */
static void writings(void)
{
    const meshpigeon_picture picture = {3, 2, -4, 5}, wide = {3, 201, -4, 5};
    const uint8_t colour[] = {10, 11, 12, 13, 14, 15}, cover[] = {0, 0, 1, 1, 0, 1, 2}, bad[] = {0, 0, 1, 1, 0, 2};
    const uint8_t lump[] = {W(3), W(2), W(-4), W(5), L(20), L(26), L(27), 1, 1, 0, 13, 0, 255, 255, 0, 2, 0, 12, 15, 0, 255};
    uint8_t out[sizeof lump + 1], untouched[sizeof out];
    memset(out, 9, sizeof out);
    memset(untouched, 9, sizeof untouched);
    meshpigeon_length_answer w = meshpigeon_write_picture(picture, colour, 5, cover, 6, out, sizeof out);
    EXPECT(status_is(w.status, 55, 0, 0) && w.length == 0);
    w = meshpigeon_write_picture(picture, colour, 6, cover, 5, out, sizeof out);
    EXPECT(status_is(w.status, 55, 0, 0) && w.length == 0);
    w = meshpigeon_write_picture(wide, untouched, 0, untouched, 0, out, sizeof out);
    EXPECT(status_is(w.status, 55, 0, 0) && w.length == 0);
    w = meshpigeon_write_picture((meshpigeon_picture){0, 2, -4, 5}, colour, 0, cover, 0, out, sizeof out);
    EXPECT(status_is(w.status, 56, 0, 0) && w.length == 0);
    w = meshpigeon_write_picture(picture, colour, 6, bad, 6, out, 0);
    EXPECT(status_is(w.status, 57, 0, 0) && w.length == 0);
    w = meshpigeon_write_picture(picture, colour, 6, cover, 7, out, sizeof lump - 1);
    EXPECT(status_is(w.status, 58, 0, 0) && w.length == 0);
    EXPECT(memcmp(out, untouched, sizeof out) == 0);
    w = meshpigeon_write_picture(picture, colour, 6, cover, 7, out, sizeof out);
    EXPECT(accepted(w.status) && w.length == sizeof lump);
    EXPECT(memcmp(out, lump, sizeof lump) == 0 && out[sizeof lump] == 9);
    w = meshpigeon_write_picture(picture, colour, 6, cover, 6, out, sizeof lump);
    EXPECT(accepted(w.status) && w.length == sizeof lump);
}

/* ---- records ----
 * The fields of each kind: form, name, and offset in the lump's record. It is the same in the struct, but for things and linedefs, whose
 * structs serve two games. */

SIZE(thing, 22);
AT(thing, hexen, 0);
AT(thing, id, 2);
AT(thing, x, 4);
AT(thing, y, 6);
AT(thing, height, 8);
AT(thing, angle, 10);
AT(thing, kind, 12);
AT(thing, flags, 14);
AT(thing, action, 16);
AT(thing, args, 17);

SIZE(linedef, 22);
AT(linedef, hexen, 0);
AT(linedef, start, 2);
AT(linedef, end, 4);
AT(linedef, flags, 6);
AT(linedef, special, 8);
AT(linedef, tag, 10);
AT(linedef, args, 12);
AT(linedef, right, 18);
AT(linedef, left, 20);

#define DOOM_THING_FIELDS(FIELD)                                                                                                   \
    FIELD(thing, SIGNED, x, 0)                                                                                                     \
    FIELD(thing, SIGNED, y, 2)                                                                                                     \
    FIELD(thing, UNSIGNED, angle, 4)                                                                                               \
    FIELD(thing, UNSIGNED, kind, 6)                                                                                                \
    FIELD(thing, UNSIGNED, flags, 8)

#define HEXEN_THING_FIELDS(FIELD)                                                                                                  \
    FIELD(thing, SIGNED, id, 0)                                                                                                    \
    FIELD(thing, SIGNED, x, 2)                                                                                                     \
    FIELD(thing, SIGNED, y, 4)                                                                                                     \
    FIELD(thing, SIGNED, height, 6)                                                                                                \
    FIELD(thing, UNSIGNED, angle, 8)                                                                                               \
    FIELD(thing, UNSIGNED, kind, 10)                                                                                               \
    FIELD(thing, UNSIGNED, flags, 12)                                                                                              \
    FIELD(thing, BYTE, action, 14)                                                                                                 \
    FIELD(thing, ARGS, args, 15)

#define DOOM_LINEDEF_FIELDS(FIELD)                                                                                                 \
    FIELD(linedef, UNSIGNED, start, 0)                                                                                             \
    FIELD(linedef, UNSIGNED, end, 2)                                                                                               \
    FIELD(linedef, UNSIGNED, flags, 4)                                                                                             \
    FIELD(linedef, UNSIGNED, special, 6)                                                                                           \
    FIELD(linedef, UNSIGNED, tag, 8)                                                                                               \
    FIELD(linedef, UNSIGNED, right, 10)                                                                                            \
    FIELD(linedef, UNSIGNED, left, 12)

#define HEXEN_LINEDEF_FIELDS(FIELD)                                                                                                \
    FIELD(linedef, UNSIGNED, start, 0)                                                                                             \
    FIELD(linedef, UNSIGNED, end, 2)                                                                                               \
    FIELD(linedef, UNSIGNED, flags, 4)                                                                                             \
    FIELD(linedef, BYTE, special, 6)                                                                                               \
    FIELD(linedef, ARGS, args, 7)                                                                                                  \
    FIELD(linedef, UNSIGNED, right, 12)                                                                                            \
    FIELD(linedef, UNSIGNED, left, 14)

#define SIDEDEF_FIELDS(FIELD)                                                                                                      \
    FIELD(sidedef, SIGNED, x_offset, 0)                                                                                            \
    FIELD(sidedef, SIGNED, y_offset, 2)                                                                                            \
    FIELD(sidedef, NAME, upper, 4)                                                                                                 \
    FIELD(sidedef, NAME, lower, 12)                                                                                                \
    FIELD(sidedef, NAME, middle, 20)                                                                                               \
    FIELD(sidedef, UNSIGNED, sector, 28)

#define VERTEX_FIELDS(FIELD)                                                                                                       \
    FIELD(vertex, SIGNED, x, 0)                                                                                                    \
    FIELD(vertex, SIGNED, y, 2)

#define SEG_FIELDS(FIELD)                                                                                                          \
    FIELD(seg, UNSIGNED, start, 0)                                                                                                 \
    FIELD(seg, UNSIGNED, end, 2)                                                                                                   \
    FIELD(seg, UNSIGNED, angle, 4)                                                                                                 \
    FIELD(seg, UNSIGNED, linedef, 6)                                                                                               \
    FIELD(seg, UNSIGNED, direction, 8)                                                                                             \
    FIELD(seg, SIGNED, offset, 10)

#define SUBSECTOR_FIELDS(FIELD)                                                                                                    \
    FIELD(subsector, UNSIGNED, number, 0)                                                                                          \
    FIELD(subsector, UNSIGNED, first, 2)

#define NODE_FIELDS(FIELD)                                                                                                         \
    FIELD(node, SIGNED, x, 0)                                                                                                      \
    FIELD(node, SIGNED, y, 2)                                                                                                      \
    FIELD(node, SIGNED, dx, 4)                                                                                                     \
    FIELD(node, SIGNED, dy, 6)                                                                                                     \
    FIELD(node, BOX, right_box, 8)                                                                                                 \
    FIELD(node, BOX, left_box, 16)                                                                                                 \
    FIELD(node, UNSIGNED, right, 24)                                                                                               \
    FIELD(node, UNSIGNED, left, 26)

#define SECTOR_FIELDS(FIELD)                                                                                                       \
    FIELD(sector, SIGNED, floor, 0)                                                                                                \
    FIELD(sector, SIGNED, ceiling, 2)                                                                                              \
    FIELD(sector, NAME, floor_flat, 4)                                                                                             \
    FIELD(sector, NAME, ceiling_flat, 12)                                                                                          \
    FIELD(sector, UNSIGNED, light, 20)                                                                                             \
    FIELD(sector, UNSIGNED, special, 22)                                                                                           \
    FIELD(sector, UNSIGNED, tag, 24)

static uint16_t word_at(const uint8_t *bytes, size_t offset)
{
    return (uint16_t)(bytes[offset] + 256 * bytes[offset + 1]);
}

static int16_t signed_at(const uint8_t *bytes, size_t offset)
{
    int number = word_at(bytes, offset);
    return (int16_t)(number < 32768 ? number : number - 65536);
}

/* Whether a read field is what the bytes of its record say. */
#define SEEN_UNSIGNED(field, bytes, offset) EXPECT((field) == word_at(bytes, offset));
#define SEEN_SIGNED(field, bytes, offset) EXPECT((field) == signed_at(bytes, offset));
#define SEEN_BYTE(field, bytes, offset) EXPECT((field) == (bytes)[offset]);
#define SEEN_ARGS(field, bytes, offset)                                                                                            \
    for (size_t i = 0; i < 5; i++)                                                                                                 \
        EXPECT((field)[i] == (bytes)[(offset) + i]);
#define SEEN_NAME(field, bytes, offset)                                                                                            \
    for (size_t i = 0; i < 8; i++)                                                                                                 \
        EXPECT((field)[i] == (bytes)[(offset) + i]);
#define SEEN_BOX(field, bytes, offset)                                                                                             \
    for (size_t i = 0; i < 4; i++)                                                                                                 \
        EXPECT((field)[i] == signed_at(bytes, (offset) + 2 * i));

/* Gives a field what the bytes of its record say. */
#define GIVE_UNSIGNED(field, bytes, offset) (field) = word_at(bytes, offset);
#define GIVE_SIGNED(field, bytes, offset) (field) = signed_at(bytes, offset);
#define GIVE_BYTE(field, bytes, offset) (field) = (bytes)[offset];
#define GIVE_ARGS(field, bytes, offset)                                                                                            \
    for (size_t i = 0; i < 5; i++)                                                                                                 \
        (field)[i] = (bytes)[(offset) + i];
#define GIVE_NAME(field, bytes, offset)                                                                                            \
    for (size_t i = 0; i < 8; i++)                                                                                                 \
        (field)[i] = (bytes)[(offset) + i];
#define GIVE_BOX(field, bytes, offset)                                                                                             \
    for (size_t i = 0; i < 4; i++)                                                                                                 \
        (field)[i] = signed_at(bytes, (offset) + 2 * i);

#define AT_ITS_OFFSET(kind, form, name, offset) AT(kind, name, offset);
#define SEEN(kind, form, name, offset) SEEN_##form(answer.kind.name, bytes, offset)
#define GIVE(kind, form, name, offset) GIVE_##form(given.name, bytes, offset)

/* The bytes 1, 2, 3, .., from which every field is positive, and 255, 254, 253, .., from which every signed field is negative. */
static void count_up(uint8_t *bytes, size_t size)
{
    for (size_t i = 0; i < size; i++)
        bytes[i] = (uint8_t)(1 + i);
}

static void count_down(uint8_t *bytes, size_t size)
{
    for (size_t i = 0; i < size; i++)
        bytes[i] = (uint8_t)(255 - i);
}

/* Record 1 of a lump of two is read, and written; records that are not there are tried, and must leave everything as it was. A trial has
 * the name of its kind, or its own where the kind has two; READ is the call, BEGIN the record before any field is given, END what is
 * expected of a read besides the fields, NOTHING what holds of a refused one. */
#define TRIAL(kind, trial, FIELDS, bytes_of_one, READ, BEGIN, END, NOTHING)                                                        \
    static void read_##trial(const uint8_t *bytes)                                                                                 \
    {                                                                                                                              \
        uint8_t lump[2 * (bytes_of_one)];                                                                                          \
        memset(lump, 0xA5, bytes_of_one);                                                                                          \
        memcpy(lump + (bytes_of_one), bytes, bytes_of_one);                                                                        \
        meshpigeon_##kind##_answer answer = READ(lump, sizeof lump, 1);                                                            \
        EXPECT(accepted(answer.status));                                                                                           \
        FIELDS(SEEN)                                                                                                               \
        EXPECT(END(answer.kind));                                                                                                  \
        answer = READ(lump, sizeof lump, 2);                                                                                       \
        EXPECT(status_is(answer.status, 60, 0, 0) && NOTHING(answer.kind));                                                        \
    }                                                                                                                              \
                                                                                                                                   \
    static void write_##trial(const uint8_t *bytes)                                                                                \
    {                                                                                                                              \
        uint8_t lump[2 * (bytes_of_one)];                                                                                          \
        memset(lump, 0xA5, sizeof lump);                                                                                           \
        meshpigeon_##kind given = BEGIN;                                                                                           \
        FIELDS(GIVE)                                                                                                               \
        EXPECT(status_is(meshpigeon_write_##kind(lump, sizeof lump, 2, given), 60, 0, 0));                                         \
        EXPECT(status_is(meshpigeon_write_##kind(lump, sizeof lump, (size_t)-1, given), 60, 0, 0));                                \
        EXPECT(all_are(lump, sizeof lump, 0xA5));                                                                                  \
        EXPECT(accepted(meshpigeon_write_##kind(lump, sizeof lump, 1, given)));                                                    \
        EXPECT(all_are(lump, bytes_of_one, 0xA5));                                                                                 \
        EXPECT(memcmp(lump + (bytes_of_one), bytes, bytes_of_one) == 0);                                                           \
    }                                                                                                                              \
                                                                                                                                   \
    static void try_##trial(void)                                                                                                  \
    {                                                                                                                              \
        uint8_t bytes[bytes_of_one];                                                                                               \
        count_up(bytes, sizeof bytes);                                                                                             \
        read_##trial(bytes);                                                                                                       \
        write_##trial(bytes);                                                                                                      \
        count_down(bytes, sizeof bytes);                                                                                           \
        read_##trial(bytes);                                                                                                       \
        write_##trial(bytes);                                                                                                      \
    }

/* A kind whose struct is laid out as its record. */
#define NO_FIELD {0}
#define NO_MORE(record) 1
#define NO_BYTES(record) all_are(&(record), sizeof(record), 0)
#define KIND(kind, FIELDS, bytes_of_one)                                                                                           \
    SIZE(kind, bytes_of_one);                                                                                                      \
    SIZE(kind##_answer, (24 + (bytes_of_one) + 7) / 8 * 8);                                                                        \
    AT(kind##_answer, status, 0);                                                                                                  \
    AT(kind##_answer, kind, 24);                                                                                                   \
    FIELDS(AT_ITS_OFFSET)                                                                                                          \
    TRIAL(kind, kind, FIELDS, bytes_of_one, meshpigeon_read_##kind, NO_FIELD, NO_MORE, NO_BYTES)

/* Things and linedefs: a read in the game's form says the game, and 0 for what it lacks. */
#define DOOM_THING(lump, len, index) meshpigeon_read_thing(lump, len, index, false)
#define HEXEN_THING(lump, len, index) meshpigeon_read_thing(lump, len, index, true)
#define DOOM_LINEDEF(lump, len, index) meshpigeon_read_linedef(lump, len, index, false)
#define HEXEN_LINEDEF(lump, len, index) meshpigeon_read_linedef(lump, len, index, true)
#define OF_DOOM {.hexen = false}
#define OF_HEXEN {.hexen = true}
#define IS_HEXEN(record) ((record).hexen)
#define DOOM_THING_END(t) (!(t).hexen && (t).id == 0 && (t).height == 0 && (t).action == 0 && all_are((t).args, 5, 0))
#define DOOM_LINEDEF_END(l) (!(l).hexen && all_are((l).args, 5, 0))
#define HEXEN_LINEDEF_END(l) ((l).hexen && (l).tag == 0)

static int no_thing(meshpigeon_thing t)
{
    return DOOM_THING_END(t) && t.x == 0 && t.y == 0 && t.angle == 0 && t.kind == 0 && t.flags == 0;
}

static int no_linedef(meshpigeon_linedef l)
{
    return DOOM_LINEDEF_END(l) && l.start == 0 && l.end == 0 && l.flags == 0 && l.special == 0 && l.tag == 0 && l.right == 0 && l.left == 0;
}

SIZE(thing_answer, 48);
AT(thing_answer, status, 0);
AT(thing_answer, thing, 24);
SIZE(linedef_answer, 48);
AT(linedef_answer, status, 0);
AT(linedef_answer, linedef, 24);
TRIAL(thing, doom_thing, DOOM_THING_FIELDS, 10, DOOM_THING, OF_DOOM, DOOM_THING_END, no_thing)
TRIAL(thing, hexen_thing, HEXEN_THING_FIELDS, 20, HEXEN_THING, OF_HEXEN, IS_HEXEN, no_thing)
TRIAL(linedef, doom_linedef, DOOM_LINEDEF_FIELDS, 14, DOOM_LINEDEF, OF_DOOM, DOOM_LINEDEF_END, no_linedef)
TRIAL(linedef, hexen_linedef, HEXEN_LINEDEF_FIELDS, 16, HEXEN_LINEDEF, OF_HEXEN, HEXEN_LINEDEF_END, no_linedef)

/* A record with one field that its game lacks: 61 where there is room for the record, 60 where there is none, and nothing written. */
#define LACKS(kind, ...)                                                                                                           \
    do {                                                                                                                           \
        const meshpigeon_##kind given = __VA_ARGS__;                                                                               \
        uint8_t lump[20];                                                                                                          \
        memset(lump, 0xA5, sizeof lump);                                                                                           \
        EXPECT(status_is(meshpigeon_write_##kind(lump, sizeof lump, 0, given), 61, 0, 0));                                         \
        EXPECT(status_is(meshpigeon_write_##kind(lump, sizeof lump, 2, given), 60, 0, 0));                                         \
        EXPECT(all_are(lump, sizeof lump, 0xA5));                                                                                  \
    } while (0)

static void try_what_a_game_lacks(void)
{
    LACKS(thing, {.id = -1});
    LACKS(thing, {.height = 1});
    LACKS(thing, {.action = 1});
    LACKS(thing, {.args = {1}});
    LACKS(thing, {.args = {0, 0, 0, 0, 1}});
    LACKS(linedef, {.args = {1}});
    LACKS(linedef, {.args = {0, 0, 0, 0, 1}});
    LACKS(linedef, {.hexen = true, .tag = 1});
    LACKS(linedef, {.hexen = true, .special = 256});
}

KIND(sidedef, SIDEDEF_FIELDS, 30)
KIND(vertex, VERTEX_FIELDS, 4)
KIND(seg, SEG_FIELDS, 12)
KIND(subsector, SUBSECTOR_FIELDS, 4)
KIND(node, NODE_FIELDS, 28)
KIND(sector, SECTOR_FIELDS, 26)

static void records(void)
{
    try_doom_thing();
    try_hexen_thing();
    try_doom_linedef();
    try_hexen_linedef();
    try_what_a_game_lacks();
    try_sidedef();
    try_vertex();
    try_seg();
    try_subsector();
    try_node();
    try_sector();
}

/* ---- text maps ----
 * Each field of each kind is seen with values of its own: numbers by its place among the fields, strings by their places in the text, and flags in
 * six rounds, true where the round's bit of that place is set. */

static char text[8192];
static size_t text_len;
static int round_of_flags;
static size_t string_starts[64], string_ends[64];

static void add(const char *words)
{
    memcpy(text + text_len, words, strlen(words));
    text_len += strlen(words);
}

static const uint8_t *bytes_of_text(void)
{
    return (const uint8_t *)text;
}

static int number_of(int field)
{
    return (field % 2 == 0 ? -1000 : 1000) * (field + 1) - round_of_flags;
}

static int flag_of(int field)
{
    return ((field + 1) >> round_of_flags) & 1;
}

static void put_INT(const char *name, int field)
{
    text_len += (size_t)sprintf(text + text_len, "%s = %d;\n", name, number_of(field));
}

static void put_REAL(const char *name, int field)
{
    text_len += (size_t)sprintf(text + text_len, "%s = %d.25;\n", name, number_of(field));
}

static void put_FLAG(const char *name, int field)
{
    text_len += (size_t)sprintf(text + text_len, "%s = %s;\n", name, flag_of(field) ? "True" : "falsE");
}

static void put_TEXT(const char *name, int field)
{
    text_len += (size_t)sprintf(text + text_len, "%s = \"", name);
    string_starts[field] = text_len;
    text_len += (size_t)sprintf(text + text_len, "string %d \\\"", field);
    string_ends[field] = text_len;
    add("\";\n");
}

static double real_of(int field)
{
    const int number = number_of(field);
    return number < 0 ? number - 0.25 : number + 0.25;
}

#define IS_INT(field) EXPECT(it.field == number_of(at))
#define IS_REAL(field) EXPECT(it.field == real_of(at))
#define IS_FLAG(field) EXPECT(it.field == flag_of(at))
#define IS_TEXT(field) EXPECT(it.field##_start == string_starts[at] && it.field##_end == string_ends[at])
#define ZERO_INT(field) EXPECT(it.field == 0)
#define ZERO_REAL(field) EXPECT(it.field == 0.0)
#define ZERO_FLAG(field) EXPECT(!it.field)
#define ZERO_TEXT(field) EXPECT(it.field##_start == 0 && it.field##_end == 0)

#define TEXT_AT(kind, field, bytes) _Static_assert(offsetof(struct meshpigeon_text_##kind, field) == (bytes), #kind "." #field)
#define OFFSET_INT(kind, field, bytes) TEXT_AT(kind, field, bytes);
#define OFFSET_REAL OFFSET_INT
#define OFFSET_FLAG OFFSET_INT
#define OFFSET_TEXT(kind, field, bytes)                                                                                            \
    TEXT_AT(kind, field##_start, bytes);                                                                                           \
    TEXT_AT(kind, field##_end, (bytes) + 8);

#define TEXT_OFFSET(kind, form, field, name, bytes) OFFSET_##form(kind, field, bytes)
#define TEXT_PUT(kind, form, field, name, bytes) put_##form(name, at++);
#define TEXT_IS(kind, form, field, name, bytes)                                                                                    \
    IS_##form(field);                                                                                                              \
    at++;
#define TEXT_ZERO(kind, form, field, name, bytes) ZERO_##form(field);

#define TEXT_VERTEX_FIELDS(F)                                                                                                      \
    F(vertex, REAL, x, "x", 0)                                                                                                     \
    F(vertex, REAL, y, "y", 8)

#define TEXT_LINEDEF_FIELDS(F)                                                                                                     \
    F(linedef, INT, id, "id", 0)                                                                                                   \
    F(linedef, INT, v1, "v1", 4)                                                                                                   \
    F(linedef, INT, v2, "v2", 8)                                                                                                   \
    F(linedef, FLAG, blocking, "blocking", 12)                                                                                     \
    F(linedef, FLAG, blockmonsters, "blockmonsters", 13)                                                                           \
    F(linedef, FLAG, twosided, "twosided", 14)                                                                                     \
    F(linedef, FLAG, dontpegtop, "dontpegtop", 15)                                                                                 \
    F(linedef, FLAG, dontpegbottom, "dontpegbottom", 16)                                                                           \
    F(linedef, FLAG, secret, "secret", 17)                                                                                         \
    F(linedef, FLAG, blocksound, "blocksound", 18)                                                                                 \
    F(linedef, FLAG, dontdraw, "dontdraw", 19)                                                                                     \
    F(linedef, FLAG, mapped, "mapped", 20)                                                                                         \
    F(linedef, FLAG, passuse, "passuse", 21)                                                                                       \
    F(linedef, FLAG, translucent, "translucent", 22)                                                                               \
    F(linedef, FLAG, jumpover, "jumpover", 23)                                                                                     \
    F(linedef, FLAG, blockfloaters, "blockfloaters", 24)                                                                           \
    F(linedef, FLAG, playercross, "playercross", 25)                                                                               \
    F(linedef, FLAG, playeruse, "playeruse", 26)                                                                                   \
    F(linedef, FLAG, monstercross, "monstercross", 27)                                                                             \
    F(linedef, FLAG, monsteruse, "monsteruse", 28)                                                                                 \
    F(linedef, FLAG, impact, "impact", 29)                                                                                         \
    F(linedef, FLAG, playerpush, "playerpush", 30)                                                                                 \
    F(linedef, FLAG, monsterpush, "monsterpush", 31)                                                                               \
    F(linedef, FLAG, missilecross, "missilecross", 32)                                                                             \
    F(linedef, FLAG, repeatspecial, "repeatspecial", 33)                                                                           \
    F(linedef, INT, special, "special", 36)                                                                                        \
    F(linedef, INT, arg0, "arg0", 40)                                                                                              \
    F(linedef, INT, arg1, "arg1", 44)                                                                                              \
    F(linedef, INT, arg2, "arg2", 48)                                                                                              \
    F(linedef, INT, arg3, "arg3", 52)                                                                                              \
    F(linedef, INT, arg4, "arg4", 56)                                                                                              \
    F(linedef, INT, sidefront, "sidefront", 60)                                                                                    \
    F(linedef, INT, sideback, "sideback", 64)                                                                                      \
    F(linedef, TEXT, comment, "comment", 72)

#define TEXT_SIDEDEF_FIELDS(F)                                                                                                     \
    F(sidedef, INT, offsetx, "offsetx", 0)                                                                                         \
    F(sidedef, INT, offsety, "offsety", 4)                                                                                         \
    F(sidedef, TEXT, texturetop, "texturetop", 8)                                                                                  \
    F(sidedef, TEXT, texturebottom, "texturebottom", 24)                                                                           \
    F(sidedef, TEXT, texturemiddle, "texturemiddle", 40)                                                                           \
    F(sidedef, INT, sector, "sector", 56)                                                                                          \
    F(sidedef, TEXT, comment, "comment", 64)

#define TEXT_SECTOR_FIELDS(F)                                                                                                      \
    F(sector, INT, heightfloor, "heightfloor", 0)                                                                                  \
    F(sector, INT, heightceiling, "heightceiling", 4)                                                                              \
    F(sector, TEXT, texturefloor, "texturefloor", 8)                                                                               \
    F(sector, TEXT, textureceiling, "textureceiling", 24)                                                                          \
    F(sector, INT, lightlevel, "lightlevel", 40)                                                                                   \
    F(sector, INT, special, "special", 44)                                                                                         \
    F(sector, INT, id, "id", 48)                                                                                                   \
    F(sector, TEXT, comment, "comment", 56)

#define TEXT_THING_FIELDS(F)                                                                                                       \
    F(thing, INT, id, "id", 0)                                                                                                     \
    F(thing, REAL, x, "x", 8)                                                                                                      \
    F(thing, REAL, y, "y", 16)                                                                                                     \
    F(thing, REAL, height, "height", 24)                                                                                           \
    F(thing, INT, angle, "angle", 32)                                                                                              \
    F(thing, INT, type, "type", 36)                                                                                                \
    F(thing, FLAG, skill1, "skill1", 40)                                                                                           \
    F(thing, FLAG, skill2, "skill2", 41)                                                                                           \
    F(thing, FLAG, skill3, "skill3", 42)                                                                                           \
    F(thing, FLAG, skill4, "skill4", 43)                                                                                           \
    F(thing, FLAG, skill5, "skill5", 44)                                                                                           \
    F(thing, FLAG, ambush, "ambush", 45)                                                                                           \
    F(thing, FLAG, single, "single", 46)                                                                                           \
    F(thing, FLAG, dm, "dm", 47)                                                                                                   \
    F(thing, FLAG, coop, "coop", 48)                                                                                               \
    F(thing, FLAG, friendly, "friend", 49)                                                                                         \
    F(thing, FLAG, dormant, "dormant", 50)                                                                                         \
    F(thing, FLAG, class1, "class1", 51)                                                                                           \
    F(thing, FLAG, class2, "class2", 52)                                                                                           \
    F(thing, FLAG, class3, "class3", 53)                                                                                           \
    F(thing, FLAG, standing, "standing", 54)                                                                                       \
    F(thing, FLAG, strifeally, "strifeally", 55)                                                                                   \
    F(thing, FLAG, translucent, "translucent", 56)                                                                                 \
    F(thing, FLAG, invisible, "invisible", 57)                                                                                     \
    F(thing, INT, special, "special", 60)                                                                                          \
    F(thing, INT, arg0, "arg0", 64)                                                                                                \
    F(thing, INT, arg1, "arg1", 68)                                                                                                \
    F(thing, INT, arg2, "arg2", 72)                                                                                                \
    F(thing, INT, arg3, "arg3", 76)                                                                                                \
    F(thing, INT, arg4, "arg4", 80)                                                                                                \
    F(thing, TEXT, comment, "comment", 88)

SIZE(text_answer, 80);
AT(text_answer, status, 0);
AT(text_answer, namespace_start, 24);
AT(text_answer, namespace_end, 32);
AT(text_answer, vertices, 40);
AT(text_answer, linedefs, 48);
AT(text_answer, sidedefs, 56);
AT(text_answer, sectors, 64);
AT(text_answer, things, 72);

SIZE(text_block_answer, 40);
AT(text_block_answer, status, 0);
AT(text_block_answer, kind, 24);
AT(text_block_answer, start, 32);

/* Everything of a kind: layout, a block with all fields by number and from every place before it, and nothing but the refusal otherwise. */
#define TEXT_KIND(kind, FIELDS, bytes, READ_AT)                                                                                    \
    _Static_assert(sizeof(struct meshpigeon_text_##kind) == (bytes), "size of text " #kind);                                       \
    SIZE(text_##kind##_answer, 24 + (bytes) + 8);                                                                                  \
    AT(text_##kind##_answer, status, 0);                                                                                           \
    AT(text_##kind##_answer, kind, 24);                                                                                            \
    AT(text_##kind##_answer, next, 24 + (bytes));                                                                                  \
    FIELDS(TEXT_OFFSET)                                                                                                            \
                                                                                                                                   \
    static void text_##kind##_is_refused(meshpigeon_text_##kind##_answer answer, uint32_t number, size_t record)                   \
    {                                                                                                                              \
        const struct meshpigeon_text_##kind it = answer.kind;                                                                      \
        EXPECT(status_is(answer.status, number, 0, record));                                                                       \
        EXPECT(answer.next == 0);                                                                                                  \
        FIELDS(TEXT_ZERO)                                                                                                          \
    }                                                                                                                              \
                                                                                                                                   \
    static void text_##kind##_is_whole(meshpigeon_text_##kind##_answer answer, size_t next)                                        \
    {                                                                                                                              \
        const struct meshpigeon_text_##kind it = answer.kind;                                                                      \
        int at = 0;                                                                                                                \
        EXPECT(status_is(answer.status, 0, 0, 0));                                                                                 \
        EXPECT(answer.next == next);                                                                                               \
        FIELDS(TEXT_IS)                                                                                                            \
    }                                                                                                                              \
                                                                                                                                   \
    static void try_text_##kind(void)                                                                                              \
    {                                                                                                                              \
        for (round_of_flags = 0; round_of_flags < 6; round_of_flags++) {                                                           \
            int at = 0;                                                                                                            \
            size_t start, next;                                                                                                    \
            text_len = 0;                                                                                                          \
            add("namespace = \"Doom\"; other { a = 1; } /* " #kind " { } */\n");                                                  \
            start = text_len;                                                                                                      \
            add(#kind "\n{\n");                                                                                                    \
            FIELDS(TEXT_PUT)                                                                                                       \
            add("}");                                                                                                              \
            next = text_len;                                                                                                       \
            add(" later = 0x1F;");                                                                                                 \
            text_##kind##_is_whole(meshpigeon_text_##kind(bytes_of_text(), text_len, 0), next);                                    \
            text_##kind##_is_whole(READ_AT(bytes_of_text(), text_len, 0), next);                                                   \
            text_##kind##_is_whole(READ_AT(bytes_of_text(), text_len, start), next);                                               \
            text_##kind##_is_whole(READ_AT(bytes_of_text(), next, start), next);                                                   \
            text_##kind##_is_refused(meshpigeon_text_##kind(bytes_of_text(), text_len, 1), 94, 0);                                 \
            text_##kind##_is_refused(READ_AT(bytes_of_text(), text_len, next), 94, 0);                                             \
            text_##kind##_is_refused(READ_AT(bytes_of_text(), text_len, SIZE_MAX), 94, 0);                                         \
            text_##kind##_is_refused(meshpigeon_text_##kind(bytes_of_text(), next - 1, 0), 90, next - 1);                          \
            text_##kind##_is_refused(READ_AT(bytes_of_text(), next - 1, start), 90, next - 1);                                     \
        }                                                                                                                          \
        text_len = 0;                                                                                                              \
        add(#kind " { }");                                                                                                         \
        text_##kind##_is_refused(meshpigeon_text_##kind(bytes_of_text(), text_len, 0), 92, text_len - 1);                          \
        text_##kind##_is_refused(READ_AT(bytes_of_text(), text_len, 0), 92, text_len - 1);                                         \
        EXPECT(text_len == strlen(#kind " { }"));                                                                                  \
    }

#define TEXT_LINEDEF_AT(text, text_len, place) meshpigeon_text_linedef_at(text, text_len, place, 0, 0)
TEXT_KIND(vertex, TEXT_VERTEX_FIELDS, 16, meshpigeon_text_vertex_at)
TEXT_KIND(linedef, TEXT_LINEDEF_FIELDS, 88, TEXT_LINEDEF_AT)
TEXT_KIND(sidedef, TEXT_SIDEDEF_FIELDS, 80, meshpigeon_text_sidedef_at)
TEXT_KIND(sector, TEXT_SECTOR_FIELDS, 72, meshpigeon_text_sector_at)
TEXT_KIND(thing, TEXT_THING_FIELDS, 104, meshpigeon_text_thing_at)

#define STRING(words) (const uint8_t *)(words), strlen(words)

/* A block with what it must have alone: everything else is the format's default. */
static void text_defaults(void)
{
    const struct meshpigeon_text_linedef linedef = meshpigeon_text_linedef(STRING("linedef{v1=7;v2=8;sidefront=9;}"), 0).linedef;
    const struct meshpigeon_text_sidedef sidedef = meshpigeon_text_sidedef(STRING("sidedef{sector=7;}"), 0).sidedef;
    const struct meshpigeon_text_sector sector =
        meshpigeon_text_sector(STRING("sector{texturefloor=\"a\";textureceiling=\"\";}"), 0).sector;
    const struct meshpigeon_text_thing thing = meshpigeon_text_thing(STRING("thing{x=-0;y=-0.0;type=3;}"), 0).thing;
    EXPECT(linedef.id == -1 && linedef.v1 == 7 && linedef.v2 == 8 && linedef.sidefront == 9 && linedef.sideback == -1);
    EXPECT(!linedef.blocking && linedef.special == 0 && linedef.arg4 == 0 && linedef.comment_start == 0 && linedef.comment_end == 0);
    EXPECT(sidedef.sector == 7 && sidedef.offsetx == 0 && sidedef.texturetop_start == 0 && sidedef.texturetop_end == 0);
    EXPECT(sector.lightlevel == 160 && sector.id == 0 && sector.texturefloor_start == 21 && sector.texturefloor_end == 22);
    EXPECT(sector.textureceiling_start == 40 && sector.textureceiling_end == 40);
    EXPECT(thing.type == 3 && thing.angle == 0 && thing.height == 0.0 && !thing.friendly);
    EXPECT(1 / thing.x > 0 && 1 / thing.y < 0);
}

/* A linedef's id by the namespace: of the whole text, and of the two places that are given. */
static void text_namespaces(void)
{
    const char *const doom = "linedef{v1=1;v2=2;sidefront=3;}namespace=\"Doom\";";
    const char *const other = "namespace=\"Doom\";linedef{v1=1;v2=2;sidefront=3;}namespace=\"doom\";";
    const meshpigeon_text_answer whole = meshpigeon_text_map(STRING(doom));
    EXPECT(meshpigeon_text_linedef(STRING(doom), 0).linedef.id == 0);
    EXPECT(meshpigeon_text_linedef(STRING(other), 0).linedef.id == -1);
    EXPECT(whole.namespace_start == 42 && whole.namespace_end == 46);
    EXPECT(meshpigeon_text_linedef_at(STRING(doom), 0, 42, 46).linedef.id == 0);
    EXPECT(meshpigeon_text_linedef_at(STRING(doom), 0, 42, 45).linedef.id == -1);
    EXPECT(meshpigeon_text_linedef_at(STRING(doom), 0, 46, 42).linedef.id == -1);
    EXPECT(meshpigeon_text_linedef_at(STRING(doom), 0, SIZE_MAX, SIZE_MAX).linedef.id == -1);
    EXPECT(meshpigeon_text_linedef_at(STRING(doom), 0, 0, SIZE_MAX).linedef.id == -1);
    EXPECT(meshpigeon_text_linedef_at((const uint8_t *)doom, 46, 0, 42, SIZE_MAX).status.number == 0);
    EXPECT(meshpigeon_text_linedef_at((const uint8_t *)doom, 46, 0, 42, SIZE_MAX).linedef.id == 0);
}

static int is_summary(meshpigeon_text_answer a, size_t start, size_t end, size_t v, size_t l, size_t d, size_t s, size_t t)
{
    return status_is(a.status, 0, 0, 0) && a.namespace_start == start && a.namespace_end == end && a.vertices == v && a.linedefs == l &&
           a.sidedefs == d && a.sectors == s && a.things == t;
}

static int text_refused(const char *words, uint32_t number, size_t record)
{
    const meshpigeon_text_answer a = meshpigeon_text_map(STRING(words));
    return status_is(a.status, number, 0, record) && a.namespace_start == 0 && a.namespace_end == 0 && a.vertices == 0 && a.linedefs == 0 &&
           a.sidedefs == 0 && a.sectors == 0 && a.things == 0;
}

static int is_block(meshpigeon_text_block_answer a, uint32_t kind, size_t start)
{
    return status_is(a.status, 0, 0, 0) && a.kind == kind && a.start == start;
}

static int no_block(meshpigeon_text_block_answer a, uint32_t number, size_t record)
{
    return status_is(a.status, number, 0, record) && a.kind == 0 && a.start == 0;
}

/* The place behind a block, by the function of its kind. */
static size_t behind(const char *words, meshpigeon_text_block_answer a)
{
    switch (a.kind) {
    case MESHPIGEON_TEXT_VERTEX:
        return meshpigeon_text_vertex_at(STRING(words), a.start).next;
    case MESHPIGEON_TEXT_LINEDEF:
        return meshpigeon_text_linedef_at(STRING(words), a.start, 0, 0).next;
    case MESHPIGEON_TEXT_SIDEDEF:
        return meshpigeon_text_sidedef_at(STRING(words), a.start).next;
    case MESHPIGEON_TEXT_SECTOR:
        return meshpigeon_text_sector_at(STRING(words), a.start).next;
    case MESHPIGEON_TEXT_THING:
        return meshpigeon_text_thing_at(STRING(words), a.start).next;
    default:
        return 0;
    }
}

#define VERTEX_TEXT "vertex{x=1;y=2;}"
#define LINEDEF_TEXT "linedef{v1=1;v2=2;sidefront=3;}"
#define SIDEDEF_TEXT "sidedef{sector=0;}"
#define SECTOR_TEXT "sector{texturefloor=\"a\";textureceiling=\"b\";}"
#define THING_TEXT "thing{x=1;y=2;type=3;}"

static void text_summaries(void)
{
    EXPECT(is_summary(meshpigeon_text_map(STRING("")), 0, 0, 0, 0, 0, 0, 0));
    EXPECT(is_summary(meshpigeon_text_map(STRING("NameSpace = \"a\\\"b\"; " THING_TEXT VERTEX_TEXT THING_TEXT SECTOR_TEXT SIDEDEF_TEXT
                                                 LINEDEF_TEXT LINEDEF_TEXT LINEDEF_TEXT SIDEDEF_TEXT SIDEDEF_TEXT SIDEDEF_TEXT SECTOR_TEXT
                                                     SECTOR_TEXT SECTOR_TEXT SECTOR_TEXT)),
                      13, 17, 1, 3, 4, 5, 2));
    EXPECT(text_refused("a", 90, 1));
    EXPECT(text_refused("a = 01;", 90, 4));
    EXPECT(text_refused("a = 2147483648;", 91, 4));
    EXPECT(text_refused("a = 0.1234567;", 91, 4));
    EXPECT(text_refused("vertex{x=true;", 90, 9));
    EXPECT(text_refused("vertex{x=1;}", 92, 11));
    EXPECT(text_refused("/* ", 90, 3));
}

/* All blocks in one pass; and refusals of what stands before a block's opening brace, at any place. */
static void text_blocks(void)
{
    const char *const all = "a=1;" VERTEX_TEXT LINEDEF_TEXT SIDEDEF_TEXT SECTOR_TEXT THING_TEXT "b{}";
    const char *const kinds[] = {VERTEX_TEXT, LINEDEF_TEXT, SIDEDEF_TEXT, SECTOR_TEXT, THING_TEXT};
    size_t place = 0, start = 4;
    for (uint32_t kind = 1; kind <= 5; kind++) {
        const size_t next = start + strlen(kinds[kind - 1]);
        EXPECT(is_block(meshpigeon_text_block(STRING(all), place), kind, start));
        EXPECT(is_block(meshpigeon_text_block(STRING(all), start), kind, start));
        place = behind(all, meshpigeon_text_block(STRING(all), place));
        EXPECT(place == next);
        start = next;
    }
    EXPECT(no_block(meshpigeon_text_block(STRING(all), place), 94, 0));
    EXPECT(no_block(meshpigeon_text_block(STRING(all), strlen(all)), 94, 0));
    EXPECT(no_block(meshpigeon_text_block(STRING(all), strlen(all) + 1), 94, 0));
    EXPECT(no_block(meshpigeon_text_block(STRING(all), SIZE_MAX), 94, 0));
    EXPECT(no_block(meshpigeon_text_block(STRING(""), 0), 94, 0));
    EXPECT(no_block(meshpigeon_text_block(STRING(all), 1), 90, 1));
    EXPECT(no_block(meshpigeon_text_block(STRING(all), 11), 90, 19));
    EXPECT(no_block(meshpigeon_text_block(STRING("a=0x;" VERTEX_TEXT), 0), 90, 2));
    EXPECT(no_block(meshpigeon_text_block(STRING("a=0x80000000;" VERTEX_TEXT), 0), 91, 2));
    EXPECT(no_block(meshpigeon_text_block(STRING("a{x=0x80000000;}" VERTEX_TEXT), 0), 91, 4));
    EXPECT(no_block(meshpigeon_text_block(STRING("a{" VERTEX_TEXT "}"), 0), 90, 8));
    EXPECT(no_block(meshpigeon_text_block(STRING("vertex"), 0), 90, 6));
    EXPECT(no_block(meshpigeon_text_block(STRING("vertex/*{"), 0), 90, 9));
    EXPECT(no_block(meshpigeon_text_block(STRING("vertex=1;"), 0), 94, 0));
}

/* What stands behind the opening brace is read by the kind's own function alone. */
static void text_block_ends_at_its_brace(void)
{
    static const struct {
        const char *words;
        uint32_t number;
        size_t record;
    } faulty[] = {
        {"vertex{", 90, 7},
        {"vertex{(", 90, 7},
        {"vertex{\"", 90, 8},
        {"vertex{/*", 90, 9},
        {"vertex{x=true;}", 90, 9},
        {"vertex{x=2147483648;}", 91, 9},
        {"vertex{y=2;}", 92, 11},
        {"vertex{}a=01;", 92, 7},
        {"vertex{x=1;y=2;", 90, 15},
        {"vertex{x=1;y=2;(", 90, 15},
    };
    for (size_t at = 0; at < sizeof faulty / sizeof *faulty; at++) {
        const char *const words = faulty[at].words;
        EXPECT(is_block(meshpigeon_text_block(STRING(words), 0), MESHPIGEON_TEXT_VERTEX, 0));
        text_vertex_is_refused(meshpigeon_text_vertex_at(STRING(words), 0), faulty[at].number, faulty[at].record);
        EXPECT(text_refused(words, faulty[at].number, faulty[at].record));
    }
    EXPECT(is_block(meshpigeon_text_block(STRING("a=1;Thing/*{*/{'"), 0), MESHPIGEON_TEXT_THING, 4));
    text_thing_is_refused(meshpigeon_text_thing_at(STRING("a=1;Thing/*{*/{'"), 4), 90, 15);
    EXPECT(is_block(meshpigeon_text_block(STRING(VERTEX_TEXT "}"), 0), MESHPIGEON_TEXT_VERTEX, 0));
    EXPECT(no_block(meshpigeon_text_block(STRING(VERTEX_TEXT "}"), 16), 90, 16));
}

/* One block of a kind more than there may be: at its name, and from the second block on there is none too many; nor for who asks for one block. */
static void text_too_many(void)
{
    static uint8_t many[65536 * 16];
    meshpigeon_text_vertex_answer last;
    for (size_t at = 0; at < 65536; at++)
        memcpy(many + 16 * at, VERTEX_TEXT, 16);
    EXPECT(meshpigeon_text_map(many, 65535 * 16).vertices == 65535);
    EXPECT(status_is(meshpigeon_text_map(many, sizeof many).status, 93, 0, 65535 * 16));
    EXPECT(status_is(meshpigeon_text_thing(many, sizeof many, 0).status, 93, 0, 65535 * 16));
    EXPECT(status_is(meshpigeon_text_thing_at(many, sizeof many, 0).status, 93, 0, 65535 * 16));
    EXPECT(status_is(meshpigeon_text_thing_at(many, sizeof many, 16).status, 94, 0, 0));
    EXPECT(is_block(meshpigeon_text_block(many, sizeof many, 0), MESHPIGEON_TEXT_VERTEX, 0));
    EXPECT(is_block(meshpigeon_text_block(many, sizeof many, 65535 * 16), MESHPIGEON_TEXT_VERTEX, 65535 * 16));
    EXPECT(no_block(meshpigeon_text_block(many, sizeof many, sizeof many), 94, 0));
    last = meshpigeon_text_vertex(many, 65535 * 16, 65534);
    EXPECT(status_is(last.status, 0, 0, 0) && last.vertex.x == 1.0 && last.vertex.y == 2.0 && last.next == 65535 * 16);
    EXPECT(status_is(meshpigeon_text_vertex(many, 65535 * 16, 65535).status, 94, 0, 0));
}

static void text_maps(void)
{
    try_text_vertex();
    try_text_linedef();
    try_text_sidedef();
    try_text_sector();
    try_text_thing();
    text_defaults();
    text_namespaces();
    text_summaries();
    text_blocks();
    text_block_ends_at_its_brace();
    text_too_many();
}

int main(void)
{
    statuses();
    directories();
    entries();
    markers();
    games();
    maps();
    graphs();
    reasons();
    points();
    orders();
    orders_are_refused(1, 44);
    orders_are_refused(0, 46);
    renumberings();
    bad_orders();
    renumbered_maps();
    scraps();
    any_states();
    pair_lumps();
    pair_files();
    pair_maps();
    compared_maps();
    dropped_records();
    compared_games();
    compared_refusals();
    compared_names_and_words();
    indexes();
    lookups();
    bad_index_headers();
    wrong_indexes();
    pictures();
    paintings();
    writings();
    records();
    text_maps();
    if (failures != 0)
        return 1;
    puts("header: every function answers as it says");
    return 0;
}

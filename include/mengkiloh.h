/*
 * Mengkiloh: the map of survey marks and cells, for programs in C and C++.
 *
 * A mark is a numbered point. A cell (a bar, triangle, quad, tetrahedron, pyramid, wedge or brick) is a
 * numbered list of marks. Marks and cells are counted from 0 and apart from each other. A facet is a part
 * of a cell's boundary: of a bar an end, of a triangle or quad an edge, of a solid a face. A
 * half-facet is a facet as one cell has it, and has a number, 8 * cell + facet. Half-facets with the same
 * set of marks are siblings; each leads to the next by number and the last to the first, which makes a
 * cycle. One that is alone is a border, and its own sibling. The star of a mark is all cells of one
 * dimension that hold it; cells of a star that share a facet at the mark are joined, and what is joined is
 * a group, as a sheet of triangles around the mark. The anchor of a group is the half-facet to start from:
 * its smallest border at the mark or, where it has none, its smallest half-facet there.
 *
 *     uint32_t words[MK_ROOM(6, 4)], around[128], count;
 *     mk_format(words, MK_ROOM(6, 4), 6, 4);
 *     mk_insert(words, MK_ROOM(6, 4), 0, MK_TRI_3, (const uint32_t[]){0, 1, 2}, 3);
 *     mk_star(words, MK_ROOM(6, 4), 2, 1, around, 128, &count);  // count is 1, around[0] is 0
 *
 * Every function is proved to meet its promise; none allocates, and none keeps anything between calls: all
 * of a mesh stands in the words that the caller lends, so that calls on different memory may run at once.
 *
 * Every call but mk_version and the two whole checks answers a refusal number: 0 if it is accepted, else
 * why it is refused (enum mk_refusal; mk_meaning says it in words). Values come through pointers, and only
 * where the call is accepted: a refused call leaves everything that was lent as it was. The exceptions are
 * builds, mk_off_read, mk_edits, mk_licences and mk_plan_check.
 *
 * A list is a pointer and a count of 32-bit words, of positions one of 16-bit numbers, of points one
 * of 64-bit floats, of text one of bytes. A list's pointer and the pointer of a single number are aligned to the size of
 * what they point to and not null; that of an empty list may be anything. What a call writes must
 * not overlap anything else that is lent to the same call. Places that a call only reads (those
 * marked const) may overlap each other.
 *
 * Any memory may be lent as a mesh. On words that are no well-formed mesh a call is safe and
 * returns, and writes within the room alone; what it answers is promised only for
 *   - memory under 16 words, or whose head gives no capacities, ones whose room does not fit or an
 *     edition other than 1 and 2: refused with MK_NOT_MESH, save by formats and builds, which ask for
 *     no mesh;
 *   - memory that mk_whole says yes to, and so all that these calls leave, from a format or build on.
 */
#ifndef MENGKILOH_H
#define MENGKILOH_H

#include <stddef.h>
#include <stdint.h>

#ifdef __cplusplus
extern "C" {
#endif

/*
 * The version that this header is of, 5.1.0: major, minor and patch, a byte each; and the version of
 * the library that is linked.
 */
#define MK_VERSION 0x050100u
uint32_t mk_version(void);

/* Why a call is refused. Checks run in the order that each call lists. */
enum mk_refusal {
    MK_ACCEPTED = 0,
    MK_CAPACITY_ABOVE = 1,  /* a capacity, or the day of an entry, is above 65,535 */
    MK_MEMORY_SHORT = 2,    /* memory is shorter than the room, or a journal than its head */
    MK_CELL_OUTSIDE = 3,    /* a cell number is not below the capacity */
    MK_CELL_LIVE = 4,       /* insert: the number is live */
    MK_CELL_NOT_LIVE = 5,   /* the cell is not live */
    MK_TYPE_UNKNOWN = 6,    /* type code not in the table, dimension not 1 to 3, edition not 1 or 2, kind of
                               a listed edit not 1 or 2, or a solid without a measure */
    MK_COUNT_WRONG = 7,     /* wrong count of marks for the type or the lookup, or a build record or a
                               listed edit cut short */
    MK_MARK_OUTSIDE = 8,    /* a mark is not below the capacity */
    MK_MARK_TWICE = 9,      /* a mark occurs twice */
    MK_CELL_SAME = 10,      /* a live cell of that type has the same set of marks */
    MK_MARK_FULL = 11,      /* one of the marks stands in 128 live cells already */
    MK_OUTPUT_SHORT = 12,   /* output buffer shorter than the list */
    MK_FACET_OUTSIDE = 13,  /* local facet not below the type's count */
    MK_NOT_MESH = 14,       /* memory is not a mesh, or not a journal of it */
    MK_POSITIONS_SHORT = 16, /* position list shorter than three numbers per mark */
    MK_OFF_BROKEN = 17,     /* the text is not of OFF's plain form; place says where */
    MK_NOT_SURFACE = 18,    /* a live cell is neither triangle nor quad */
    MK_FACE_FULL = 19,      /* insert under edition 2: a third solid on a face */
    MK_DAY_BEFORE = 20,     /* entry: a day before the last */
    MK_DAY_FOLDED = 21,     /* query: a day before the last fold */
    MK_FOLD_NOT_ALLOWED = 22, /* fold: not allowed, or no edit was ever entered */
    MK_JOURNAL_FULL = 23,   /* entry: the journal is full */
    MK_PLAN_WRONG = 24      /* plan: an edit is wrong, or the end is not as wanted; place says where */
};

/* What a refusal number means, in words: "accepted" for 0, and "no such refusal" for a number that is none. */
static inline const char *mk_meaning(uint8_t refusal)
{
    switch (refusal) {
        case MK_ACCEPTED:
            return "accepted";
        case MK_CAPACITY_ABOVE:
            return "a capacity, or the day of an entry, is above 65,535";
        case MK_MEMORY_SHORT:
            return "memory is shorter than the room, or a journal than its head";
        case MK_CELL_OUTSIDE:
            return "the cell number is not below the capacity";
        case MK_CELL_LIVE:
            return "the cell number is live already";
        case MK_CELL_NOT_LIVE:
            return "the cell is not live";
        case MK_TYPE_UNKNOWN:
            return "no such type, a dimension that is not 1 to 3, an edition that is not 1 or 2, a "
                   "listed edit's kind that is not 1 or 2, or a solid without a measure";
        case MK_COUNT_WRONG:
            return "wrong count of marks, or a build record or a listed edit cut short";
        case MK_MARK_OUTSIDE:
            return "a mark is not below the capacity";
        case MK_MARK_TWICE:
            return "a mark occurs twice";
        case MK_CELL_SAME:
            return "a live cell of that type has the same marks";
        case MK_MARK_FULL:
            return "one of the marks stands in 128 live cells already";
        case MK_OUTPUT_SHORT:
            return "the output is shorter than the list";
        case MK_FACET_OUTSIDE:
            return "the cell has no such facet";
        case MK_NOT_MESH:
            return "the memory is not a mesh, or not a journal of it";
        case MK_POSITIONS_SHORT:
            return "the list of positions is shorter than three numbers for each mark";
        case MK_OFF_BROKEN:
            return "the text is not of OFF's plain form";
        case MK_NOT_SURFACE:
            return "a live cell is neither triangle nor quad";
        case MK_FACE_FULL:
            return "under edition 2, a third solid on a face";
        case MK_DAY_BEFORE:
            return "the day of an entry is before the last";
        case MK_DAY_FOLDED:
            return "the day that is asked for is before the last fold";
        case MK_FOLD_NOT_ALLOWED:
            return "the fold is not allowed, or no edit was ever entered";
        case MK_JOURNAL_FULL:
            return "the journal is full";
        case MK_PLAN_WRONG:
            return "an edit of the plan is wrong, or its end is not as wanted";
        default:
            return "no such refusal";
    }
}

/* The editions of the sheet rules. Under the second a face lies between two solids at most. */
enum mk_edition_number {
    MK_FIRST_EDITION = 1,
    MK_SECOND_EDITION = 2
};

/* The types: code, dimension, marks, facets, and the facets by their corner places. */
enum mk_code {
    MK_BAR_2 = 1,   /* 1, 2, 2: (0) (1) */
    MK_TRI_3 = 2,   /* 2, 3, 3: (0,1) (1,2) (2,0) */
    MK_QUAD_4 = 3,  /* 2, 4, 4: (0,1) (1,2) (2,3) (3,0) */
    MK_TETRA_4 = 4, /* 3, 4, 4: (0,2,1) (0,1,3) (1,2,3) (2,0,3) */
    MK_PYRA_5 = 5,  /* 3, 5, 5: (0,3,2,1) (0,1,4) (1,2,4) (2,3,4) (3,0,4) */
    MK_PENTA_6 = 6, /* 3, 6, 5: (0,1,4,3) (1,2,5,4) (2,0,3,5) (0,2,1) (3,4,5) */
    MK_HEXA_8 = 7   /* 3, 8, 6: (0,3,2,1) (0,1,5,4) (1,2,6,5) (2,3,7,6) (0,4,7,3) (4,5,6,7) */
};

/*
 * Which way a half-facet's sibling runs. Bar ends: same if their places in their bars are equal, else
 * opposite. Edges: same if their lists of marks are equal, opposite if reversed. Faces: same if one list
 * is a rotation of the other, opposite if it is a rotation of the other reversed, else neither.
 */
enum mk_way {
    MK_LONE = 0, /* no other half-facet has its set */
    MK_SAME = 1,
    MK_OPPOSITE = 2,
    MK_NEITHER = 3
};

/*
 * The words that a mesh of these capacities takes, each capacity 0 to 65,535. They may lie anywhere.
 * Edits of a large mesh are a tenth faster where word MK_ROOM(marks, 0), the first cell's, is at an
 * address that is a multiple of 64: each cell's record is then one cache line.
 */
#define MK_ROOM(marks, cells) ((size_t)16 + (size_t)8 * (size_t)(marks) + (size_t)32 * (size_t)(cells))

/* The number of a cell's local facet, and back: half-facet number = 8 * cell + local facet. */
#define MK_HALF(cell, facet) ((uint32_t)8 * (uint32_t)(cell) + (uint32_t)(facet))
#define MK_HALF_CELL(half) ((uint32_t)(half) / (uint32_t)8)
#define MK_HALF_FACET(half) ((uint32_t)(half) % (uint32_t)8)

/*
 * Format: a mesh of these capacities with no live cell, under edition 1. Refused with 1, 2. The first
 * MK_ROOM(marks, cells) words are written, whatever they held; the others stay as they were.
 */
uint8_t mk_format(uint32_t *mesh, size_t words, uint32_t marks, uint32_t cells);

/*
 * Format under an edition: as mk_format, with the edition kept in the mesh. Refused with 6, 1, 2.
 */
uint8_t mk_format_edition(uint32_t *mesh, size_t words, uint32_t marks, uint32_t cells, uint32_t edition);

/*
 * Build: format under edition 1, then the records inserted in order. A record is a cell number, a type
 * code, a licence, then that type's marks; count is the count of words of all records. Refused with 1, 2,
 * and at a record with 7 for a missing number, code or licence, then 3, 4, 6, 7, 8, 9, 10, 11. place is
 * written on a refusal only: the place of the refused record, from 0. Refusals 1 and 2 come with place 0
 * and leave the mesh as it was; a refused record leaves a formatted mesh with no live cell.
 */
uint8_t mk_build(uint32_t *mesh, size_t words, uint32_t marks, uint32_t cells, const uint32_t *records,
                 size_t count, uint32_t *place);

/*
 * Build under an edition: as mk_build, with the edition kept in the mesh. Refused with 6, 1, 2, which
 * come with place 0 and leave the mesh as it was, and at a record as mk_build or, under edition 2, with
 * 19, after 10 and before 11.
 */
uint8_t mk_build_edition(uint32_t *mesh, size_t words, uint32_t marks, uint32_t cells, uint32_t edition,
                         const uint32_t *records, size_t count, uint32_t *place);

/*
 * Edition: the edition that the mesh was formatted or built under. Refused with 14.
 */
uint8_t mk_edition(const uint32_t *mesh, size_t words, uint32_t *edition);

/*
 * Capacities: those that the mesh was formatted or built for. Refused with 14.
 */
uint8_t mk_capacities(const uint32_t *mesh, size_t words, uint32_t *marks, uint32_t *cells);

/*
 * Free: found is 1 and cell the smallest cell number that is not live, or found is 0 and cell stays as it
 * was, where every number below the capacity is live. Refused with 14.
 */
uint8_t mk_free(const uint32_t *mesh, size_t words, uint32_t *found, uint32_t *cell);

/*
 * Insert: a cell of the caller's number, of a type code, on count marks, without a licence: its licence
 * is 0. Refused with 14, 3, 4, 6, 7, 8, 9, 10, under edition 2 with 19, 11.
 */
uint8_t mk_insert(uint32_t *mesh, size_t words, uint32_t cell, uint32_t type, const uint32_t *marks,
                  size_t count);

/*
 * Insert with a licence, any 32-bit number: as mk_insert. No check looks at it, and any number of cells may
 * have the same.
 */
uint8_t mk_insert_licensed(uint32_t *mesh, size_t words, uint32_t cell, uint32_t type, uint32_t licence,
                           const uint32_t *marks, size_t count);

/* Remove: the cell of that number taken out. Refused with 14, 3, 5. */
uint8_t mk_remove(uint32_t *mesh, size_t words, uint32_t cell);

/* The kinds of a listed edit. */
enum mk_kind {
    MK_INSERT = 1, /* then a build record */
    MK_REMOVE = 2  /* then a cell number */
};

/*
 * Edits: a list of edits, made as if each were called in turn, up to the first that is refused; those
 * before it stay. count is the count of words of all edits. made is written on every return: how many
 * were made. tally is two words, of accepted and of refused edits: as many as were made are added to the
 * first and, where the list is stopped, one to the second; a count at 4294967295 stays there. No answer
 * depends on the tally. Refused with 14, for an empty list too, where made is 0; at an edit's turn with 6
 * for another kind, then 7 for a missing number, type or licence, then as mk_insert or mk_remove, where
 * missing marks are 7.
 */
uint8_t mk_edits(uint32_t *mesh, size_t words, const uint32_t *edits, size_t count, uint32_t *tally,
                 size_t *made);

/*
 * Plan check: whether a list of edits, as mk_edits takes it, takes this mesh to the wanted cells, which are
 * given as build records. 0 is yes: every edit in order would be accepted, and the live cells afterwards, with
 * type, marks in their order and licence, are the wanted ones, each once; so a cell that is wanted twice is
 * never right. edit_words and wanted_words are the counts of words of all edits and of all records. Refused
 * with 14, 2 for second below the mesh's room, then at a wanted record, the first that is wrong, with 7 for a
 * missing number, type or licence, 6 for an unknown type, 7 for missing marks; then with 24. place is written
 * with 24 only: the place, counted in edits from 0, of the first edit that is refused, of another kind or cut
 * short, or the number of edits where only the end differs. 0 and 24 leave in second the mesh after the edits
 * that were accepted, word for word, the others leave second as it was. The mesh is only read. Time grows with
 * the room, the lists and the stars of the edited marks, never with their product. This call and the next one
 * take 64 KiB of stack.
 */
uint8_t mk_plan_check(const uint32_t *mesh, size_t words, const uint32_t *edits, size_t edit_words,
                      const uint32_t *wanted, size_t wanted_words, uint32_t *second, size_t second_words,
                      size_t *place);

/*
 * Planner: a list of edits from this mesh to the wanted cells, which are given as build records: a removal of
 * every live cell that is not wanted as it stands, ascending, then an insert of every wanted cell that does
 * not stand so, in the list's order. The plan is written to the first words of out, of which there are room,
 * and their count to count. Whenever mk_build_edition accepts the wanted list under the mesh's capacities and
 * edition, mk_plan_check says yes to the plan. Refused with 14, 7 and 6 at a wanted record as by
 * mk_plan_check, 12. 2 * cells + wanted_words + wanted_words / 5 words hold any plan, cells the capacity.
 */
uint8_t mk_plan(const uint32_t *mesh, size_t words, const uint32_t *wanted, size_t wanted_words, uint32_t *out,
                size_t room, size_t *count);

/*
 * Type: the type code of a cell. Refused with 14, 3, 5.
 */
uint8_t mk_type(const uint32_t *mesh, size_t words, uint32_t cell, uint32_t *type);

/*
 * Licence: the licence of a cell, 0 if it was inserted without one. Refused with 14, 3, 5.
 */
uint8_t mk_licence(const uint32_t *mesh, size_t words, uint32_t cell, uint32_t *licence);

/*
 * Marks: the marks of a cell are mesh[*at] to mesh[*at + *count - 1], in the order given at insertion.
 * They lie inside the lent words whatever these hold. Refused with 14, 3, 5.
 */
uint8_t mk_marks(const uint32_t *mesh, size_t words, uint32_t cell, uint32_t *at, uint32_t *count);

/*
 * Sibling: the next half-facet with the same set of marks, and after the last the first; a border is
 * its own; and which way it runs (enum mk_way). Refused with 14, 3, 5, 13.
 */
uint8_t mk_sibling(const uint32_t *mesh, size_t words, uint32_t cell, uint32_t facet, uint32_t *half,
                   uint32_t *way);

/*
 * Lists. The list is written to the first places of out, and its length to count; the other places of
 * out stay as they were. Where out has less room than the list is long, the call is refused with 12,
 * after its other checks, and nothing is written. 128 places hold any cycle, star or anchors, 768 any
 * neighbours, and as many as the capacity of cells any list of mk_cells or mk_live.
 */

/*
 * Cycle: all half-facets with this one's set of marks, this one first, and in the same places of ways
 * which way the sibling of each, the next one, runs (enum mk_way). Refused with 14, 3, 5, 13, 12; 12 where
 * out or ways has less room.
 */
uint8_t mk_cycle(const uint32_t *mesh, size_t words, uint32_t cell, uint32_t facet, uint32_t *out, size_t room,
                 uint32_t *ways, size_t ways_room, uint32_t *count);

/*
 * Border: 1 if the half-facet is alone in its set, else 0. Refused with 14, 3, 5, 13.
 */
uint8_t mk_border(const uint32_t *mesh, size_t words, uint32_t cell, uint32_t facet, uint32_t *yes);

/*
 * Star: the live cells of the dimension that hold the mark, ascending, each once. Refused with 14, 6,
 * 8, 12.
 */
uint8_t mk_star(const uint32_t *mesh, size_t words, uint32_t dimension, uint32_t mark, uint32_t *out,
                size_t room, uint32_t *count);

/*
 * Anchors: one half-facet for each group of the star, ascending: the smallest border that holds the
 * mark, and where the group has none, the smallest half-facet that does. Refused with 14, 6, 8, 12.
 */
uint8_t mk_anchors(const uint32_t *mesh, size_t words, uint32_t dimension, uint32_t mark, uint32_t *out,
                   size_t room, uint32_t *count);

/*
 * First anchor: found is 1 and half the first of the anchors, or found is 0 and half stays as it was,
 * where there are none. Refused with 14, 6, 8.
 */
uint8_t mk_first_anchor(const uint32_t *mesh, size_t words, uint32_t dimension, uint32_t mark, uint32_t *found,
                        uint32_t *half);

/*
 * Neighbours: the other live cells that share a facet with the cell, ascending, each once. Refused with
 * 14, 3, 5, 12.
 */
uint8_t mk_neighbours(const uint32_t *mesh, size_t words, uint32_t cell, uint32_t *out, size_t room,
                      uint32_t *count);

/*
 * Lookup: found is 1 and half the smallest half-facet with this set of 1 to 4 marks, whatever their
 * order, or found is 0 and half stays as it was, where there is none. Refused with 14, 7, 8, 9.
 */
uint8_t mk_lookup(const uint32_t *mesh, size_t words, const uint32_t *set, size_t n, uint32_t *found,
                  uint32_t *half);

/*
 * Cells: the live cells of a type code, ascending. Refused with 14, 6, 12.
 */
uint8_t mk_cells(const uint32_t *mesh, size_t words, uint32_t type, uint32_t *out, size_t room,
                 uint32_t *count);

/*
 * Live: all live cells, ascending. Refused with 14, 12.
 */
uint8_t mk_live(const uint32_t *mesh, size_t words, uint32_t *out, size_t room, uint32_t *count);

/*
 * Count: how many live cells of a type code there are. Refused with 14, 6. It is read from memory, and on
 * words that are no well-formed mesh may be any number: room for mk_cells is sized by the capacity.
 */
uint8_t mk_count(const uint32_t *mesh, size_t words, uint32_t type, uint32_t *count);

/*
 * Positions are lent beside the mesh: three whole metres a mark, x, y and z, each a signed 16-bit number,
 * for every mark of the capacity. The three calls below only read the mesh and the positions.
 *
 * Points: the corners of a cell in their order, three floats each, x, y and z; corners is the count of
 * points. room is the count of floats that out has. Refused with 14, 3, 5, 16, 12.
 */
uint8_t mk_points(const uint32_t *mesh, size_t words, const int16_t *positions, size_t numbers,
                  uint32_t cell, double *out, size_t room, uint32_t *corners);

/*
 * Centre: each coordinate's sum over the corners, held exactly, then divided once by their count. Refused
 * with 14, 3, 5, 16.
 */
uint8_t mk_centre(const uint32_t *mesh, size_t words, const int16_t *positions, size_t numbers,
                  uint32_t cell, double *x, double *y, double *z);

/* The kinds of measures. */
enum mk_measure_kind {
    MK_SQUARED_LENGTH = 1, /* of a bar */
    MK_DOUBLED_AREA = 2,   /* signed, in the plan (x and y): of a triangle edges 0 to 1 and 0 to 2
                              crossed, of a quad 0 to 2 and 1 to 3 */
    MK_SIXFOLD_VOLUME = 3  /* signed, of a tetrahedron: edge 0 to 1 dotted with the cross product of
                              those to 2 and to 3 */
};

/*
 * Measure: its kind, which follows the cell's type, and the float equal to the whole-number formula,
 * without rounding; zero is positive zero. Refused with 14, 3, 5, 6 for a pyramid, a wedge or a brick, 16.
 */
uint8_t mk_measure(const uint32_t *mesh, size_t words, const int16_t *positions, size_t numbers,
                   uint32_t cell, uint32_t *kind, double *measure);

/*
 * Surfaces in and out, as plain Geomview OFF text: the word OFF, three counts (marks, faces, and edges,
 * which are not used), three whole metres a mark, then 3 or 4 and that many marks a face, parted by spaces
 * or line ends (0a), which may also stand first or last. A number is 1 to 6 digits, a metre may have a minus
 * first and is -32,768 to 32,767. No tab, no 0d, no comment and no plus sign is of this form.
 *
 * Read: the first two counts become the capacities, under edition 1, the faces cells 0, 1, 2 in the order of
 * the text, and the metres the first numbers of positions, three a mark. Words beyond the room and numbers
 * beyond three a mark stay as they were. length is the count of bytes of the text. Refused with 17, 1, 2, 16,
 * and at a face as mk_insert. place is written on a refusal only: with 17 the byte place of the first word
 * that breaks the form, or the length of a text that ends early, with 1, 2 and 16 it is 0, and else the place
 * of the refused face, from 0. 17, 1, 2 and 16 change nothing else; a refused face leaves a formatted mesh
 * with no live cell, and the positions as they were.
 */
uint8_t mk_off_read(uint32_t *mesh, size_t words, int16_t *positions, size_t numbers, const uint8_t *text,
                    size_t length, size_t *place);

/*
 * Write: a line each for the word, the counts (edges 0), each mark of the capacity and each live face,
 * ascending by number, with single spaces; the last line is ended too. The text is written to the first bytes
 * of out, of which there are room, and its length to length; the other bytes stay as they were.
 * MK_OFF_ROOM(marks, faces) bytes hold any such text. Refused with 14, 16, 18 for a live cell that is neither
 * triangle nor quad, 12.
 */
uint8_t mk_off_write(const uint32_t *mesh, size_t words, const int16_t *positions, size_t numbers,
                     uint8_t *out, size_t room, size_t *length);

/* The bytes that the longest text of so many marks and faces takes: a head, 21 a mark and 26 a face. */
#define MK_OFF_ROOM(marks, faces) ((size_t)18 + (size_t)21 * (size_t)(marks) + (size_t)26 * (size_t)(faces))

/*
 * Whole check: 1 if the words are a well-formed mesh, else 0. It never refuses, also under 16 words.
 * Its time grows with the marks, the cells and the stars of the marks.
 */
uint8_t mk_whole(const uint32_t *mesh, size_t words);

/*
 * The map on any day. A journal beside the mesh keeps each accepted edit with its day, 0 to 65,535, and a
 * starting map keeps the mesh as it was before them. Mesh, journal, starting map and the second memory
 * that a day's map is written into are four memories of the caller's. From mk_journal_begin on the mesh
 * is edited by mk_journal_insert and mk_journal_remove alone.
 *
 * MK_NOT_MESH comes first in each call: for a mesh or a starting map that is none, for a journal that is
 * none, and for a journal of other capacities or another edition. It never comes for memory that these
 * calls alone have written since the journal began. What a call answers, and what it writes, is promised
 * for such memory, and by mk_journal_on, mk_licences and mk_journal_fold for all that mk_journal_whole says
 * yes to. On any other words a call is safe and returns, leaves what was lent as it was where it is refused
 * (mk_licences but for second's room), and writes within a mesh's room and within the journal's edits alone.
 */

/* The words that a journal of so many edits takes: a head of 16, then 16 an edit, as many as fit. */
#define MK_JOURNAL_WORDS(edits) ((size_t)16 + (size_t)16 * (size_t)(edits))

/*
 * Begin: a journal of this mesh with no edit, and the mesh copied into the starting map, which needs the
 * mesh's room. Refused with 14, 2 for a journal under 16 words or a starting map below the room. A journal of
 * 16 to 31 words holds no edit.
 */
uint8_t mk_journal_begin(const uint32_t *mesh, size_t words, uint32_t *journal, size_t journal_words,
                         uint32_t *start, size_t start_words);

/*
 * Insert on a day: as mk_insert_licensed, and the edit entered. Refused with 14, 1 for a day above 65,535,
 * 20 for a day before that of the last edit, then as mk_insert, 23 for a full journal.
 */
uint8_t mk_journal_insert(uint32_t *mesh, size_t words, uint32_t *journal, size_t journal_words, uint32_t day,
                          uint32_t cell, uint32_t type, uint32_t licence, const uint32_t *marks, size_t count);

/*
 * Remove on a day: as mk_remove, and the edit entered. Refused with 14, 1, 20, then as mk_remove, 23.
 */
uint8_t mk_journal_remove(uint32_t *mesh, size_t words, uint32_t *journal, size_t journal_words, uint32_t day,
                          uint32_t cell);

/*
 * On a day: the first words of second become the mesh that all edits of that day and earlier ones leave,
 * word for word; a day after the last reads as the last. Its time grows with the room and with the edits
 * from the last fold up to the day. Refused with 14, 21 for a day before the last fold, 2.
 */
uint8_t mk_journal_on(const uint32_t *journal, size_t journal_words, const uint32_t *start, size_t start_words,
                      uint32_t day, uint32_t *second, size_t second_words);

/*
 * The licences to ask for a complaint: for a mark and a day the licences of all cells then around the
 * mark, of every dimension, ascending, each once, 0 left out, in the first places of out, and how many in
 * count; 128 places hold every list. That day's mesh stands in second, as mk_journal_on leaves it. Refused
 * with 14, 21, 2, 8 for a mark that is not below the capacity, 12 for a list longer than the room. A
 * refusal leaves out and count as they were; 12 leaves that day's mesh in second, the others leave second
 * as it was.
 */
uint8_t mk_licences(const uint32_t *journal, size_t journal_words, const uint32_t *start, size_t start_words,
                    uint32_t day, uint32_t mark, uint32_t *second, size_t second_words, uint32_t *out, size_t room,
                    uint32_t *count);

/*
 * Fold: the edits up to that day are made in the starting map, and their room in the journal is free again.
 * The map on that day and on each later one stays as it was. Allowed if an edit was ever entered, the day is
 * not before that of the earlier fold, and the day + 366 is not after that of the last edit. Refused with 14, 22.
 */
uint8_t mk_journal_fold(uint32_t *journal, size_t journal_words, uint32_t *start, size_t start_words,
                        uint32_t day);

/*
 * Whole check of a journal and its starting map: 1 if they are what some map and some dated edits leave, each
 * word of the journal's use and the starting map by its own whole check, else 0. It never refuses. It makes
 * no edit: that each would be accepted at its turn it does not say.
 */
uint8_t mk_journal_whole(const uint32_t *journal, size_t journal_words, const uint32_t *start,
                         size_t start_words);

#ifdef __cplusplus
}
#endif

#endif

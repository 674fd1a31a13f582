/* A complaint, start to end, from C: a viaduct over a hillside, the cells around a mark, one removed, the cells again;
 * their measures; a morning's edits in one call; solids under the second edition; the same mark on earlier days; and the
 * licences to ask, of the day before a cell was removed and of the day after.
 *
 *     cc -Itarget/mengkiloh examples/complaint.c target/mengkiloh/libmengkiloh.a -o complaint
 */
#include "mengkiloh.h"

#include <inttypes.h>
#include <stdio.h>
#include <stdlib.h>

enum { MARKS = 9, CELLS = 8, LONGEST_LIST = 128 };

static uint32_t words[MK_ROOM(MARKS, CELLS)];

static void must(uint8_t refusal)
{
    if (refusal != 0) {
        fprintf(stderr, "refused with %d: %s\n", refusal, mk_meaning(refusal));
        exit(EXIT_FAILURE);
    }
}

static void insert(uint32_t cell, uint32_t type, uint32_t licence, const uint32_t *marks, size_t count)
{
    must(mk_insert_licensed(words, MK_ROOM(MARKS, CELLS), cell, type, licence, marks, count));
}

static void tell(const uint32_t *map, uint32_t mark)
{
    uint32_t list[LONGEST_LIST];
    uint32_t count = 0;
    for (uint32_t dimension = 1; dimension <= 3; dimension++) {
        must(mk_star(map, MK_ROOM(MARKS, CELLS), dimension, mark, list, LONGEST_LIST, &count));
        printf("mark %" PRIu32 ", dimension %" PRIu32 ": cells [", mark, dimension);
        for (uint32_t i = 0; i < count; i++) {
            printf("%s%" PRIu32, i == 0 ? "" : ", ", list[i]);
        }
        printf("], licences [");
        for (uint32_t i = 0; i < count; i++) {
            uint32_t licence = 0;
            must(mk_licence(map, MK_ROOM(MARKS, CELLS), list[i], &licence));
            printf("%s%" PRIu32, i == 0 ? "" : ", ", licence);
        }
        printf("]\n");
    }
    must(mk_anchors(map, MK_ROOM(MARKS, CELLS), 2, mark, list, LONGEST_LIST, &count));
    for (uint32_t i = 0; i < count; i++) {
        printf("a sheet begins at cell %" PRIu32 ", facet %" PRIu32 "\n", list[i] / 8, list[i] % 8);
    }
    /* round the edge of marks 1 and 2, and whether each two agree in direction */
    static const char *const runs[] = {"Lone", "Same", "Opposite", "Neither"};
    uint32_t ways[LONGEST_LIST];
    must(mk_cycle(map, MK_ROOM(MARKS, CELLS), 0, 1, list, LONGEST_LIST, ways, LONGEST_LIST, &count));
    for (uint32_t i = 0; i < count; i++) {
        printf("cell %" PRIu32 ", facet %" PRIu32 ": the next runs %s\n", list[i] / 8, list[i] % 8, runs[ways[i]]);
    }
}

/* three whole metres a mark */
static const int16_t positions[3 * MARKS] = {0,   0,  0, 40, 0,  2, 0,  30, 4, 40, 30, 5, -20, 30,
                                             6, -20, 60, 8,  0, 90, 9, 40, 90, 9,  0,  30, 50};

static void survey(uint32_t cell)
{
    uint32_t kind = 0;
    double measure = 0, x = 0, y = 0, z = 0;
    must(mk_measure(words, MK_ROOM(MARKS, CELLS), positions, 3 * MARKS, cell, &kind, &measure));
    must(mk_centre(words, MK_ROOM(MARKS, CELLS), positions, 3 * MARKS, cell, &x, &y, &z));
    printf("cell %" PRIu32 ": kind %" PRIu32 ", measure %.0f, centre %.2f %.2f %.2f\n", cell, kind, measure, x, y, z);
}

/* a morning's edits; the third is refused, and the fourth not made */
static void morning(void)
{
    static const uint32_t edits[] = {MK_REMOVE, 2, MK_INSERT, 6, MK_BAR_2, 0, 0, 8, MK_REMOVE, 2, MK_REMOVE, 0};
    uint32_t tally[] = {0, 0};
    size_t made = 0;
    uint8_t refusal = mk_edits(words, MK_ROOM(MARKS, CELLS), edits, sizeof edits / sizeof edits[0], tally, &made);
    if (refusal == 0) {
        printf("%zu edits made\n", made);
    } else {
        printf("%zu edits made, then %d\n", made, refusal);
    }
    printf("%" PRIu32 " accepted, %" PRIu32 " refused\n", tally[0], tally[1]);
}

/* under the second edition a face lies between two solids at most */
static void harbour(void)
{
    static uint32_t solids[MK_ROOM(6, 4)];
    const size_t room = MK_ROOM(6, 4);
    uint32_t edition = 0;
    must(mk_format_edition(solids, room, 6, 4, MK_SECOND_EDITION));
    must(mk_insert(solids, room, 0, MK_TETRA_4, (const uint32_t[]){0, 1, 2, 3}, 4));
    must(mk_insert(solids, room, 1, MK_TETRA_4, (const uint32_t[]){0, 2, 1, 4}, 4));
    must(mk_edition(solids, room, &edition));
    printf("edition %" PRIu32 ": ", edition);
    uint8_t refusal = mk_insert(solids, room, 2, MK_TETRA_4, (const uint32_t[]){0, 1, 2, 5}, 4);
    if (refusal == 0) {
        printf("three solids on a face\n");
    } else {
        printf("a third solid is refused with %d\n", refusal);
    }
}

/* from here on the map is edited through a journal: the same mark on earlier days */
static void days(void)
{
    static uint32_t journal[MK_JOURNAL_WORDS(1000)];
    static uint32_t start[MK_ROOM(MARKS, CELLS)];
    static uint32_t then[MK_ROOM(MARKS, CELLS)];
    static const uint32_t asked[] = {99, 129, 130};
    const size_t room = MK_ROOM(MARKS, CELLS), size = MK_JOURNAL_WORDS(1000);
    must(mk_journal_begin(words, room, journal, size, start, room));
    must(mk_journal_insert(words, room, journal, size, 100, 1, MK_TRI_3, 12, (const uint32_t[]){1, 3, 2}, 3));
    must(mk_journal_remove(words, room, journal, size, 130, 3));
    for (size_t i = 0; i < sizeof asked / sizeof asked[0]; i++) {
        must(mk_journal_on(journal, size, start, room, asked[i], then, room));
        printf("on day %" PRIu32 "\n", asked[i]);
        tell(then, 2);
    }
    uint8_t refusal = mk_journal_fold(journal, size, start, room, 100);
    if (refusal == 0) {
        printf("day 100 is folded\n");
    } else {
        printf("a fold is refused with %d\n", refusal);
    }
    /* whom to ask for a complaint at mark 2: the day before the deck was taken down, and the day after */
    uint32_t licences[LONGEST_LIST];
    uint32_t count = 0;
    for (uint32_t day = 129; day <= 131; day += 2) {
        must(mk_licences(journal, size, start, room, day, 2, then, room, licences, LONGEST_LIST, &count));
        printf("mark 2 on day %" PRIu32 ": ask the licences [", day);
        for (uint32_t i = 0; i < count; i++) {
            printf("%s%" PRIu32, i == 0 ? "" : ", ", licences[i]);
        }
        printf("]\n");
    }
}

int main(void)
{
    must(mk_format(words, MK_ROOM(MARKS, CELLS), MARKS, CELLS));
    insert(0, MK_TRI_3, 12, (const uint32_t[]){0, 1, 2}, 3);
    insert(1, MK_TRI_3, 12, (const uint32_t[]){1, 3, 2}, 3);
    insert(2, MK_TRI_3, 31, (const uint32_t[]){2, 4, 5}, 3);
    insert(3, MK_QUAD_4, 77, (const uint32_t[]){1, 2, 6, 7}, 4);
    insert(4, MK_BAR_2, 0, (const uint32_t[]){2, 8}, 2);

    tell(words, 2);
    printf("cell 1 is taken down\n");
    must(mk_remove(words, MK_ROOM(MARKS, CELLS), 1));
    tell(words, 2);

    uint8_t refusal = mk_insert(words, MK_ROOM(MARKS, CELLS), 5, MK_TRI_3, (const uint32_t[]){2, 0, 1}, 3);
    if (refusal == 0) {
        printf("cell 5 stands\n");
    } else {
        printf("cell 5 is refused with %d\n", refusal);
    }
    survey(0);
    survey(3);
    survey(4);
    morning();
    harbour();
    days();
    return 0;
}

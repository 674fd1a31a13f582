/*
 * A hillside and a viaduct that touch at mark 0, asked about from C. The deck's two sides and a pier's
 * wall share the edge between the marks 0 and 5, so that edge has three cells. The pier stands on a block.
 */
#include <stddef.h>
#include <stdint.h>
#include <stdio.h>

#include "mengkiloh.h"

#define MARKS 22
#define CELLS 13
#define WORDS MK_ROOM(MARKS, CELLS)
#define PLACES 128
#define JOURNAL MK_JOURNAL_WORDS(3)
#define UNWRITTEN 4294967295u

static const uint32_t records[] = {
    /* cell, type, licence, marks */
    0, MK_TRI_3, 71, 0, 1, 2,       /* the hillside */
    1, MK_TRI_3, 71, 0, 2, 3,       /* */
    2, MK_TRI_3, 71, 0, 3, 4,       /* */
    3, MK_QUAD_4, 72, 0, 5, 6, 7,   /* the deck, one side */
    4, MK_QUAD_4, 72, 5, 0, 8, 9,   /* the other side */
    5, MK_TRI_3, 72, 0, 5, 10,      /* the pier's wall */
    6, MK_BAR_2, 0, 0, 5,          /* the rail */
    7, MK_BAR_2, 0, 5, 11,         /* */
    8, MK_TETRA_4, 71, 0, 1, 2, 11, /* the rock below */
    10, MK_HEXA_8, 73, 12, 13, 14, 15, 16, 17, 18, 19, /* the pier's block */
    11, MK_PYRA_5, 73, 16, 17, 18, 19, 5,              /* the pier */
    12, MK_PENTA_6, 73, 13, 14, 20, 17, 18, 21,        /* the ramp at its side */
};

static const uint32_t edge[] = {5, 0};
static const uint32_t face[] = {2, 1, 0};
static const uint32_t apart[] = {6, 10};
static const uint32_t twice[] = {5, 5};
static const uint32_t top[] = {18, 17, 19, 16};
static const uint32_t many[] = {12, 13, 14, 15, 16};

static const uint32_t cut_short[] = {0, MK_TRI_3, 71, 0, 1, 2, 1, MK_TRI_3, 71, 0, 2};

static const uint32_t no_such_type[] = {0, MK_TRI_3, 71, 0, 1, 2, 1, 8, 71};

/* three solids on the face between the block and the pier */
static const uint32_t third[] = {
    10, MK_HEXA_8, 73, 12, 13, 14, 15, 16, 17, 18, 19, /* */
    11, MK_PYRA_5, 73, 16, 17, 18, 19, 5,              /* */
    12, MK_PYRA_5, 73, 16, 18, 17, 19, 11,             /* */
};

/* lists of edits */
static const uint32_t morning[] = {MK_REMOVE, 4, MK_REMOVE, 1, MK_INSERT, 9, MK_BAR_2, 9, 6, 10, MK_REMOVE, 5};
static const uint32_t stopped[] = {MK_INSERT, 4, MK_QUAD_4, 72, 5, 0, 8, 9, MK_REMOVE, 1, MK_REMOVE, 9};
static const uint32_t other_kind[] = {MK_REMOVE, 9, 3, 1};
static const uint32_t no_number[] = {MK_REMOVE};
static const uint32_t no_type[] = {MK_INSERT, 1};
static const uint32_t no_licence[] = {MK_INSERT, 1, MK_TRI_3};
static const uint32_t few_marks[] = {MK_INSERT, 1, MK_TRI_3, 71, 0, 2};
static const uint32_t back[] = {MK_INSERT, 1, MK_TRI_3, 71, 0, 2, 3, MK_INSERT, 5, MK_TRI_3, 72, 0, 5, 10};

static uint32_t mesh[WORDS];
static uint32_t journal[JOURNAL];
static uint32_t start[WORDS];
static uint32_t second[WORDS];
static uint32_t list[PLACES];
static uint32_t ways[PLACES];
static uint32_t proposed[PLACES];
static int16_t positions[3 * MARKS];

static void say_number(uint32_t number)
{
    if (number == UNWRITTEN) {
        printf(" unwritten");
    } else {
        printf(" %u", number);
    }
}

static void say_list(uint8_t refusal, const uint32_t *at, uint32_t count)
{
    printf(": %u;", refusal);
    say_number(count);
    printf(";");
    for (uint32_t i = 0; refusal == MK_ACCEPTED && i < count; i++) {
        say_number(at[i]);
    }
    printf("\n");
}

static void say_verdict(const char *call, uint8_t refusal)
{
    printf("%s: %u\n", call, refusal);
}

static void star(uint32_t dimension, uint32_t mark, size_t room)
{
    uint32_t count = UNWRITTEN;
    uint8_t refusal = mk_star(mesh, WORDS, dimension, mark, list, room, &count);
    printf("star %u %u", dimension, mark);
    say_list(refusal, list, count);
}

static void anchors(uint32_t dimension, uint32_t mark)
{
    uint32_t count = UNWRITTEN;
    uint8_t refusal = mk_anchors(mesh, WORDS, dimension, mark, list, PLACES, &count);
    printf("anchors %u %u", dimension, mark);
    say_list(refusal, list, count);
}

static void first_anchor(uint32_t dimension, uint32_t mark)
{
    uint32_t found = UNWRITTEN;
    uint32_t half = UNWRITTEN;
    uint8_t refusal = mk_first_anchor(mesh, WORDS, dimension, mark, &found, &half);
    printf("first anchor %u %u: %u;", dimension, mark, refusal);
    say_number(found);
    printf(";");
    say_number(half);
    printf("\n");
}

static void lookup(const uint32_t *set, size_t n)
{
    uint32_t found = UNWRITTEN;
    uint32_t half = UNWRITTEN;
    uint8_t refusal = mk_lookup(mesh, WORDS, set, n, &found, &half);
    printf("lookup");
    for (size_t i = 0; i < n; i++) {
        say_number(set[i]);
    }
    printf(": %u;", refusal);
    say_number(found);
    printf(";");
    say_number(half);
    printf("\n");
}

static void half_facet(uint32_t cell, uint32_t facet)
{
    uint32_t half = UNWRITTEN;
    uint32_t way = UNWRITTEN;
    uint32_t yes = UNWRITTEN;
    uint32_t count = UNWRITTEN;
    uint8_t refusal = mk_sibling(mesh, WORDS, cell, facet, &half, &way);
    printf("sibling %u %u: %u;", cell, facet, refusal);
    say_number(half);
    printf(";");
    say_number(way);
    refusal = mk_border(mesh, WORDS, cell, facet, &yes);
    printf("\nborder %u %u: %u;", cell, facet, refusal);
    say_number(yes);
    refusal = mk_cycle(mesh, WORDS, cell, facet, list, PLACES, ways, PLACES, &count);
    printf("\ncycle %u %u", cell, facet);
    say_list(refusal, list, count);
    printf("ways %u %u", cell, facet);
    say_list(refusal, ways, count);
}

static void one_cell(uint32_t cell)
{
    uint32_t type = UNWRITTEN;
    uint32_t licence = UNWRITTEN;
    uint32_t at = UNWRITTEN;
    uint32_t count = UNWRITTEN;
    uint8_t refusal = mk_type(mesh, WORDS, cell, &type);
    printf("type %u: %u;", cell, refusal);
    say_number(type);
    refusal = mk_licence(mesh, WORDS, cell, &licence);
    printf("\nlicence %u: %u;", cell, refusal);
    say_number(licence);
    refusal = mk_marks(mesh, WORDS, cell, &at, &count);
    printf("\nmarks %u", cell);
    say_list(refusal, refusal == MK_ACCEPTED ? mesh + at : mesh, count);
    count = UNWRITTEN;
    refusal = mk_neighbours(mesh, WORDS, cell, list, PLACES, &count);
    printf("neighbours %u", cell);
    say_list(refusal, list, count);
}

static void cells_of(uint32_t type)
{
    uint32_t count = UNWRITTEN;
    uint8_t refusal = mk_cells(mesh, WORDS, type, list, PLACES, &count);
    printf("cells %u", type);
    say_list(refusal, list, count);
    count = UNWRITTEN;
    refusal = mk_count(mesh, WORDS, type, &count);
    printf("count %u: %u;", type, refusal);
    say_number(count);
    printf("\n");
}

/* the capacities, the first free number and the live cells */
static void held(size_t room)
{
    uint32_t marks = UNWRITTEN;
    uint32_t cells = UNWRITTEN;
    uint32_t found = UNWRITTEN;
    uint32_t cell = UNWRITTEN;
    uint32_t count = UNWRITTEN;
    uint8_t refusal = mk_capacities(mesh, WORDS, &marks, &cells);
    printf("capacities: %u;", refusal);
    say_number(marks);
    printf(";");
    say_number(cells);
    refusal = mk_free(mesh, WORDS, &found, &cell);
    printf("\nfree: %u;", refusal);
    say_number(found);
    printf(";");
    say_number(cell);
    refusal = mk_live(mesh, WORDS, list, room, &count);
    printf("\nlive");
    say_list(refusal, list, count);
}

static void whole(void)
{
    printf("whole: %u\n", mk_whole(mesh, WORDS));
}

/* Everything that is asked about the touching mark, the edge of three and the cells there. */
static void all(void)
{
    for (uint32_t dimension = 0; dimension < 5; dimension++) {
        star(dimension, 0, PLACES);
        anchors(dimension, 0);
        first_anchor(dimension, 0);
    }
    star(2, 0, 4);
    star(2, MARKS, PLACES);
    for (uint32_t cell = 0; cell <= CELLS; cell++) {
        one_cell(cell);
    }
    for (uint32_t cell = 3; cell < 6; cell++) {
        half_facet(cell, 0);
    }
    half_facet(0, 3);
    half_facet(10, 5);
    half_facet(12, 0);
    half_facet(12, 5);
    lookup(edge, 2);
    lookup(face, 3);
    lookup(apart, 2);
    lookup(twice, 2);
    lookup(top, 4);
    lookup(many, 5);
    for (uint32_t type = 0; type < 9; type++) {
        cells_of(type);
    }
    held(PLACES);
    whole();
}

static void say_floats(const double *at, uint32_t count)
{
    printf(";");
    for (uint32_t i = 0; i < count; i++) {
        printf(" %.3f", at[i]);
    }
}

/* the corners, the centre and the measure of a cell */
static void placed(uint32_t cell, size_t numbers, size_t room)
{
    double out[24];
    double at[3] = {0, 0, 0};
    double size = 0;
    uint32_t corners = UNWRITTEN;
    uint32_t kind = UNWRITTEN;
    uint8_t refusal = mk_points(mesh, WORDS, positions, numbers, cell, out, room, &corners);
    printf("points %u: %u;", cell, refusal);
    say_number(corners);
    say_floats(out, refusal == MK_ACCEPTED ? 3 * corners : 0);
    refusal = mk_centre(mesh, WORDS, positions, numbers, cell, &at[0], &at[1], &at[2]);
    printf("\ncentre %u: %u", cell, refusal);
    say_floats(at, refusal == MK_ACCEPTED ? 3 : 0);
    refusal = mk_measure(mesh, WORDS, positions, numbers, cell, &kind, &size);
    printf("\nmeasure %u: %u;", cell, refusal);
    say_number(kind);
    say_floats(&size, refusal == MK_ACCEPTED ? 1 : 0);
    printf("\n");
}

static void all_placed(void)
{
    for (uint32_t n = 0; n < 3 * MARKS; n++) {
        positions[n] = (int16_t)((int)(n * 7919 % 65536) - 32768);
    }
    for (uint32_t cell = 0; cell <= CELLS; cell++) {
        placed(cell, 3 * MARKS, 24);
        placed(cell, 3 * MARKS - 1, 5);
        placed(cell, 3 * MARKS, 5);
    }
}

static void build(const uint32_t *from, size_t count)
{
    uint32_t place = UNWRITTEN;
    uint8_t refusal = mk_build(mesh, WORDS, MARKS, CELLS, from, count, &place);
    printf("build: %u;", refusal);
    say_number(place);
    printf("\n");
}

static void build_edition(uint32_t edition, const uint32_t *from, size_t count)
{
    uint32_t place = UNWRITTEN;
    uint8_t refusal = mk_build_edition(mesh, WORDS, MARKS, CELLS, edition, from, count, &place);
    printf("build edition %u: %u;", edition, refusal);
    say_number(place);
    printf("\n");
}

static void format_edition(uint32_t marks, uint32_t edition)
{
    uint8_t refusal = mk_format_edition(mesh, WORDS, marks, CELLS, edition);
    printf("format edition %u: %u\n", edition, refusal);
}

static void edition(void)
{
    uint32_t number = UNWRITTEN;
    uint8_t refusal = mk_edition(mesh, WORDS, &number);
    printf("edition: %u;", refusal);
    say_number(number);
    printf("\n");
}

/* A face lies between two solids at most. */
static void second_edition(void)
{
    const uint32_t other_pier[] = {16, 18, 17, 19, 11};

    edition();
    format_edition(MARKS, 3);
    format_edition(65536, 3);
    format_edition(65536, 2);
    build_edition(0, records, sizeof records / sizeof records[0]);
    edition();
    whole();
    format_edition(MARKS, 2);
    edition();
    build_edition(2, third, sizeof third / sizeof third[0]);
    edition();
    whole();
    build_edition(1, third, sizeof third / sizeof third[0]);
    edition();
    build_edition(2, records, sizeof records / sizeof records[0]);
    edition();
    say_verdict("insert 9", mk_insert(mesh, WORDS, 9, MK_PYRA_5, other_pier, 5));
    say_verdict("remove 11", mk_remove(mesh, WORDS, 11));
    say_verdict("insert 9", mk_insert(mesh, WORDS, 9, MK_PYRA_5, other_pier, 5));
    all();
    build(records, sizeof records / sizeof records[0]);
    edition();
}

static void edits(size_t words, const uint32_t *list_of, size_t count, uint32_t accepted, uint32_t refused)
{
    uint32_t tally[] = {accepted, refused};
    size_t made = 99;
    uint8_t refusal = mk_edits(mesh, words, list_of, count, tally, &made);
    printf("edits: %u; %u; %u %u\n", refusal, (uint32_t)made, tally[0], tally[1]);
}

/* A morning's edits in one call. */
static void mornings(void)
{
    edits(WORDS, morning, 0, 0, 0);
    edits(15, morning, 0, 0, 0);
    edits(15, morning, sizeof morning / sizeof morning[0], 7, 8);
    edits(WORDS, morning, sizeof morning / sizeof morning[0], 0, 0);
    edits(WORDS, stopped, sizeof stopped / sizeof stopped[0], 4, 0);
    edits(WORDS, other_kind, sizeof other_kind / sizeof other_kind[0], 5, 1);
    edits(WORDS, no_number, sizeof no_number / sizeof no_number[0], 6, 2);
    edits(WORDS, no_type, sizeof no_type / sizeof no_type[0], 6, 3);
    edits(WORDS, no_licence, sizeof no_licence / sizeof no_licence[0], 6, 4);
    edits(WORDS, few_marks, sizeof few_marks / sizeof few_marks[0], 4294967295u, 4294967295u);
    all();
    edits(WORDS, back, sizeof back / sizeof back[0], 4294967294u, 9);
    whole();
}

static void enter(uint32_t day, uint32_t cell, uint32_t type, uint32_t licence, const uint32_t *marks, size_t count)
{
    say_verdict("enter insert", mk_journal_insert(mesh, WORDS, journal, JOURNAL, day, cell, type, licence, marks, count));
}

static void enter_removal(uint32_t day, uint32_t cell)
{
    say_verdict("enter remove", mk_journal_remove(mesh, WORDS, journal, JOURNAL, day, cell));
}

/* the licences to ask, and whether second memory is a mesh then */
static void complaint(uint32_t day, uint32_t mark, size_t words, size_t room)
{
    uint32_t count = UNWRITTEN;
    uint8_t refusal = mk_licences(journal, JOURNAL, start, WORDS, day, mark, second, words, list, room, &count);
    printf("licences %u %u", day, mark);
    say_list(refusal, list, count);
    say_verdict("second", mk_whole(second, WORDS));
}

/* The pier is taken down on day 40: whom a complaint asks, each refusal, and the days before and after. */
static void complaints(void)
{
    const uint32_t stay[] = {5, 10};

    complaint(0, 5, WORDS, PLACES);
    say_verdict("begin", mk_journal_begin(mesh, WORDS, journal, JOURNAL, start, WORDS));
    enter(10, 9, MK_BAR_2, 4, stay, 2);
    enter(10, 9, MK_BAR_2, 4, stay, 2);
    enter_removal(40, 11);
    enter_removal(500, 9);
    enter_removal(500, 8);
    say_verdict("fold", mk_journal_fold(journal, JOURNAL, start, WORDS, 30));
    complaint(29, MARKS, WORDS - 1, 0);
    complaint(30, MARKS, WORDS - 1, 0);
    complaint(30, MARKS, WORDS, 0);
    complaint(39, 5, WORDS, 2);
    complaint(501, 5, WORDS, PLACES);
    complaint(39, 5, WORDS, 3);
    complaint(41, 5, WORDS, 2);
}

/* a plan for the wanted cells, in so many places; how many words it has */
static size_t plan(size_t words, const uint32_t *wanted, size_t count, size_t room)
{
    size_t written = UNWRITTEN;
    uint8_t refusal = mk_plan(mesh, words, wanted, count, proposed, room, &written);
    printf("plan");
    say_list(refusal, proposed, (uint32_t)written);
    return refusal == MK_ACCEPTED ? written : 0;
}

/* the check of that plan or a part of it, and the live cells of second memory then */
static void check(size_t words, size_t from, size_t to, const uint32_t *wanted, size_t count, size_t second_words)
{
    size_t place = UNWRITTEN;
    uint32_t live = UNWRITTEN;
    for (size_t i = 0; i < WORDS; i++) {
        second[i] = 0;
    }
    uint8_t refusal = mk_plan_check(mesh, words, proposed + from, to - from, wanted, count, second, second_words, &place);
    printf("plan check: %u;", refusal);
    say_number((uint32_t)place);
    printf("\n");
    refusal = mk_live(second, WORDS, list, PLACES, &live);
    printf("second");
    say_list(refusal, list, live);
}

/* The pier put up again, and then the pier and another one alone: plans, and each refusal. */
static void nights(void)
{
    const size_t all = sizeof records / sizeof records[0];
    const size_t three = sizeof third / sizeof third[0];
    const size_t cut = sizeof cut_short / sizeof cut_short[0];
    const size_t unknown = sizeof no_such_type / sizeof no_such_type[0];

    plan(WORDS - 1, cut_short, cut, 0);
    plan(WORDS, cut_short, cut, 0);
    plan(WORDS, no_such_type, unknown, 0);
    plan(WORDS, records, all, 8);
    size_t end = plan(WORDS, records, all, 9);
    check(WORDS, 0, end, records, all, WORDS);
    check(WORDS, 0, 0, records, all, WORDS);
    check(WORDS, 0, end - 1, records, all, WORDS);
    check(WORDS, 0, end, third, three, WORDS);
    check(WORDS - 1, 0, end, cut_short, cut, WORDS - 1);
    check(WORDS, 0, end, cut_short, cut, WORDS - 1);
    check(WORDS, 0, end, cut_short, cut, WORDS);
    check(WORDS, 0, end, no_such_type, unknown, WORDS);
    end = plan(WORDS, third, three, PLACES);
    check(WORDS, 0, end, third, three, WORDS);
    check(WORDS, 2, end, third, three, WORDS);
    check(WORDS, 4, end - 9, third, three, WORDS);
    check(WORDS, 1, end, third, three, WORDS);
}

int main(void)
{
    const uint32_t wall[] = {0, 5, 10};

    whole();
    edition();
    held(PLACES);
    star(2, 0, PLACES);
    say_verdict("format", mk_format(mesh, WORDS - 1, MARKS, CELLS));
    say_verdict("format", mk_format(mesh, WORDS, 65536, CELLS));
    say_verdict("format", mk_format(mesh, WORDS, MARKS, CELLS));
    whole();
    build(cut_short, sizeof cut_short / sizeof cut_short[0]);
    whole();
    build(records, sizeof records / sizeof records[0]);
    all();
    held(4);
    say_verdict("remove 4", mk_remove(mesh, WORDS, 4));
    say_verdict("remove 4", mk_remove(mesh, WORDS, 4));
    all();
    say_verdict("remove 10", mk_remove(mesh, WORDS, 10));
    say_verdict("remove 1", mk_remove(mesh, WORDS, 1));
    say_verdict("insert 9", mk_insert(mesh, WORDS, 9, MK_TRI_3, wall, 3));
    say_verdict("insert 9", mk_insert(mesh, WORDS, 9, MK_QUAD_4, wall, 3));
    say_verdict("remove 5", mk_remove(mesh, WORDS, 5));
    say_verdict("insert 9", mk_insert_licensed(mesh, WORDS, 9, MK_TRI_3, 9, wall, 3));
    all();
    second_edition();
    all_placed();
    mornings();
    complaints();
    nights();
    /* the header is that of the library */
    return mk_version() == MK_VERSION ? 0 : 1;
}

/* A planned night from C: what stands today, the cells that are wanted tomorrow, a plan between them, the plan checked
 * before the night, and made.
 *
 *     cc -Itarget/mengkiloh examples/night.c target/mengkiloh/libmengkiloh.a -o night
 */
#include "mengkiloh.h"

#include <inttypes.h>
#include <stdio.h>
#include <stdlib.h>

enum { MARKS = 9, CELLS = 8, MOST = 64 };

static uint32_t today[MK_ROOM(MARKS, CELLS)], tomorrow[MK_ROOM(MARKS, CELLS)];
static const size_t room = MK_ROOM(MARKS, CELLS);

/* a hillside and a deck over it */
static const uint32_t stands[] = {
    0, MK_TRI_3, 12, 0, 1, 2,     /* cell, type, licence, marks */
    1, MK_TRI_3, 12, 1, 3, 2,     /* */
    3, MK_QUAD_4, 77, 1, 2, 6, 7, /* */
};
/* the deck under another licence, and a mast */
static const uint32_t wanted[] = {
    3, MK_QUAD_4, 78, 1, 2, 6, 7, /* */
    0, MK_TRI_3, 12, 0, 1, 2,     /* */
    1, MK_TRI_3, 12, 1, 3, 2,     /* */
    4, MK_BAR_2, 0, 2, 8,         /* */
};
#define COUNT(list) (sizeof(list) / sizeof((list)[0]))

static void must(uint8_t refusal)
{
    if (refusal != 0) {
        fprintf(stderr, "refused with %d: %s\n", refusal, mk_meaning(refusal));
        exit(EXIT_FAILURE);
    }
}

static void check(const char *what, const uint32_t *edits, size_t count)
{
    size_t place = 0;
    uint8_t refusal = mk_plan_check(today, room, edits, count, wanted, COUNT(wanted), tomorrow, room, &place);
    if (refusal == MK_PLAN_WRONG) {
        printf("%s is wrong at edit %zu\n", what, place);
        return;
    }
    must(refusal);
    uint32_t live[CELLS], cells = 0;
    must(mk_live(tomorrow, room, live, CELLS, &cells));
    printf("%s passes: %" PRIu32 " cells tomorrow\n", what, cells);
}

int main(void)
{
    uint32_t plan[MOST], place = 0, tally[] = {0, 0};
    size_t count = 0, made = 0;
    must(mk_build(today, room, MARKS, CELLS, stands, COUNT(stands), &place));
    must(mk_plan(today, room, wanted, COUNT(wanted), plan, MOST, &count));
    printf("the plan:");
    for (size_t i = 0; i < count; i++) {
        printf(" %" PRIu32, plan[i]);
    }
    printf("\n");
    check("the plan", plan, count);
    check("the plan without its first edit", plan + 2, count - 2);
    check("the plan without its last edit", plan, count - 6);
    must(mk_edits(today, room, plan, count, tally, &made));
    printf("%zu edits made\n", made);
    check("no edit more", plan, 0);
    return 0;
}

/*
 * Reads a sheet, looks at its following sets, judges plans, picks the better of two, searches, and writes the sheet
 * again.
 */
#include <inttypes.h>
#include <stdio.h>
#include <string.h>

#include "potuchlan.h"

/* Two states and two commands: command 0 swaps the states, command 1 leads to state 0 from both; initial set 3,
 * goal 1. */
static const uint8_t sheet[] = {
    1, 0, 0, 0, 50, 2, 2,
    0, 0, 0, 0, 0, 0, 0, 3,
    0, 0, 0, 0, 0, 0, 0, 1,
    0, 0, 0, 0, 0, 0, 0, 2,
    0, 0, 0, 0, 0, 0, 0, 1,
    0, 0, 0, 0, 0, 0, 0, 1,
    0, 0, 0, 0, 0, 0, 0, 1,
};

/* A place of the store is laid out as the library has it. */
_Static_assert(sizeof(struct potuchlan_node) == 16, "16 bytes");
_Static_assert(offsetof(struct potuchlan_node, parent) == 8, "parent at 8");
_Static_assert(offsetof(struct potuchlan_node, command) == 12, "command at 12");

static void show_head(void)
{
    uint64_t a[POTUCHLAN_READ_NUMBERS] = {0};
    potuchlan_read(sheet, sizeof sheet, a);
    printf("read: %" PRIu64 ", states %" PRIu64 ", commands %" PRIu64 ", initial %" PRIu64 ", goal %" PRIu64 "\n",
           a[POTUCHLAN_NUMBER], a[POTUCHLAN_READ_STATES], a[POTUCHLAN_READ_COMMANDS], a[POTUCHLAN_READ_INITIAL],
           a[POTUCHLAN_READ_GOAL]);
    potuchlan_read(sheet, 4, a);
    printf("read of 4 bytes: %" PRIu64 ", place %" PRIu64 "\n", a[POTUCHLAN_NUMBER], a[POTUCHLAN_PLACE]);
}

static void show_following(size_t command, size_t state)
{
    uint64_t a[POTUCHLAN_FOLLOWING_NUMBERS] = {0};
    potuchlan_following(sheet, sizeof sheet, command, state, a);
    printf("following set of command %zu and state %zu: offset %" PRIu64 ", length %" PRIu64 "\n", command, state,
           a[POTUCHLAN_FOLLOWING_OFFSET], a[POTUCHLAN_FOLLOWING_LENGTH]);
}

static void show_judged(const char *name, const uint8_t *plan, size_t length)
{
    uint64_t a[POTUCHLAN_JUDGE_NUMBERS] = {0};
    potuchlan_judge(sheet, sizeof sheet, plan, length, a);
    printf("judge %s: %" PRIu64 ", place %" PRIu64 ", set %" PRIu64 ", states left %" PRIu64 "\n", name,
           a[POTUCHLAN_NUMBER], a[POTUCHLAN_PLACE], a[POTUCHLAN_JUDGE_SET], a[POTUCHLAN_JUDGE_LEFT]);
}

static void show_searched(const char *name, const uint64_t *a, const uint8_t *plan)
{
    printf("%s: %" PRIu64 ", place %" PRIu64 ", count %" PRIu64 ", length %" PRIu64 "\n", name, a[POTUCHLAN_NUMBER],
           a[POTUCHLAN_PLACE], a[POTUCHLAN_SEARCH_COUNT], a[POTUCHLAN_SEARCH_LENGTH]);
    if (a[POTUCHLAN_NUMBER] == POTUCHLAN_OK) {
        printf("  plan:");
        for (uint64_t i = 0; i < a[POTUCHLAN_SEARCH_LENGTH]; i++)
            printf(" %d", plan[i]);
        printf("\n");
    }
}

static void show_search(size_t places)
{
    struct potuchlan_node store[4];
    uint8_t plan[4];
    uint64_t a[POTUCHLAN_SEARCH_NUMBERS] = {0};
    memset(store, 0, sizeof store);
    memset(plan, 0, sizeof plan);
    printf("room %zu, ", places);
    potuchlan_search(sheet, sizeof sheet, store, places, plan, sizeof plan, a);
    show_searched("search", a, plan);
    for (uint64_t i = 0; i < a[POTUCHLAN_SEARCH_COUNT]; i++)
        printf("  place %" PRIu64 ": set %" PRIu64 ", parent %" PRIu32 ", command %d\n", i, store[i].set,
               store[i].parent, store[i].command);
}

static void show_search_here(void)
{
    uint8_t plan[4] = {0, 0, 0, 0};
    uint64_t a[POTUCHLAN_SEARCH_NUMBERS] = {0};
    potuchlan_search_here(sheet, sizeof sheet, plan, sizeof plan, a);
    show_searched("search in a store of its own", a, plan);
    potuchlan_search_here(sheet, sizeof sheet, plan, 0, a);
    show_searched("the same with no room for the plan", a, plan);
}

static void show_written(void)
{
    static const uint64_t sets[] = {2, 1, 1, 1};
    uint8_t out[sizeof sheet + 1];
    uint64_t a[POTUCHLAN_WRITE_NUMBERS] = {0};
    memset(out, 77, sizeof out);
    potuchlan_write(2, 2, 3, 1, sets, 4, out, sizeof out, a);
    printf("write: %" PRIu64 ", bytes %" PRIu64 ", %s, byte after it %d\n", a[POTUCHLAN_NUMBER],
           a[POTUCHLAN_WRITE_BYTES], memcmp(out, sheet, sizeof sheet) == 0 ? "as read" : "not as read",
           out[sizeof sheet]);
    potuchlan_write(2, 2, 3, 1, sets, 4, out, sizeof sheet - 1, a);
    printf("write to a short buffer: %" PRIu64 ", place %" PRIu64 "\n", a[POTUCHLAN_NUMBER], a[POTUCHLAN_PLACE]);
}

int main(void)
{
    static const uint8_t good[] = {1}, longer[] = {0, 1}, wrong[] = {1, 7};
    show_head();
    show_following(0, 1);
    show_following(2, 0);
    show_judged("1", good, 1);
    show_judged("nothing", good, 0);
    show_judged("1 7", wrong, 2);
    printf("better of '0 1' and '1': %d\n", potuchlan_better(sheet, sizeof sheet, longer, 2, good, 1));
    printf("better of '1 7' and nothing: %d\n", potuchlan_better(sheet, sizeof sheet, wrong, 2, good, 0));
    show_search(4);
    show_search(1);
    show_search_here();
    show_written();
    return 0;
}

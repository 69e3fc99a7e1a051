/*
 * Potuchlan: plans for film scanners whose state is not known for sure.
 *
 * A sheet describes one scanner: its states, its commands, what each command may lead to, the states it may be in
 * now, and the states wanted. A plan is a row of commands, one byte each. The functions below read and write sheets,
 * judge a plan, pick the better of two plans, and search for the shortest plan. Each is proved to answer as is said
 * here, for every input; what follows is what the proof takes for granted about a caller.
 *
 * What a caller passes
 *   - A lent buffer is a pointer and the number of its elements (not bytes). The pointer is not null, also where the
 *     number is 0: then it may be any pointer that is not null and aligned for its element, and nothing is read or
 *     written through it.
 *   - A pointer is aligned for its element: 1 byte for uint8_t, 8 bytes for uint64_t and for struct potuchlan_node.
 *   - A buffer that a function writes overlaps no other buffer of the same call. Two buffers that are only read may
 *     overlap, and may be the same.
 *   - Every buffer is initialised, also one that is written: a function leaves the parts that it does not fill as
 *     they were. So are the arrays for answers, though all of an array is written.
 *   - While a call runs, nobody else changes a buffer that was lent to it, or reads one that it writes: no other
 *     thread, no signal handler, and no other process that shares the memory.
 *   - A number of elements is that of the buffer, and no buffer has 2^63 bytes or more.
 *   - Nothing else is asked. Bad content, and buffers that are too short, get a refusal and no harm.
 *
 * What a caller gets
 *   - Numbers, in an array that the caller lends. All of the array is written, whatever the answer.
 *   - No pointer is kept after a call returns, nothing is allocated, and there is no state between calls, so calls in
 *     several threads, each with buffers of its own to be written, do not disturb each other. What is handed back is
 *     offsets and lengths in the caller's own buffers, which are good for as long as these buffers are.
 *
 * Sets: a set of states is a 64-bit number whose bit s stands for state s.
 *
 * Link libplugin.a (x86-64 Linux).
 */
#ifndef POTUCHLAN_H
#define POTUCHLAN_H

#include <stddef.h>
#include <stdint.h>

#ifdef __cplusplus
extern "C" {
#endif

/*
 * The sheet's bytes, all numbers big-endian; 23 + 8 * commands * states bytes in all:
 *
 *   offset  bytes   content
 *        0      1   version, 1
 *        1      4   length of all that follows this field
 *        5      1   states, 1 to 64
 *        6      1   commands, 1 to 32
 *        7      8   initial set, not empty
 *       15      8   goal set, may be empty
 *       23      8   each: following sets, all states of command 0, then of command 1, and so on
 */
#define POTUCHLAN_MOST_STATES 64
#define POTUCHLAN_MOST_COMMANDS 32
#define POTUCHLAN_LONGEST_SHEET 16407

/*
 * The number of an answer: 0 where all is well, 255 where a search finds that there is no plan, else a refusal. The
 * first row that holds decides, and a sheet's own refusals (1 to 8) come before any other. With each number comes a
 * place; it is 0 with 0 and with 255.
 *
 *   no.  given exactly when                                            place
 *     1  the sheet has under 5 bytes                                   its length
 *     2  the version is not 1                                          0
 *     3  the stated length differs from the bytes after it,            1
 *        or is under 18
 *     4  states outside 1..64; else commands outside 1..32             5; 6
 *     5  the stated length is not 18 + 8 * commands * states;          1
 *        in writing, the number of sets is not commands * states
 *     6  the initial set is empty or names a missing state             7
 *     7  the goal names a missing state                                15
 *     8  a following set names a missing state                         byte offset of the first such
 *     9  the output is too short for the sheet (writing)               bytes needed
 *    10  the plan holds a byte that is no command (judge)              index of the first
 *    11  a command is not sendable (judge)                             its index
 *    12  the last set is not inside the goal (judge)                   length of the plan
 *    13  no room (search)                                              0
 *    14  the plan buffer is shorter than the plan (search)             length of the plan
 */
enum {
    POTUCHLAN_OK = 0,
    POTUCHLAN_SHORT_INPUT = 1,
    POTUCHLAN_VERSION = 2,
    POTUCHLAN_LENGTH = 3,
    POTUCHLAN_COUNTS = 4,
    POTUCHLAN_UNEVEN = 5,
    POTUCHLAN_INITIAL = 6,
    POTUCHLAN_GOAL = 7,
    POTUCHLAN_FOLLOWING = 8,
    POTUCHLAN_SHORT_OUTPUT = 9,
    POTUCHLAN_NO_COMMAND = 10,
    POTUCHLAN_NOT_SENDABLE = 11,
    POTUCHLAN_NOT_INSIDE = 12,
    POTUCHLAN_NO_ROOM = 13,
    POTUCHLAN_SHORT_PLAN = 14,
    POTUCHLAN_NO_PLAN = 255
};

/* In every array with a number and a place, these are where they stand. */
enum { POTUCHLAN_NUMBER = 0, POTUCHLAN_PLACE = 1 };

/*
 * Reads a sheet. The number is 0 for an accepted sheet, or 1 to 8. After a refusal the last four are 0.
 */
enum {
    POTUCHLAN_READ_STATES = 2,
    POTUCHLAN_READ_COMMANDS = 3,
    POTUCHLAN_READ_INITIAL = 4,
    POTUCHLAN_READ_GOAL = 5,
    POTUCHLAN_READ_NUMBERS = 6
};
void potuchlan_read(const uint8_t *sheet, size_t sheet_length, uint64_t answer[6]);

/*
 * Writes a sheet from its counts, its sets and its following sets, in the order in which a sheet has them. The number
 * is 0 for a sheet that is written, or 4 to 9. A sheet fills the first bytes of the output and leaves the rest; a
 * refusal changes no byte of it, and reports 0 bytes.
 */
enum { POTUCHLAN_WRITE_BYTES = 2, POTUCHLAN_WRITE_NUMBERS = 3 };
void potuchlan_write(size_t states, size_t commands, uint64_t initial, uint64_t goal, const uint64_t *sets,
                     size_t set_count, uint8_t *out, size_t out_length, uint64_t answer[3]);

/*
 * Where the following set of a command and a state stands in the sheet: an offset, and a length of 8 bytes. Both are
 * 0 where the command or the state is missing, or the sheet is refused.
 */
enum { POTUCHLAN_FOLLOWING_OFFSET = 0, POTUCHLAN_FOLLOWING_LENGTH = 1, POTUCHLAN_FOLLOWING_NUMBERS = 2 };
void potuchlan_following(const uint8_t *sheet, size_t sheet_length, size_t command, size_t state,
                         uint64_t answer[2]);

/*
 * Judges a plan. The number is 0 for a good plan, 1 to 8 for a refused sheet, or 10 to 12. The set is the last one for
 * 0 and for 12, the one before the command for 11, and empty for 10 and for a refused sheet; then comes the number of
 * states that are still possible, which is how many states that set has.
 */
enum { POTUCHLAN_JUDGE_SET = 2, POTUCHLAN_JUDGE_LEFT = 3, POTUCHLAN_JUDGE_NUMBERS = 4 };
void potuchlan_judge(const uint8_t *sheet, size_t sheet_length, const uint8_t *plan, size_t plan_length,
                     uint64_t answer[4]);

/*
 * Which of two plans is the better: 1 for the first, 2 for the second. It is the shorter good one, the first if both
 * are good and equally long, and the one good plan if only one is. It is 0 where neither is good or the sheet is
 * refused; the judge tells why.
 */
uint8_t potuchlan_better(const uint8_t *sheet, size_t sheet_length, const uint8_t *first, size_t first_length,
                         const uint8_t *second, size_t second_length);

/*
 * One place of a search's store: a set of states, the place of the set that it came from, and the command that led to
 * it. Place 0 holds the initial set, with parent 0 and command 255. 16 bytes, of which the last 3 are padding: where a
 * record is written nothing is promised of them.
 */
struct potuchlan_node {
    uint64_t set;
    uint32_t parent;
    uint8_t command;
};

/*
 * Searches for the shortest plan over a store that the caller lends. Its room C is its number of places, at most
 * 65,536; places beyond are unused. The listing has each set that some sendable sequence of commands gives, ordered by
 * its first sequence (shorter first, then the smaller command at the first difference).
 *
 *   0     a plan: the first set inside the goal is among the first C of the listing. The start of the plan buffer
 *         holds its sequence; count is that set's place plus 1
 *   14    the same, but the plan buffer is too short and stays as it was; length is that of the plan
 *   255   no plan: the listing has at most C sets, and none is inside the goal; count is all of them
 *   13    in every other case; count is C
 *   1..8  the sheet is refused; count is 0
 *
 * The first `count` places then hold the listing in order. Later places stay as they were, and so does all of the plan
 * buffer that no plan was written to. The length is 0 for 13, for 255 and for a refused sheet.
 */
enum { POTUCHLAN_SEARCH_COUNT = 2, POTUCHLAN_SEARCH_LENGTH = 3, POTUCHLAN_SEARCH_NUMBERS = 4 };
void potuchlan_search(const uint8_t *sheet, size_t sheet_length, struct potuchlan_node *store, size_t places,
                      uint8_t *plan, size_t plan_length, uint64_t answer[4]);

/*
 * The same over a store of 4,096 places of its own, which takes some 65 KiB of stack.
 */
void potuchlan_search_here(const uint8_t *sheet, size_t sheet_length, uint8_t *plan, size_t plan_length,
                           uint64_t answer[4]);

#ifdef __cplusplus
}
#endif

#endif

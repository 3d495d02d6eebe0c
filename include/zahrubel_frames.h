/* Writers of frames for zahrubel_step, and of the lines that zahrubel_give takes. docs/FORMAT.md says what each frame is asked.
 *
 * A writer is handed a buffer of `room` words and hands back how many words the frame has. It hands back 0 and writes nothing where the frame has no
 * room, has more than ZAHRUBEL_LONGEST_FRAME words, or breaks a count: a clause, a witness or a list of assumptions of more than
 * ZAHRUBEL_MOST_LITERALS literals, a witness of none, an id that is not positive. A frame of 0 words is refused 2, so whoever says what a writer wrote need
 * not look first. Whether literals are in range, ids new and hints right, the checker says.
 *
 * Each list is a pointer and a count; where the count is 0 the pointer may be null. A list does not lie in the frame's buffer. Nothing is allocated.
 */
#ifndef ZAHRUBEL_FRAMES_H
#define ZAHRUBEL_FRAMES_H

#include "zahrubel.h"

#ifdef __cplusplus
extern "C" {
#endif

/* A clause, a witness or a list of assumptions has at most this many literals. */
#define ZAHRUBEL_MOST_LITERALS 256
/* A line has eight digits a word, and the byte that closes it. */
#define ZAHRUBEL_LONGEST_LINE (ZAHRUBEL_MOST_DIGITS + 1)

/* Not to be called from outside: a list behind the first `at` words, and where it ends. */
static inline size_t zahrubel_put_list(int32_t *frame, size_t at, const int32_t *list, size_t count) {
    for (size_t i = 0; i < count; i++)
        frame[at + i] = list[i];
    return at + count;
}

/* Not to be called from outside: whether so many words and two lists have room. Each is compared before it is summed, so no sum is too large. */
static inline int zahrubel_has_room(size_t room, size_t words, size_t first_count, size_t second_count) {
    size_t most = room < ZAHRUBEL_LONGEST_FRAME ? room : ZAHRUBEL_LONGEST_FRAME;
    return words <= most && first_count <= most - words && second_count <= most - words - first_count;
}

/* Not to be called from outside: an operation, up to two more words, and two lists. */
static inline size_t zahrubel_write_parts(int32_t *frame, size_t room, const int32_t *head, size_t head_words, const int32_t *first, size_t first_count,
                                          const int32_t *second, size_t second_count) {
    if (!zahrubel_has_room(room, head_words, first_count, second_count))
        return 0;
    size_t at = zahrubel_put_list(frame, 0, head, head_words);
    at = zahrubel_put_list(frame, at, first, first_count);
    return zahrubel_put_list(frame, at, second, second_count);
}

/* Not to be called from outside: an operation on an id, and a list that runs to the end. */
static inline size_t zahrubel_write_of_id(int32_t *frame, size_t room, int32_t operation, int32_t id, const int32_t *list, size_t count) {
    const int32_t head[] = {operation, id};
    return id <= 0 ? 0 : zahrubel_write_parts(frame, room, head, 2, list, count, NULL, 0);
}

/* A rule. */
static inline size_t zahrubel_write_add(int32_t *frame, size_t room, int32_t id, const int32_t *literals, size_t count) {
    return count > ZAHRUBEL_MOST_LITERALS ? 0 : zahrubel_write_of_id(frame, room, ZAHRUBEL_ADD, id, literals, count);
}

/* A clause that follows, by its hints. */
static inline size_t zahrubel_write_learn(int32_t *frame, size_t room, int32_t id, const int32_t *literals, size_t count, const int32_t *hints,
                                          size_t hint_count) {
    if (id <= 0 || count > ZAHRUBEL_MOST_LITERALS)
        return 0;
    const int32_t head[] = {ZAHRUBEL_LEARN, id, (int32_t)count};
    return zahrubel_write_parts(frame, room, head, 3, literals, count, hints, hint_count);
}

/* A learned clause goes. */
static inline size_t zahrubel_write_forget(int32_t *frame, size_t room, int32_t id) {
    return zahrubel_write_of_id(frame, room, ZAHRUBEL_FORGET, id, NULL, 0);
}

/* A learned clause becomes irredundant. */
static inline size_t zahrubel_write_promote(int32_t *frame, size_t room, int32_t id) {
    return zahrubel_write_of_id(frame, room, ZAHRUBEL_PROMOTE, id, NULL, 0);
}

/* An irredundant clause goes, which the others prove by these hints. */
static inline size_t zahrubel_write_drop(int32_t *frame, size_t room, int32_t id, const int32_t *hints, size_t hint_count) {
    return zahrubel_write_of_id(frame, room, ZAHRUBEL_DROP, id, hints, hint_count);
}

/* An irredundant clause goes to the stack, with its witness: whole where no group is due, else begun. */
static inline size_t zahrubel_write_weaken(int32_t *frame, size_t room, int32_t id, const int32_t *witness, size_t count) {
    if (id <= 0 || count == 0 || count > ZAHRUBEL_MOST_LITERALS)
        return 0;
    const int32_t head[] = {ZAHRUBEL_WEAKEN, id, (int32_t)count};
    return zahrubel_write_parts(frame, room, head, 3, witness, count, NULL, 0);
}

/* The next group of a WEAKEN that has `words` words so far: the id of another clause, which holds the opposite of a witness literal and no witness literal, and
 * the hints that prove it. Groups come by rising id. It hands back how many words the frame has then. Of a frame of 0 words it makes one of 0 words, so
 * one look after the last group is enough. */
static inline size_t zahrubel_write_group(int32_t *frame, size_t room, size_t words, int32_t other_id, const int32_t *hints, size_t hint_count) {
    if (words == 0 || other_id <= 0 || !zahrubel_has_room(room, words, 2, hint_count) || frame[0] != ZAHRUBEL_WEAKEN)
        return 0;
    const int32_t head[] = {other_id, (int32_t)hint_count};
    size_t at = zahrubel_put_list(frame, words, head, 2);
    return zahrubel_put_list(frame, at, hints, hint_count);
}

/* A stacked clause becomes irredundant again. */
static inline size_t zahrubel_write_restore(int32_t *frame, size_t room, int32_t id) {
    return zahrubel_write_of_id(frame, room, ZAHRUBEL_RESTORE, id, NULL, 0);
}

/* A model under assumptions, as its true variables, rising. */
static inline size_t zahrubel_write_sat(int32_t *frame, size_t room, const int32_t *assumptions, size_t count, const int32_t *true_variables,
                                        size_t true_count) {
    const int32_t head[] = {ZAHRUBEL_SAT, (int32_t)count};
    return count > ZAHRUBEL_MOST_LITERALS ? 0 : zahrubel_write_parts(frame, room, head, 2, assumptions, count, true_variables, true_count);
}

/* That there is no model under assumptions, by these hints. */
static inline size_t zahrubel_write_unsat(int32_t *frame, size_t room, const int32_t *assumptions, size_t count, const int32_t *hints,
                                          size_t hint_count) {
    const int32_t head[] = {ZAHRUBEL_UNSAT, (int32_t)count};
    return count > ZAHRUBEL_MOST_LITERALS ? 0 : zahrubel_write_parts(frame, room, head, 2, assumptions, count, hints, hint_count);
}

/* A frame as the line that zahrubel_give and the program take: eight lowercase digits a word and a line feed, with no byte 0 behind it. It hands back how many
 * bytes were written: 0 where they have no room, or the frame has no word or more than ZAHRUBEL_LONGEST_FRAME. */
static inline size_t zahrubel_print_line(char *line, size_t room, const int32_t *frame, size_t words) {
    if (words == 0 || words > ZAHRUBEL_LONGEST_FRAME || room < 8 * words + 1)
        return 0;
    for (size_t i = 0; i < 8 * words; i++)
        line[i] = "0123456789abcdef"[(uint32_t)frame[i / 8] >> (28 - 4 * (i % 8)) & 15];
    line[8 * words] = '\n';
    return 8 * words + 1;
}

/* What a code says. */
static inline const char *zahrubel_code_name(uint64_t code) {
    static const char *const names[] = {
        "accepted",
        "no state, or a lent size out of range",
        "no frame",
        "a literal out of range or repeated",
        "an id not new, or not in its place",
        "not clean",
        "the witness has no literal of the clause",
        "a bad hint",
        "the hints are used up",
        "a group missing or wrong",
        "the model falsifies a clause",
        "the model falsifies an assumption",
        "no entry is free",
        "not enough literal words are free",
    };
    static const char *const faults[] = {
        "the problem line is missing",
        "a second problem line",
        "a malformed word",
        "a literal past the declared count",
        "a variable twice in a clause",
        "a clause over 256 literals",
        "a declared variable count outside 1 to 2048",
        "an unclosed clause",
        "a wrong clause count",
    };
    static const char *const of_proofs[] = {
        "a malformed line",
        "a literal past the count of the rules",
        "a clause with a variable twice, or over 256 literals",
        "an id not above all before it",
        "a deleted id that is not held",
        "a negative hint",
        "a failed proof",
        "an end without an empty clause",
    };
    if (code >= ZAHRUBEL_NO_PROBLEM_LINE && code <= ZAHRUBEL_WRONG_CLAUSE_COUNT)
        return faults[code - ZAHRUBEL_NO_PROBLEM_LINE];
    if (code >= ZAHRUBEL_MALFORMED_LINE && code <= ZAHRUBEL_NO_EMPTY_CLAUSE)
        return of_proofs[code - ZAHRUBEL_MALFORMED_LINE];
    return code < sizeof names / sizeof names[0] ? names[code] : "no answer";
}

#ifdef __cplusplus
}
#endif

#endif

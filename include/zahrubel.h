/* Zahrubel: a proved checker for the steps of an incremental SAT solver.
 *
 * The caller lends a table of clause entries, a pool of literal words and a model buffer, and carries a small record from call to call. Any
 * bits may stand in them: tables that are no state are refused with code 1. A refused call writes nothing; SAT and UNSAT never write the tables;
 * only an accepted SAT writes the model buffer. Frames come one by one, as words, or as lines of hexadecimal digits in parts of any bytes. Rules may be
 * kept as DIMACS text, whose clauses are handed out as frames. Of another solver, which gives no frames, a proof as LRAT text is checked against such rules,
 * in tables that are lent for it alone.
 *
 * What a caller owes is what C always asks: each pointer is aligned, not null (also where its length is 0), and points to as many elements as
 * the length says; what a call may write overlaps nothing else that it is handed, and no other thread touches it meanwhile.
 *
 * What a frame is, docs/FORMAT.md says; zahrubel_frames.h writes them. An example, which a test compiles and runs:
 *
 *     #include "zahrubel_frames.h"
 *     #include <stdio.h>
 *
 *     static struct zahrubel_entry entries[64];
 *     static int32_t pool[512], frame[64];
 *     static struct zahrubel_carried carried;
 *     static uint64_t model[ZAHRUBEL_MODEL_WORDS];
 *
 *     static void say(size_t words) {
 *         struct zahrubel_answer answer = zahrubel_step(entries, 64, pool, 512, &carried, frame, words, model, ZAHRUBEL_MODEL_WORDS);
 *         printf("%s, detail %d\n", zahrubel_code_name(answer.code), (int)answer.detail);
 *     }
 *
 *     int main(void) {
 *         const int32_t clause[] = {1, 2}, witness[] = {1};
 *         zahrubel_open(2, entries, 64, pool, 512, &carried);
 *         say(zahrubel_write_add(frame, 64, 1, clause, 2));
 *         say(zahrubel_write_weaken(frame, 64, 1, witness, 1));
 *         say(zahrubel_write_sat(frame, 64, NULL, 0, NULL, 0));
 *         printf("flag 1 is %s\n", model[0] & 1 ? "shown" : "hidden");
 *     }
 *
 * What a call costs. zahrubel_step and zahrubel_give first load what is lent, since it may have any bits: a pass over the held entries and the pool words that
 * they hold, a search for each record, and a sort, which is one pass where the entries lie by rising id. Accepted changes leave them so; else it takes up to
 * the square of their number. Then comes the frame's own work. zahrubel_give loads once for all lines of a part, so many frames are cheapest as lines.
 * zahrubel_lrat_give loads once for a part, too: a proof is cheapest in large parts. The other calls do not look at what is held. zahrubel_dimacs_judge reads
 * a text once; zahrubel_dimacs_next judges it so at its first call, and then reads each clause once. zahrubel_lrat_check and zahrubel_lrat_open judge the rules
 * and then read each clause once; a proof is read once, up to its first refusal or empty clause. On an Arm processor (Neoverse-V1), with clauses of 3 literals,
 * a step that learns by one hint took 1.9 us with 16 clauses held, 3.8 with 128, 17 with 1,023; loading was 15 of these 17, 70 where all are records, 1,400 by
 * falling id; a line of a part of 1,000 took 0.09 to 0.12. host/examples/cost.rs measures it on the processor at hand.
 *
 * No call allocates, blocks or recurses. Stack: zahrubel_step takes 159 KB (159,152 bytes), zahrubel_give 131 KB, zahrubel_lrat_open 98 KB,
 * zahrubel_lrat_check 74 KB, zahrubel_lrat_give 73 KB, zahrubel_dimacs_next 19 KB, zahrubel_dimacs_judge 18 KB, zahrubel_open 4.2 KB, the others below 200
 * bytes: measured on a painted stack on an Arm processor of 64 bits. On x86-64 it may differ: host/tests/stack.rs measures it on the processor at hand and
 * holds every call to ZAHRUBEL_STACK_BYTES.
 *
 * The archive: tools/native --lib library libzahrubel.a
 */
#ifndef ZAHRUBEL_H
#define ZAHRUBEL_H

#include <stddef.h>
#include <stdint.h>

#ifdef __cplusplus
extern "C" {
#endif

/* What is lent at most. At least one entry and one literal word are lent. */
#define ZAHRUBEL_MOST_ENTRIES 1024
#define ZAHRUBEL_MOST_WORDS 8192
#define ZAHRUBEL_MOST_VARIABLES 2048
/* A model buffer always has this many words: variable v is bit (v - 1) % 64 of word (v - 1) / 64. */
#define ZAHRUBEL_MODEL_WORDS 32
/* A frame has 1 to this many words. */
#define ZAHRUBEL_LONGEST_FRAME 4096
/* The frame of a text's clause has at most this many words: ADD, the id and 256 literals. */
#define ZAHRUBEL_LONGEST_ADD 258
/* A line has at most this many digits, eight a word. */
#define ZAHRUBEL_MOST_DIGITS 32768
/* An answer to a line has code, detail and the end of the line; after an accepted SAT, eight bytes more for each true variable. */
#define ZAHRUBEL_SHORTEST_ANSWER 17
#define ZAHRUBEL_LONGEST_ANSWER 16401
/* No call takes more stack. A thread under musl has less by default. */
#define ZAHRUBEL_STACK_BYTES 196608

/* Word 0 of a frame. */
enum zahrubel_operation {
    ZAHRUBEL_ADD = 1,
    ZAHRUBEL_LEARN = 2,
    ZAHRUBEL_FORGET = 3,
    ZAHRUBEL_PROMOTE = 4,
    ZAHRUBEL_DROP = 5,
    ZAHRUBEL_WEAKEN = 6,
    ZAHRUBEL_RESTORE = 7,
    ZAHRUBEL_SAT = 8,
    ZAHRUBEL_UNSAT = 9
};

/* The code of an answer, and what its detail is. */
enum zahrubel_code {
    ZAHRUBEL_ACCEPTED = 0,          /* after SAT the number of variables changed, else 0 */
    ZAHRUBEL_NO_STATE = 1,          /* the tables are no state, or a lent size is out of range: 0 */
    ZAHRUBEL_NO_FRAME = 2,          /* empty, too long, unknown operation, wrong count, an id that is not positive: 0 */
    ZAHRUBEL_BAD_LITERAL = 3,       /* a literal or variable out of range or repeated, true variables that do not rise: index of the first such word */
    ZAHRUBEL_BAD_ID = 4,            /* not new, or names no clause of that place: the id */
    ZAHRUBEL_NOT_CLEAN = 5,         /* id of the topmost offending record */
    ZAHRUBEL_BAD_WITNESS = 6,       /* it has no literal of the clause: 0 */
    ZAHRUBEL_BAD_HINT = 7,          /* its word index */
    ZAHRUBEL_HINTS_USED_UP = 8,     /* in WEAKEN the id of the clause whose group it is, else 0 */
    ZAHRUBEL_BAD_GROUP = 9,         /* missing or wrong: index of that word */
    ZAHRUBEL_FALSE_CLAUSE = 10,     /* the model falsifies an irredundant clause: the least such id */
    ZAHRUBEL_FALSE_ASSUMPTION = 11, /* the model falsifies it: its word index */
    ZAHRUBEL_NO_ENTRY = 12,         /* none is free: 0; of a proof the line, from 1, or 0 where the rules have no room */
    ZAHRUBEL_NO_WORDS = 13,         /* not enough literal words are free: the same */
    /* The faults of a text: the byte, from 0, where the first faulty word starts. */
    ZAHRUBEL_NO_PROBLEM_LINE = 21,     /* the word found instead; the text's length where there is none */
    ZAHRUBEL_SECOND_PROBLEM_LINE = 22, /* its p */
    ZAHRUBEL_MALFORMED_WORD = 23,      /* any other; where the problem line is cut short the text's next word, or its length */
    ZAHRUBEL_PAST_DECLARED = 24,       /* a literal past the declared count */
    ZAHRUBEL_VARIABLE_TWICE = 25,      /* a variable twice in a clause: the second time */
    ZAHRUBEL_LONG_CLAUSE = 26,         /* over 256 literals: the 257th */
    ZAHRUBEL_VARS_OUT_OF_RANGE = 27,   /* the declared count is outside 1 to ZAHRUBEL_MOST_VARIABLES */
    ZAHRUBEL_UNCLOSED_CLAUSE = 28,     /* the text's length */
    ZAHRUBEL_WRONG_CLAUSE_COUNT = 29,  /* the text's length */
    /* What a proof is refused for: the line, from 1. Of one line the first of these counts, with 12 and 13 before 37. */
    ZAHRUBEL_MALFORMED_LINE = 31, /* no addition and no deletion */
    ZAHRUBEL_PAST_RULES = 32,     /* a literal past the count that the rules declare */
    ZAHRUBEL_BAD_CLAUSE = 33,     /* a variable twice, or over 256 literals */
    ZAHRUBEL_ID_NOT_ABOVE = 34,   /* an added id that is not above those of the rules and all added before */
    ZAHRUBEL_ID_NOT_HELD = 35,    /* a deleted id that is not held */
    ZAHRUBEL_NEGATIVE_HINT = 36,  /* read or not */
    ZAHRUBEL_FAILED_PROOF = 37,   /* a hint that is read is not held, has a true literal or two open ones, or the hints are used up */
    ZAHRUBEL_NO_EMPTY_CLAUSE = 38 /* the proof ends without one: how many lines it has */
};

/* The place of a clause. Any other number is no state. */
#define ZAHRUBEL_IRREDUNDANT 0
#define ZAHRUBEL_LEARNED 1
#define ZAHRUBEL_STACKED 2

/* The entry of a clause: its literals are `length` words of the pool from `start` on; the `witness` literals of a stacked clause follow them. */
struct zahrubel_entry {
    uint32_t id;
    uint32_t place;
    uint32_t start;
    uint32_t length;
    uint32_t witness;
};

/* What the caller carries from call to call: V; the highest id accepted; how many entries are held, at the front of the table; how many
 * literals and witness literals they have; how many ids are on the stack, which `stack` lists from bottom to top. */
struct zahrubel_carried {
    uint32_t vars;
    uint32_t highest;
    uint32_t count;
    uint32_t words;
    uint32_t depth;
    uint32_t stack[ZAHRUBEL_MOST_ENTRIES];
};

/* One of the codes above, 0 for an acceptance and 1 to 13 for a refusal, 21 to 29 for a faulty text, 31 to 38 for a faulty proof, and its detail. */
struct zahrubel_answer {
    uint64_t code;
    uint64_t detail;
};

/* What is read of a line that is not closed yet; all zero: nothing. The words of the line lie in the frame buffer, so both go from call to call.
 * `spoilt` is 0 for no and anything else for yes, and is written back as 0 or 1. */
struct zahrubel_reader {
    uint64_t digits;
    uint64_t word;
    uint64_t spoilt;
};

/* How many bytes of a part were taken, and how many bytes of answers stand in the out buffer. */
struct zahrubel_given {
    uint64_t taken;
    uint64_t written;
};

/* Some words of the pool, where they lie: `length` of them, from `pool + start` on. They are inside the pool, whatever the entry says. */
struct zahrubel_part {
    uint64_t start;
    uint64_t length;
};

/* What a text without fault has: V, and so many clauses. */
struct zahrubel_cnf {
    uint64_t vars;
    uint64_t clauses;
};

/* How far the clauses of a text are handed out: behind the one with this id, which ends at this byte; all zero: none is yet. */
struct zahrubel_cursor {
    size_t at;
    uint64_t id;
};

/* What is read of a proof that is given in parts. zahrubel_lrat_open sets it. Any bits may stand in it: what is no reading is refused 1. A reading has `count`
 * literals, at most 256, each of a variable from 1 to ZAHRUBEL_MOST_VARIABLES, and 31 or more in `noted`. */
struct zahrubel_proof {
    uint64_t lines; /* closed so far; once the answer is known, its line */
    uint64_t value;
    uint32_t kind;
    uint32_t minus;
    uint32_t phase;
    uint32_t noted;
    uint32_t id;
    uint32_t count;
    uint32_t proof;
    uint32_t over; /* not 0: the answer is known, and no further byte is read */
    uint32_t code; /* then: its code */
    uint32_t spare;
    int32_t literals[256];
    uint64_t plus[32];
    uint64_t minuses[32];
};

/* Opens for the variables 1 to `vars`. Of the tables only their sizes matter. Accepted, `carried` is the empty state, whatever the tables hold;
 * refused (1 for the sizes, 3 for `vars`), it stays as it was. */
struct zahrubel_answer zahrubel_open(uint32_t vars, const struct zahrubel_entry *entries, size_t entry_count, const int32_t *pool,
                                     size_t pool_words, struct zahrubel_carried *carried);

/* Judges one frame and, if it is accepted, does what it says. A model buffer of another size than ZAHRUBEL_MODEL_WORDS is refused 1, whatever the frame. */
struct zahrubel_answer zahrubel_step(struct zahrubel_entry *entries, size_t entry_count, int32_t *pool, size_t pool_words,
                                     struct zahrubel_carried *carried, const int32_t *frame, size_t frame_words, uint64_t *model,
                                     size_t model_words);

/* Gives a part of the line input, of any bytes, some or none. It takes as many of them as the out buffer has room for the answers to: before each
 * byte taken there was room for one more longest answer. The answers to the lines closed stand in the out buffer; bytes behind them stay. Code 0;
 * or 1 where the tables are no state, lent sizes are out of range, the reader has more than ZAHRUBEL_MOST_DIGITS digits, the frame buffer has fewer
 * than ZAHRUBEL_LONGEST_FRAME words or the out buffer fewer than ZAHRUBEL_LONGEST_ANSWER bytes: then nothing is taken and nothing is written. Where
 * no line of the bytes taken was an accepted change, entries, pool and what is carried stay word for word. */
struct zahrubel_answer zahrubel_give(struct zahrubel_entry *entries, size_t entry_count, int32_t *pool, size_t pool_words,
                                     struct zahrubel_carried *carried, struct zahrubel_reader *reader, int32_t *frame, size_t frame_words,
                                     const uint8_t *part, size_t part_bytes, uint8_t *out, size_t out_bytes, struct zahrubel_given *given);

/* The end of the line input: a line that is begun and not closed is answered 2. `written` is the number of bytes written. Code 0; or 1 where the
 * reader has more than ZAHRUBEL_MOST_DIGITS digits or the out buffer fewer than ZAHRUBEL_SHORTEST_ANSWER bytes: then nothing is written. */
struct zahrubel_answer zahrubel_end(const struct zahrubel_reader *reader, uint8_t *out, size_t out_bytes, uint64_t *written);

/* The literals of the clause that entry i holds, and of its witness: a part of the pool, no copy. Past the table's end there is no word, past the
 * pool's end what there is of it. */
struct zahrubel_part zahrubel_clause(const struct zahrubel_entry *entries, size_t entry_count, const int32_t *pool, size_t pool_words, size_t i);
struct zahrubel_part zahrubel_witness(const struct zahrubel_entry *entries, size_t entry_count, const int32_t *pool, size_t pool_words, size_t i);

/* Judges rules as DIMACS text, of any bytes. Code 0 and detail 0, and V and the number of clauses stand in `cnf`; or the code of the first fault, 21 to
 * 29, with its byte, and `cnf` stays as it was. */
struct zahrubel_answer zahrubel_dimacs_judge(const uint8_t *text, size_t text_bytes, struct zahrubel_cnf *cnf);

/* Hands out the next clause of a text as a frame: ADD, the id, the literals; ids are 1, 2, 3 and so on in the text's order. Code 0 and the number of its
 * words: it stands at the front of the frame buffer, words behind it stay, and the cursor has moved. Else neither is written: 0 and 0 where no clause is
 * left; 1 and 0 where the buffer has fewer than ZAHRUBEL_LONGEST_ADD words; 21 to 29 and the byte where the text has a fault: the first call judges all of
 * it, so a faulty text yields no frame; 4 and 2147483648 where no id is left. The text is the same from call to call: behind the cursor of another, or one
 * that is made up, the clause that stands there is handed out, or none. */
struct zahrubel_answer zahrubel_dimacs_next(const uint8_t *text, size_t text_bytes, struct zahrubel_cursor *cursor, int32_t *frame, size_t frame_words);

/* Checks a proof, as LRAT text, against rules, as DIMACS text, both whole and of any bytes. Code 0 and detail 0: every line up to the first empty clause
 * passed, and one was reached, so no assignment satisfies the rules. Else 1 and 0 where lent sizes are out of range; 21 to 29 and the byte where the rules have
 * a fault; 12 or 13 and 0 where there is no room for the rules; 12, 13 or 31 to 38 and the line of the proof. By 1 and by 21 to 29 nothing is written. By any
 * other answer the tables are left opened empty for the rules' V: `carried` says so, and the pool was used. Of the entries only their number matters. */
struct zahrubel_answer zahrubel_lrat_check(const struct zahrubel_entry *entries, size_t entry_count, int32_t *pool, size_t pool_words,
                                           struct zahrubel_carried *carried, const uint8_t *cnf, size_t cnf_bytes, const uint8_t *proof,
                                           size_t proof_bytes);

/* The same with a proof of any length in parts. Opening answers of the rules as zahrubel_lrat_check does. Code 0 and detail 0: the tables hold the rules, and
 * `proof` is set to nothing read. By 12 and 13 the tables are opened empty; by 1 and 21 to 29 nothing is written. */
struct zahrubel_answer zahrubel_lrat_open(struct zahrubel_entry *entries, size_t entry_count, int32_t *pool, size_t pool_words,
                                          struct zahrubel_carried *carried, struct zahrubel_proof *proof, const uint8_t *cnf, size_t cnf_bytes);

/* Gives a part of the proof, of any bytes, some or none; where `last` is not 0 the proof ends with it. Tables, `carried` and `proof` are those of the call
 * before. Code 0 and detail 0: nothing is refused so far; where `over` is not 0 then, the proof is accepted. 12, 13 or 31 to 38 and the line: it is refused,
 * and `over` is not 0. It is over after the last part at the latest; then the tables are empty, and every further call tells the same and writes nothing.
 * Code 1 and 0: the tables are no state, lent sizes are out of range, or `proof` is no reading; nothing is written. */
struct zahrubel_answer zahrubel_lrat_give(struct zahrubel_entry *entries, size_t entry_count, int32_t *pool, size_t pool_words,
                                          struct zahrubel_carried *carried, struct zahrubel_proof *proof, const uint8_t *part, size_t part_bytes,
                                          uint32_t last);

#ifdef __cplusplus
}
#endif

#endif

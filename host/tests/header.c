/* The header as a C host uses it: its layout, document 01's worked example, by frames and by lines, rules as DIMACS text, and a proof. */
#include <assert.h>
#include <stdio.h>
#include <string.h>

#include "zahrubel.h"

_Static_assert(sizeof(struct zahrubel_entry) == 20, "five words");
_Static_assert(offsetof(struct zahrubel_entry, witness) == 16, "the fifth");
_Static_assert(sizeof(struct zahrubel_carried) == 4 * 1029, "five words and the stack");
_Static_assert(offsetof(struct zahrubel_carried, stack) == 20, "behind the five");
_Static_assert(sizeof(struct zahrubel_answer) == 16, "two words of 64 bits");
_Static_assert(sizeof(struct zahrubel_reader) == 24, "three words of 64 bits");
_Static_assert(offsetof(struct zahrubel_reader, spoilt) == 16, "the third");
_Static_assert(sizeof(struct zahrubel_given) == 16, "two words of 64 bits");
_Static_assert(sizeof(struct zahrubel_part) == 16, "a start and a length");
_Static_assert(sizeof(struct zahrubel_cnf) == 16, "two words of 64 bits");
_Static_assert(offsetof(struct zahrubel_cnf, clauses) == 8, "the second");
_Static_assert(sizeof(struct zahrubel_cursor) == 16, "a size and a word of 64 bits");
_Static_assert(offsetof(struct zahrubel_cursor, id) == 8, "the second");
_Static_assert(sizeof(struct zahrubel_proof) == 1592, "199 words of 64 bits");
_Static_assert(offsetof(struct zahrubel_proof, over) == 44, "behind two words of 64 bits and seven of 32");
_Static_assert(offsetof(struct zahrubel_proof, literals) == 56, "behind ten of 32");
_Static_assert(offsetof(struct zahrubel_proof, plus) == 1080, "behind 256 literals");
_Static_assert(offsetof(struct zahrubel_proof, minuses) == 1336, "behind 32 of 64 bits");

static struct zahrubel_entry entries[ZAHRUBEL_MOST_ENTRIES];
static int32_t pool[ZAHRUBEL_MOST_WORDS];
static struct zahrubel_carried carried;
static uint64_t model[ZAHRUBEL_MODEL_WORDS];

static void say(const int32_t *frame, size_t words) {
    struct zahrubel_answer answer =
        zahrubel_step(entries, ZAHRUBEL_MOST_ENTRIES, pool, ZAHRUBEL_MOST_WORDS, &carried, frame, words, model, ZAHRUBEL_MODEL_WORDS);
    printf("%d %d\n", (int)answer.code, (int)answer.detail);
}

#define SAY(...)                                       \
    do {                                               \
        const int32_t frame[] = {__VA_ARGS__};         \
        say(frame, sizeof frame / sizeof frame[0]);    \
    } while (0)

static struct zahrubel_reader reader;
static int32_t frame_words[ZAHRUBEL_LONGEST_FRAME];
static uint8_t out[ZAHRUBEL_LONGEST_ANSWER];

/* Gives all of a text, as far as there is room for answers each time. */
static void give(const char *text) {
    size_t bytes = strlen(text);
    while (bytes > 0) {
        struct zahrubel_given given;
        struct zahrubel_answer answer =
            zahrubel_give(entries, ZAHRUBEL_MOST_ENTRIES, pool, ZAHRUBEL_MOST_WORDS, &carried, &reader, frame_words, ZAHRUBEL_LONGEST_FRAME,
                          (const uint8_t *)text, bytes, out, sizeof out, &given);
        assert(answer.code == ZAHRUBEL_ACCEPTED);
        fwrite(out, 1, (size_t)given.written, stdout);
        text += given.taken;
        bytes -= (size_t)given.taken;
    }
}

static void end(void) {
    uint64_t written;
    struct zahrubel_answer answer = zahrubel_end(&reader, out, sizeof out, &written);
    assert(answer.code == ZAHRUBEL_ACCEPTED);
    fwrite(out, 1, (size_t)written, stdout);
}

static void show(const char *name, struct zahrubel_part part) {
    printf("%s", name);
    for (size_t i = 0; i < part.length; i++)
        printf(" %d", (int)pool[part.start + i]);
    printf("\n");
}

static void open_all(void) {
    struct zahrubel_answer opened =
        zahrubel_open(ZAHRUBEL_MOST_VARIABLES, entries, ZAHRUBEL_MOST_ENTRIES, pool, ZAHRUBEL_MOST_WORDS, &carried);
    printf("%d %d\n", (int)opened.code, (int)opened.detail);
}

/* The same by lines, cut within a word, with one more line that is never closed. */
static void by_lines(void) {
    open_all();
    give("00000001000000010000000100000002\n000000060000000100");
    give("00000100000001\n");
    show("clause", zahrubel_clause(entries, ZAHRUBEL_MOST_ENTRIES, pool, ZAHRUBEL_MOST_WORDS, 0));
    show("witness", zahrubel_witness(entries, ZAHRUBEL_MOST_ENTRIES, pool, ZAHRUBEL_MOST_WORDS, 0));
    give("0000000800000000\n0000000100000002ffffffff\n0000000700000001\n0000000100000002ffffffff\n00");
    end();
}

/* A text judged and, if it is sound, said clause by clause to tables that are opened for its V. */
static void by_text(const char *text) {
    const uint8_t *bytes = (const uint8_t *)text;
    struct zahrubel_cnf cnf;
    struct zahrubel_answer answer = zahrubel_dimacs_judge(bytes, strlen(text), &cnf);
    if (answer.code != ZAHRUBEL_ACCEPTED) {
        printf("fault %d, byte %d\n", (int)answer.code, (int)answer.detail);
        return;
    }
    printf("%d variables, %d clauses\n", (int)cnf.vars, (int)cnf.clauses);
    zahrubel_open((uint32_t)cnf.vars, entries, ZAHRUBEL_MOST_ENTRIES, pool, ZAHRUBEL_MOST_WORDS, &carried);
    struct zahrubel_cursor cursor = {0, 0};
    int32_t clause[ZAHRUBEL_LONGEST_ADD];
    for (;;) {
        answer = zahrubel_dimacs_next(bytes, strlen(text), &cursor, clause, ZAHRUBEL_LONGEST_ADD);
        if (answer.code != ZAHRUBEL_ACCEPTED || answer.detail == 0)
            break;
        printf("%d words to byte %d: ", (int)answer.detail, (int)cursor.at);
        say(clause, (size_t)answer.detail);
    }
    printf("%d %d, last id %d\n", (int)answer.code, (int)answer.detail, (int)cursor.id);
}

static void check_proof(const char *rules, const char *proof) {
    struct zahrubel_answer answer =
        zahrubel_lrat_check(entries, ZAHRUBEL_MOST_ENTRIES, pool, ZAHRUBEL_MOST_WORDS, &carried, (const uint8_t *)rules, strlen(rules),
                            (const uint8_t *)proof, strlen(proof));
    printf("proof %d %d, %d variables\n", (int)answer.code, (int)answer.detail, (int)carried.vars);
}

/* The same in two parts: what is told after the first, and at the end. */
static void check_parts(const char *rules, const char *first, const char *rest) {
    struct zahrubel_proof proof;
    struct zahrubel_answer answer =
        zahrubel_lrat_open(entries, ZAHRUBEL_MOST_ENTRIES, pool, ZAHRUBEL_MOST_WORDS, &carried, &proof, (const uint8_t *)rules, strlen(rules));
    assert(answer.code == ZAHRUBEL_ACCEPTED && carried.count == 4);
    const char *const parts[] = {first, rest};
    for (uint32_t last = 0; last < 2; last++) {
        const char *part = parts[last];
        answer = zahrubel_lrat_give(entries, ZAHRUBEL_MOST_ENTRIES, pool, ZAHRUBEL_MOST_WORDS, &carried, &proof, (const uint8_t *)part, strlen(part), last);
        printf("part %d %d, %s\n", (int)answer.code, (int)answer.detail, proof.over ? "over" : "more");
    }
}

/* Rules without a model, and proofs of that. */
static void by_proof(void) {
    const char *rules = "p cnf 2 4\n1 2 0\n1 -2 0\n-1 2 0\n-1 -2 0\n";
    check_proof(rules, "5 1 0 1 2 0\n5 d 1 2 0\n6 0 5 3 4 0\n");
    check_proof(rules, "5 1 0 1 2 0\n6 0 3 5 4 0\n");
    check_parts(rules, "5 1 0 1 2 0\n5 d 1 2", " 0\n6 0 5 3 4 0\n");
    check_parts(rules, "5 1 0 1 2 0\n6 0 3 5 4 0\n", "");
}

int main(void) {
    open_all();
    SAY(1, 1, 1, 2);
    SAY(6, 1, 1, 1);
    SAY(8, 0);
    printf("%d\n", (int)model[0]);
    SAY(1, 2, -1);
    SAY(7, 1);
    SAY(1, 2, -1);
    by_lines();
    by_text("c rules\np cnf 3 3\n1 -2 0\n0 -3 0");
    by_text("p cnf 3 1\n1 -2 4 0\n");
    by_proof();
    return 0;
}

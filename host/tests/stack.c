/* How much stack each exported call takes: it runs on a stack that is painted before, and what is no longer paint was taken. Reads a trace of lines. */
#define _GNU_SOURCE
#include <assert.h>
#include <pthread.h>
#include <stdio.h>
#include <stdlib.h>
#include <string.h>
#include <sys/mman.h>

#include "zahrubel.h"

enum { STACK_BYTES = 1 << 20, PAINT = 0xa5, MOST_INPUT = 1 << 26, MOST_TEXT = 1 << 14, CLAUSES = 3, MOST_PROOF = 1 << 17, STEPS = 3000 };

static struct zahrubel_entry entries[ZAHRUBEL_MOST_ENTRIES];
static int32_t pool[ZAHRUBEL_MOST_WORDS];
static struct zahrubel_carried carried;
static uint64_t model[ZAHRUBEL_MODEL_WORDS];
static struct zahrubel_reader reader;
static int32_t frame[ZAHRUBEL_LONGEST_FRAME];
static uint8_t out[4 * ZAHRUBEL_LONGEST_ANSWER];
static uint8_t *input;
static size_t input_bytes;
static char text[MOST_TEXT];
static char proof[MOST_PROOF];

/* Where the stack stood when the last call was made. */
static const uint8_t *before;
/* What calls came to, so that none is left out. */
static uint64_t came_to;

static void open_all(void) {
    struct zahrubel_answer answer =
        zahrubel_open(ZAHRUBEL_MOST_VARIABLES, entries, ZAHRUBEL_MOST_ENTRIES, pool, ZAHRUBEL_MOST_WORDS, &carried);
    came_to += answer.code;
}

static void end_all(void) {
    uint64_t written;
    came_to += zahrubel_end(&reader, out, sizeof out, &written).code;
}

static void read_held(void) {
    came_to += zahrubel_clause(entries, ZAHRUBEL_MOST_ENTRIES, pool, ZAHRUBEL_MOST_WORDS, 0).start;
    came_to += zahrubel_witness(entries, ZAHRUBEL_MOST_ENTRIES, pool, ZAHRUBEL_MOST_WORDS, 0).start;
}

/* A line's words, as far as they are words. */
static size_t read_words(const uint8_t *line, size_t digits) {
    size_t words = digits / 8 < ZAHRUBEL_LONGEST_FRAME ? digits / 8 : ZAHRUBEL_LONGEST_FRAME;
    for (size_t i = 0; i < words; i++) {
        char word[9] = {0};
        memcpy(word, line + 8 * i, 8);
        frame[i] = (int32_t)(uint32_t)strtoul(word, NULL, 16);
    }
    return words;
}

static void step_all(void) {
    for (size_t at = 0; at < input_bytes;) {
        const uint8_t *line = input + at;
        const uint8_t *stop = memchr(line, '\n', input_bytes - at);
        size_t digits = stop ? (size_t)(stop - line) : input_bytes - at;
        size_t words = read_words(line, digits);
        struct zahrubel_answer answer =
            zahrubel_step(entries, ZAHRUBEL_MOST_ENTRIES, pool, ZAHRUBEL_MOST_WORDS, &carried, frame, words, model, ZAHRUBEL_MODEL_WORDS);
        came_to += answer.code;
        at += digits + 1;
    }
}

static void give_all(void) {
    for (size_t at = 0; at < input_bytes;) {
        struct zahrubel_given given;
        struct zahrubel_answer answer =
            zahrubel_give(entries, ZAHRUBEL_MOST_ENTRIES, pool, ZAHRUBEL_MOST_WORDS, &carried, &reader, frame, ZAHRUBEL_LONGEST_FRAME, input + at,
                          input_bytes - at, out, sizeof out, &given);
        assert(answer.code == ZAHRUBEL_ACCEPTED);
        at += (size_t)given.taken;
    }
}

/* Clauses of 256 literals over all variables. */
static void write_text(void) {
    size_t at = (size_t)sprintf(text, "c long clauses\np cnf %d %d\n", ZAHRUBEL_MOST_VARIABLES, CLAUSES);
    for (int clause = 0; clause < CLAUSES; clause++) {
        for (int variable = 1; variable < ZAHRUBEL_MOST_VARIABLES; variable += 8)
            at += (size_t)sprintf(text + at, "-%d ", variable + clause);
        at += (size_t)sprintf(text + at, "0\n");
    }
    assert(at < MOST_TEXT);
}

static void judge_text(void) {
    struct zahrubel_cnf cnf;
    struct zahrubel_answer answer = zahrubel_dimacs_judge((const uint8_t *)text, strlen(text), &cnf);
    assert(answer.code == ZAHRUBEL_ACCEPTED && cnf.clauses == CLAUSES);
}

static void read_text(void) {
    struct zahrubel_cursor cursor = {0, 0};
    struct zahrubel_answer answer;
    do {
        answer = zahrubel_dimacs_next((const uint8_t *)text, strlen(text), &cursor, frame, ZAHRUBEL_LONGEST_ADD);
    } while (answer.detail > 0);
    assert(answer.code == ZAHRUBEL_ACCEPTED && cursor.id == CLAUSES);
}

/* Rules without a model, and a proof whose additions and deletions use all room again. */
static const char rules[] = "p cnf 2 4\n1 2 0\n1 -2 0\n-1 2 0\n-1 -2 0\n";

static void write_proof(void) {
    size_t at = 0;
    for (int id = 5; id < 5 + STEPS; id++)
        at += (size_t)sprintf(proof + at, "%d 1 0 1 2 0\n%d d %d 0\n", id, id, id);
    at += (size_t)sprintf(proof + at, "%d 2 0 3 1 0\n%d 0 %d 2 4 0\n", STEPS + 5, STEPS + 6, STEPS + 5);
    assert(at < MOST_PROOF);
}

static void check_proof(void) {
    struct zahrubel_answer answer =
        zahrubel_lrat_check(entries, ZAHRUBEL_MOST_ENTRIES, pool, ZAHRUBEL_MOST_WORDS, &carried, (const uint8_t *)rules, strlen(rules),
                            (const uint8_t *)proof, strlen(proof));
    assert(answer.code == ZAHRUBEL_ACCEPTED);
}

static struct zahrubel_proof reading;

static void open_proof(void) {
    struct zahrubel_answer answer =
        zahrubel_lrat_open(entries, ZAHRUBEL_MOST_ENTRIES, pool, ZAHRUBEL_MOST_WORDS, &carried, &reading, (const uint8_t *)rules, strlen(rules));
    assert(answer.code == ZAHRUBEL_ACCEPTED);
}

static void give_proof(void) {
    struct zahrubel_answer answer =
        zahrubel_lrat_give(entries, ZAHRUBEL_MOST_ENTRIES, pool, ZAHRUBEL_MOST_WORDS, &carried, &reading, (const uint8_t *)proof, strlen(proof), 1);
    assert(answer.code == ZAHRUBEL_ACCEPTED && reading.over);
}

struct trial {
    const char *name;
    void (*run)(void);
};

static void *on_painted(void *argument) {
    const struct trial *trial = argument;
    before = __builtin_frame_address(0);
    trial->run();
    return NULL;
}

/* Runs the calls on a painted stack and says how far down they went. */
static void try(const struct trial *trial) {
    uint8_t *stack = mmap(NULL, STACK_BYTES, PROT_READ | PROT_WRITE, MAP_PRIVATE | MAP_ANONYMOUS, -1, 0);
    assert(stack != MAP_FAILED);
    memset(stack, PAINT, STACK_BYTES);
    pthread_attr_t attributes;
    pthread_t thread;
    int failed = pthread_attr_init(&attributes) || pthread_attr_setstack(&attributes, stack, STACK_BYTES) ||
                 pthread_create(&thread, &attributes, on_painted, (void *)trial) || pthread_join(thread, NULL);
    assert(!failed);
    const uint8_t *lowest = stack;
    while (*lowest == PAINT)
        lowest++;
    printf("%s %zu\n", trial->name, (size_t)(before - lowest));
    munmap(stack, STACK_BYTES);
}

int main(void) {
    input = malloc(MOST_INPUT);
    assert(input);
    input_bytes = fread(input, 1, MOST_INPUT, stdin);
    write_text();
    write_proof();
    /* The first call also finds memcpy and memset, which a program does once. */
    const struct trial trials[] = {{"the first call", open_all}, {"open", open_all}, {"step", step_all}, {"open", open_all},
                                   {"give", give_all},           {"end", end_all},   {"reading", read_held},
                                   {"judging", judge_text},      {"frames", read_text}, {"a proof", check_proof},
                                   {"rules of a proof", open_proof}, {"a proof in parts", give_proof},
    };
    for (size_t i = 0; i < sizeof trials / sizeof trials[0]; i++)
        try(&trials[i]);
    return came_to == 0;
}

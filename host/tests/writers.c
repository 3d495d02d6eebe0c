/* The writers of frames, tried: reads cases as decimal numbers, writes each frame as its line, or `none`. Then what each code says. */
#include <assert.h>
#include <stdio.h>
#include <stdlib.h>
#include <string.h>

#include "zahrubel_frames.h"

enum { MOST_WORDS = 5000, KEPT = 0x5a };

/* A list of a case. */
struct list {
    int32_t words[MOST_WORDS];
    size_t count;
};

static struct list first, second;
static int32_t frame[MOST_WORDS], kept[MOST_WORDS];
static char line[ZAHRUBEL_LONGEST_LINE + 1];

/* The next number; at the end of the input there is none. */
static int next_number(long *number) { return scanf("%ld", number) == 1; }

static long number(void) {
    long read;
    int is_there = next_number(&read);
    assert(is_there);
    return read;
}

static void read_list(struct list *list) {
    list->count = (size_t)number();
    assert(list->count <= MOST_WORDS);
    for (size_t i = 0; i < list->count; i++)
        list->words[i] = (int32_t)number();
}

static size_t write_frame(size_t room, long operation, int32_t id) {
    switch (operation) {
    case ZAHRUBEL_ADD:
        return zahrubel_write_add(frame, room, id, first.words, first.count);
    case ZAHRUBEL_LEARN:
        return zahrubel_write_learn(frame, room, id, first.words, first.count, second.words, second.count);
    case ZAHRUBEL_FORGET:
        return zahrubel_write_forget(frame, room, id);
    case ZAHRUBEL_PROMOTE:
        return zahrubel_write_promote(frame, room, id);
    case ZAHRUBEL_DROP:
        return zahrubel_write_drop(frame, room, id, second.words, second.count);
    case ZAHRUBEL_WEAKEN:
        return zahrubel_write_weaken(frame, room, id, first.words, first.count);
    case ZAHRUBEL_RESTORE:
        return zahrubel_write_restore(frame, room, id);
    case ZAHRUBEL_SAT:
        return zahrubel_write_sat(frame, room, first.words, first.count, second.words, second.count);
    default:
        return zahrubel_write_unsat(frame, room, first.words, first.count, second.words, second.count);
    }
}

/* Behind what a writer says that the frame has, no word is written. */
static void check_kept(size_t words) {
    assert(memcmp(frame + words, kept + words, sizeof frame - words * sizeof frame[0]) == 0);
}

/* A line has room for what it has, and not for one byte less; behind it no byte is written. */
static void print_frame(size_t words) {
    size_t bytes = 8 * words + 1;
    memset(line, KEPT, sizeof line);
    size_t too_few = zahrubel_print_line(line, bytes - 1, frame, words);
    assert(too_few == 0 && line[0] == KEPT);
    size_t written = zahrubel_print_line(line, bytes, frame, words);
    assert(written == (words == 0 ? 0 : bytes));
    assert(line[written] == KEPT);
    if (written == 0)
        puts("none");
    else
        fwrite(line, 1, written, stdout);
}

/* A case: room, operation, id, two lists, and how many groups, each an id and a list. */
static void try_case(size_t room) {
    memset(frame, KEPT, sizeof frame);
    memset(kept, KEPT, sizeof kept);
    long operation = number();
    int32_t id = (int32_t)number();
    read_list(&first);
    read_list(&second);
    size_t words = write_frame(room, operation, id);
    check_kept(words);
    for (long groups = number(); groups > 0; groups--) {
        int32_t other = (int32_t)number();
        read_list(&second);
        size_t longer = zahrubel_write_group(frame, room, words, other, second.words, second.count);
        check_kept(longer ? longer : words);
        memcpy(kept, frame, sizeof kept);
        words = longer;
    }
    print_frame(words);
}

/* What no case reaches: counts so large that a sum would wrap, a group behind another frame, frames that are too long for a line. */
static void try_wrong(void) {
    memset(frame, 0, sizeof frame);
    assert(zahrubel_write_drop(frame, MOST_WORDS, 1, first.words, SIZE_MAX) == 0);
    assert(zahrubel_write_learn(frame, MOST_WORDS, 1, first.words, SIZE_MAX, second.words, 3) == 0);
    assert(zahrubel_write_learn(frame, MOST_WORDS, 1, first.words, 1, second.words, SIZE_MAX - 3) == 0);
    assert(zahrubel_write_sat(frame, MOST_WORDS, first.words, SIZE_MAX, second.words, 3) == 0);
    assert(zahrubel_write_unsat(frame, MOST_WORDS, first.words, 1, second.words, SIZE_MAX - 2) == 0);
    assert(zahrubel_write_restore(frame, 0, 1) == 0);
    assert(frame[0] == 0);
    size_t words = zahrubel_write_restore(frame, MOST_WORDS, 1);
    assert(words == 2 && zahrubel_write_group(frame, MOST_WORDS, words, 2, NULL, 0) == 0);
    words = zahrubel_write_weaken(frame, MOST_WORDS, 1, first.words, 1);
    assert(words == 4 && zahrubel_write_group(frame, MOST_WORDS, words, 0, NULL, 0) == 0);
    assert(zahrubel_write_group(frame, MOST_WORDS, words, 2, first.words, SIZE_MAX - 1) == 0);
    assert(zahrubel_write_group(frame, MOST_WORDS, SIZE_MAX, 2, first.words, 1) == 0);
    assert(zahrubel_print_line(line, sizeof line, frame, ZAHRUBEL_LONGEST_FRAME + 1) == 0);
    assert(zahrubel_print_line(line, SIZE_MAX, frame, SIZE_MAX / 8 + 1) == 0);
}

int main(void) {
    try_wrong();
    long room;
    while (next_number(&room))
        try_case((size_t)room);
    for (uint64_t code = 0; code < 41; code++)
        puts(zahrubel_code_name(code));
    assert(strcmp(zahrubel_code_name(UINT64_MAX), "no answer") == 0);
    return 0;
}

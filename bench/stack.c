/*
 * How much stack a call takes. It runs on a stack of its own that holds one value everywhere;
 * whatever differs afterwards was written. Reads request lines (tests/README.md): `phone-check
 * BYTES` and `check BYTES none` are checks, `check BYTES ROOM` checks with a lent table, `entry
 * BYTES N` reads an entry, `fill DRAFT SLOT SIGNATURE` fills a slot, and `merge` and `phone-merge
 * FIRST SECOND ROOM` merge, and `upload STORE PIECE ..` hands over pieces and ends. Prints for each call and each answer, those that are done by type, how
 * many there were and the most bytes that were written below the caller's frame, the return
 * address with them; and behind them the most of each call.
 */
#define _GNU_SOURCE
#include "cellfacet.h"

#include <stdio.h>
#include <stdlib.h>
#include <string.h>
#include <ucontext.h>

enum { STACK = 1 << 17, TYPES = 5, ANSWERS = TYPES + 22, WORDS = 4, NUMBERS = 23, ID = 32 };

/* The calls; the table's, of the library `operator`, and those of `test_exports` are in no header. */
typedef uint64_t check_call(const uint8_t *bytes, size_t length);
typedef uint64_t table_call(const uint8_t *bytes, size_t length, uint32_t *table, size_t room);
typedef void entry_call(const uint8_t *bytes, size_t length, uint64_t n, uint64_t *numbers,
                        size_t numbers_room, uint8_t *asset, size_t asset_room, uint8_t *txid,
                        size_t txid_room);
typedef void fill_call(uint8_t *draft, size_t length, uint64_t slot, const uint8_t *signature,
                       size_t signature_length, uint64_t *answer);
typedef uint64_t merge_call(const uint8_t *first, size_t first_length, const uint8_t *second,
                            size_t second_length, uint8_t *output, size_t room);
typedef uint64_t piece_call(uint64_t *state, uint8_t *store, size_t room, const uint8_t *piece,
                            size_t length);
typedef uint64_t end_call(const uint64_t *state, const uint8_t *store, size_t room);
table_call cellfacet_rows;
entry_call cellfacet_test_entry;
fill_call cellfacet_test_fill;

static unsigned char stack[STACK] __attribute__((aligned(16)));
static ucontext_t caller, callee;
/* Where the stack of a called function begins. */
static unsigned char *top;

/* What is asked, and the answer's number. */
static uint8_t *bytes, *second, *output;
static size_t length, second_length, room;
static uint32_t *table;
static uint64_t n;
static uint64_t number;
/* An upload's state, which a call leaves in `next`. */
static uint64_t state[2], next[2];

/* Each stands in for a call and finds the top: a saved frame pointer and the return address lie
 * between. */
#define FIND_TOP (top = (unsigned char *)__builtin_frame_address(0) + 16)
#define UNUSED __attribute__((unused))

static __attribute__((noinline)) uint64_t check_top(UNUSED const uint8_t *b, UNUSED size_t l)
{
    FIND_TOP;
    return 0;
}

static __attribute__((noinline)) uint64_t table_top(UNUSED const uint8_t *b, UNUSED size_t l,
                                                    UNUSED uint32_t *t, UNUSED size_t r)
{
    FIND_TOP;
    return 0;
}

static __attribute__((noinline)) void entry_top(UNUSED const uint8_t *b, UNUSED size_t l,
                                                UNUSED uint64_t m, UNUSED uint64_t *numbers,
                                                UNUSED size_t numbers_room,
                                                UNUSED uint8_t *asset, UNUSED size_t asset_room,
                                                UNUSED uint8_t *txid, UNUSED size_t txid_room)
{
    FIND_TOP;
}

static __attribute__((noinline)) void fill_top(UNUSED uint8_t *d, UNUSED size_t l,
                                               UNUSED uint64_t slot, UNUSED const uint8_t *s,
                                               UNUSED size_t s_length, UNUSED uint64_t *answer)
{
    FIND_TOP;
}

static __attribute__((noinline)) uint64_t merge_top(UNUSED const uint8_t *a, UNUSED size_t l,
                                                    UNUSED const uint8_t *b, UNUSED size_t m,
                                                    UNUSED uint8_t *o, UNUSED size_t r)
{
    FIND_TOP;
    return 0;
}

static __attribute__((noinline)) uint64_t piece_top(UNUSED uint64_t *u, UNUSED uint8_t *s,
                                                    UNUSED size_t r, UNUSED const uint8_t *p,
                                                    UNUSED size_t l)
{
    FIND_TOP;
    return 0;
}

static __attribute__((noinline)) uint64_t end_top(UNUSED const uint64_t *u, UNUSED const uint8_t *s,
                                                  UNUSED size_t r)
{
    FIND_TOP;
    return 0;
}

static check_call *volatile called_check;
static table_call *volatile called_table;
static entry_call *volatile called_entry;
static fill_call *volatile called_fill;
static merge_call *volatile called_merge;
static piece_call *volatile called_piece;
static end_call *volatile called_end;

static void run_check(void)
{
    number = cellfacet_number(called_check(bytes, length));
    swapcontext(&callee, &caller);
}

static void run_table(void)
{
    number = called_table(bytes, length, table, room) >> 32;
    swapcontext(&callee, &caller);
}

static void run_entry(void)
{
    static uint64_t numbers[NUMBERS];
    static uint8_t asset[ID], txid[ID];
    called_entry(bytes, length, n, numbers, NUMBERS, asset, ID, txid, ID);
    number = numbers[0];
    swapcontext(&callee, &caller);
}

static void run_fill(void)
{
    static uint64_t answer[2];
    called_fill(bytes, length, n, second, second_length, answer);
    number = answer[0];
    swapcontext(&callee, &caller);
}

static void run_merge(void)
{
    number = cellfacet_number(called_merge(bytes, length, second, second_length, output, room));
    swapcontext(&callee, &caller);
}

/* A call is made more than once, each time with the same state: a piece that is stored again
 * leaves the same store. */
static void run_piece(void)
{
    memcpy(next, state, sizeof next);
    number = cellfacet_number(called_piece(next, bytes, room, second, second_length));
    swapcontext(&callee, &caller);
}

static void run_end(void)
{
    number = cellfacet_number(called_end(state, bytes, room));
    swapcontext(&callee, &caller);
}

enum { CHECK, TABLE, ENTRY, FILL, MERGE, PIECE, END, CALLS };
static const char *const names[CALLS] = {"check", "check with a table", "entry", "fill",
                                         "merge", "piece",              "end"};
static void (*const runs[CALLS])(void) = {run_check, run_table, run_entry, run_fill,
                                          run_merge, run_piece, run_end};

/* Whether the calls are made, or what stands in for them. */
static void call_tops(int tops)
{
    called_check = tops ? check_top : cellfacet_check;
    called_table = tops ? table_top : cellfacet_rows;
    called_entry = tops ? entry_top : cellfacet_test_entry;
    called_fill = tops ? fill_top : cellfacet_test_fill;
    called_merge = tops ? merge_top : cellfacet_merge;
    called_piece = tops ? piece_top : cellfacet_upload_piece;
    called_end = tops ? end_top : cellfacet_upload_end;
}

/* The place of the lowest byte that differs from `filled`, after a call. */
static unsigned char *lowest(int call, int filled)
{
    memset(stack, filled, STACK);
    getcontext(&callee);
    callee.uc_stack.ss_sp = stack;
    callee.uc_stack.ss_size = STACK;
    callee.uc_link = NULL;
    makecontext(&callee, runs[call], 0);
    swapcontext(&caller, &callee);
    unsigned char *free = stack;
    while (*free == filled)
        free++;
    return free;
}

/* The bytes that a call writes below the top. */
static size_t taken(int call)
{
    call_tops(1);
    lowest(call, 0);
    call_tops(0);
    /* A byte that is written with the value that was there shows with another one. */
    unsigned char *a = lowest(call, 0xa5), *b = lowest(call, 0x5a);
    return (size_t)(top - (a < b ? a : b));
}

static unsigned digit(char c)
{
    return (unsigned)(c <= '9' ? c - '0' : c - 'a' + 10);
}

/* Decodes hex in place: two digits stand where their byte goes. `-` is no byte. */
static size_t decoded(char *hex)
{
    size_t count = strcmp(hex, "-") == 0 ? 0 : strlen(hex) / 2;
    for (size_t i = 0; i < count; i++)
        hex[i] = (char)(digit(hex[2 * i]) * 16 + digit(hex[2 * i + 1]));
    return count;
}

static int is(const char *word, const char *name)
{
    return strcmp(word, name) == 0;
}

/* The call that two words behind its name ask for, or -1. */
static int asked_one(const char *name, const char *number_word)
{
    n = room = strtoull(number_word, NULL, 10);
    if (is(name, "entry"))
        return ENTRY;
    if (!is(name, "check"))
        return -1;
    if (is(number_word, "none"))
        return CHECK;
    table = realloc(table, (room + 1) * sizeof *table);
    return table != NULL ? TABLE : -1;
}

/* The call that three words behind its name ask for, or -1. */
static int asked_two(char **words)
{
    int merge = is(words[0], "merge") || is(words[0], "phone-merge");
    if (!merge && !is(words[0], "fill"))
        return -1;
    second = (uint8_t *)words[merge ? 2 : 3];
    second_length = decoded((char *)second);
    n = room = strtoull(words[merge ? 3 : 2], NULL, 10);
    if (!merge)
        return FILL;
    output = realloc(output, room + 1);
    return output != NULL ? MERGE : -1;
}

/* The call that a line asks for, or -1. */
static int asked(char *line)
{
    char *words[WORDS] = {NULL};
    size_t count = 0;
    for (char *w = strtok(line, " \n"); w != NULL && count < WORDS; w = strtok(NULL, " \n"))
        words[count++] = w;
    if (count < 2)
        return -1;
    bytes = (uint8_t *)words[1];
    length = decoded(words[1]);
    if (count == 2)
        return is(words[0], "phone-check") ? CHECK : -1;
    return count == 3 ? asked_one(words[0], words[2]) : asked_two(words);
}

static void print(int call, const size_t *count, const size_t *most)
{
    size_t calls = 0, all = 0;
    for (size_t row = 0; row < ANSWERS; row++) {
        calls += count[row];
        all = most[row] > all ? most[row] : all;
        if (count[row] != 0)
            printf(row < TYPES ? "%s, done, type %zu: %zu calls, %zu bytes\n"
                               : "%s, answered %zu: %zu calls, %zu bytes\n",
                   names[call], row < TYPES ? row : row - TYPES, count[row], most[row]);
    }
    printf("%s: %zu calls, at most %zu bytes\n", names[call], calls, all);
}

static size_t count[CALLS][ANSWERS], most[CALLS][ANSWERS];

static void measure(int call)
{
    size_t bytes_taken = taken(call);
    size_t row = number == CELLFACET_ACCEPTED ? bytes[5] : TYPES + number;
    count[call][row]++;
    most[call][row] = bytes_taken > most[call][row] ? bytes_taken : most[call][row];
}

/* Measures each call of an upload, whose words behind its name are in `words`. */
static int measure_upload(char *words)
{
    char *word = strtok(words, " \n");
    if (word == NULL)
        return -1;
    room = strtoull(word, NULL, 10);
    uint8_t *store = bytes = calloc(room + 6, 1);
    if (store == NULL)
        return -1;
    memset(state, 0, sizeof state);
    while ((word = strtok(NULL, " \n")) != NULL) {
        second = (uint8_t *)word;
        second_length = decoded(word);
        measure(PIECE);
        memcpy(state, next, sizeof state);
    }
    measure(END);
    free(store);
    return 0;
}

int main(void)
{
    char *line = NULL;
    size_t line_room = 0;
    while (getline(&line, &line_room, stdin) > 0) {
        int upload = strncmp(line, "upload ", 7) == 0;
        int call = upload ? measure_upload(line + 7) : asked(line);
        if (call < 0)
            return 2;
        if (!upload)
            measure(call);
    }
    for (int call = 0; call < CALLS; call++)
        print(call, count[call], most[call]);
    return 0;
}

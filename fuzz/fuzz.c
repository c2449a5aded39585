/*
 * The proved check, merge and upload against the independent program, in one process. An input is
 *
 *     byte 0      room of each output and of the store: none, one byte too few, just enough, or more
 *     byte 1      how many edits follow; of each 4 bytes: length, place (2), byte
 *     the rest    the first draft
 *
 * and the second draft is the first with these edits; it is uploaded in pieces, cut at the edits'
 * places. Every buffer ends at a page that may not
 * be touched, so that a step over its end is seen in code that no sanitizer looks into.
 */
#include "cellfacet.h"

#include <stdio.h>
#include <stdlib.h>
#include <string.h>
#include <sys/mman.h>
#include <unistd.h>

uint64_t independent_check(const uint8_t *bytes, size_t length);
uint64_t independent_merge(const uint8_t *first, size_t first_length,
                           const uint8_t *second, size_t second_length,
                           uint8_t *out, size_t out_length);
/* Piece n ends at ends[n]; its answer is answers[n], and that of the end call comes last. */
void independent_upload(const uint8_t *bytes, const size_t *ends, size_t pieces,
                        uint8_t *store, size_t store_length, uint64_t *answers);

enum { MOST = 1 << 17, PIECES = 256 };

/* `length` bytes that end where a page begins that may not be touched. */
static uint8_t *guarded(uint8_t **area, size_t length)
{
    if (!*area) {
        size_t page = (size_t)sysconf(_SC_PAGESIZE);
        void *got = mmap(NULL, MOST + page, PROT_READ | PROT_WRITE, MAP_PRIVATE | MAP_ANONYMOUS, -1, 0);
        if (got == MAP_FAILED || mprotect((char *)got + MOST, page, PROT_NONE) != 0)
            abort();
        *area = got;
    }
    return *area + MOST - length;
}

static void differ(const char *what, uint64_t proved, uint64_t independent)
{
    fprintf(stderr, "%s: proved %u at %u, independent %u at %u\n", what,
            (unsigned)cellfacet_number(proved), (unsigned)cellfacet_place(proved),
            (unsigned)cellfacet_number(independent), (unsigned)cellfacet_place(independent));
    abort();
}

static void check(const uint8_t *bytes, size_t length)
{
    uint64_t proved = cellfacet_check(bytes, length), independent = independent_check(bytes, length);
    if (proved != independent)
        differ("check", proved, independent);
}

static void merge(const uint8_t *first, const uint8_t *second, size_t length, size_t room)
{
    static uint8_t *area, *other_area;
    uint8_t *out = guarded(&area, room), *other = guarded(&other_area, room);
    memset(out, 0xa5, room);
    memset(other, 0xa5, room);
    uint64_t proved = cellfacet_merge(first, length, second, length, out, room);
    uint64_t independent = independent_merge(first, length, second, length, other, room);
    if (proved != independent || memcmp(out, other, room) != 0)
        differ("merge", proved, independent);
}

/* Where the pieces end: at each edit's place, or, where that is cut off already, after none. */
static size_t cut(const uint8_t *edits, size_t count, size_t length, size_t *ends)
{
    size_t end = 0;
    for (size_t n = 0; n < count; n++) {
        size_t place = (size_t)edits[4 * n + 1] << 8 | edits[4 * n + 2];
        if (place > end && place < length)
            end = place;
        ends[n] = end;
    }
    ends[count] = length;
    return count + 1;
}

static void upload(const uint8_t *bytes, const size_t *ends, size_t pieces, size_t room)
{
    static uint8_t *area, *other_area;
    static uint64_t proved[PIECES + 1], independent[PIECES + 1];
    uint8_t *store = guarded(&area, room), *other = guarded(&other_area, room);
    uint64_t state[2] = {0, 0};
    memset(store, 0xa5, room);
    memset(other, 0xa5, room);
    for (size_t n = 0, start = 0; n < pieces; start = ends[n++])
        proved[n] = cellfacet_upload_piece(state, store, room, bytes + start, ends[n] - start);
    proved[pieces] = cellfacet_upload_end(state, store, room);
    independent_upload(bytes, ends, pieces, other, room, independent);
    for (size_t n = 0; n <= pieces; n++)
        if (proved[n] != independent[n])
            differ(n < pieces ? "piece" : "end", proved[n], independent[n]);
    if (memcmp(store, other, room) != 0)
        differ("store", proved[pieces], independent[pieces]);
}

int LLVMFuzzerTestOneInput(const uint8_t *data, size_t size)
{
    static uint8_t *area, *other_area;
    static size_t ends[PIECES];
    if (size < 2 || size > MOST || size - 2 < 4u * data[1])
        return 0;
    const uint8_t *edits = data + 2;
    size_t length = size - 2 - 4u * data[1];
    uint8_t *first = guarded(&area, length), *second = guarded(&other_area, length);
    memcpy(first, data + size - length, length);
    memcpy(second, first, length);
    for (const uint8_t *edit = edits; edit < edits + 4u * data[1]; edit += 4) {
        size_t place = (size_t)edit[1] << 8 | edit[2];
        if (place < length)
            memset(second + place, edit[3], edit[0] < length - place ? edit[0] : length - place);
    }
    size_t rooms[] = {0, length > 0 ? length - 1 : 0, length, length < MOST - 9 ? length + 9 : length};

    check(first, length);
    check(second, length);
    merge(first, second, length, rooms[data[0] % 4]);
    merge(second, first, length, rooms[data[0] / 4 % 4]);
    upload(second, ends, cut(edits, data[1], length, ends), rooms[data[0] / 16 % 4]);
    return 0;
}

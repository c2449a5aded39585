/*
 * Checks a transaction, merges two copies of it that two keyholders have signed, and tries to merge
 * two copies that conflict. Build and run it at the root of the repository:
 *
 *     tools/libraries phone &&
 *     gcc -Iinclude examples/phone.c target/staticlib/libphone.a -o target/phone &&
 *     target/phone
 */
#include "cellfacet.h"

#include <stdio.h>
#include <stdlib.h>
#include <string.h>

/* A transaction has at most 65,536 bytes. There is room for one more, so that a longer file is refused. */
struct draft {
    uint8_t bytes[65537];
    size_t length;
};

static void load(struct draft *draft, const char *path)
{
    FILE *file = fopen(path, "rb");
    if (!file) {
        perror(path);
        exit(1);
    }
    draft->length = fread(draft->bytes, 1, sizeof draft->bytes, file);
    fclose(file);
}

static void check(const char *what, const uint8_t *bytes, size_t length)
{
    uint64_t answer = cellfacet_check(bytes, length);
    unsigned number = cellfacet_number(answer), place = cellfacet_place(answer);
    if (number == CELLFACET_ACCEPTED)
        printf("%s: accepted, %u bytes\n", what, place);
    else
        printf("%s: refused by rule %u at byte %u\n", what, number, place);
}

/* Merges both into out, which does not change if the merge is refused. */
static void join(const char *what, const struct draft *first, const struct draft *second, struct draft *out)
{
    uint64_t answer = cellfacet_merge(first->bytes, first->length, second->bytes, second->length,
                                      out->bytes, sizeof out->bytes);
    unsigned number = cellfacet_number(answer), place = cellfacet_place(answer);
    if (number == CELLFACET_DONE) {
        out->length = place;
        printf("%s: joined, %u bytes\n", what, place);
    } else if (number == CELLFACET_CONFLICT) {
        printf("%s: refused, different signatures in slot %u\n", what, place);
    } else {
        printf("%s: refused by rule %u\n", what, number);
    }
}

int main(void)
{
    static struct draft whole, first, second, other, joined, none;
    load(&whole, "tests/data/case-a.tx");
    load(&first, "tests/data/case-a-slot-0.tx");
    load(&second, "tests/data/case-a-slot-1.tx");
    load(&other, "tests/data/case-a-conflict.tx");

    check("signed by both", whole.bytes, whole.length);
    check("last byte missing", whole.bytes, whole.length - 1);
    check("nothing", NULL, 0);

    join("one keyholder's copy and the other's", &first, &second, &joined);
    int same = joined.length == whole.length && memcmp(joined.bytes, whole.bytes, whole.length) == 0;
    printf("the result is%s what both have signed\n", same ? "" : " not");
    join("the result and a copy signed otherwise", &joined, &other, &none);
    return 0;
}

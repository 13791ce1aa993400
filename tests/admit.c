/*
 * A caller of pulgarv_admit: `admit FILE EXPECTED` calls it on the bytes of FILE, whose text must be that of
 * EXPECTED, in places of several lengths; `admit` alone calls it on no bytes, which is also done before FILE.
 * What is not as promised goes to standard error, and the status is then 1.
 */
#include <inttypes.h>
#include <stdio.h>
#include <stdlib.h>
#include <string.h>

#include "pulgarv.h"

enum {
    LARGE = 8192,
    GUARD = 64,     /* bytes before and behind what is lent, to see a write beside it */
    LONGEST = 65536 /* of a file */
};

struct bytes {
    uint8_t *at;
    size_t length;
};

static int failed = 0;

/* No byte of text has its high bit set, so every byte of a text that is written over these is seen. */
static uint8_t pattern(size_t i)
{
    return (uint8_t)(0x80 | (i * 37 + 11));
}

static void *memory(size_t length)
{
    void *at = malloc(length);
    if (at == NULL) {
        fprintf(stderr, "admit: no memory\n");
        exit(1);
    }
    return at;
}

/* A copy of the bytes with a guard on both sides. */
static uint8_t *guarded(const uint8_t *bytes, size_t length)
{
    uint8_t *block = memory(length + 2 * GUARD);
    size_t i;
    for (i = 0; i < length + 2 * GUARD; i++)
        block[i] = pattern(i);
    memcpy(block + GUARD, bytes, length);
    return block;
}

/* Calls on the table with a place of place_len bytes and compares everything that was lent. */
static void call(const char *name, struct bytes table, struct bytes text, size_t place_len)
{
    int fits = place_len >= text.length;
    int64_t wanted = fits ? (int64_t)text.length : -21;
    int64_t answer;
    uint8_t *lent = guarded(table.at, table.length);
    uint8_t *table_before = guarded(table.at, table.length);
    uint8_t *place = memory(place_len + 2 * GUARD);
    size_t i;

    for (i = 0; i < place_len + 2 * GUARD; i++)
        place[i] = pattern(i);
    answer = pulgarv_admit(lent + GUARD, table.length, place + GUARD, place_len);
    if (answer != wanted) {
        fprintf(stderr, "admit: %s: a place of %zu bytes: the answer is %" PRId64 ", not %" PRId64 "\n", name,
                place_len, answer, wanted);
        failed = 1;
    }
    for (i = 0; i < place_len + 2 * GUARD; i++) {
        int in_text = fits && i >= GUARD && i - GUARD < text.length;
        uint8_t due = in_text ? text.at[i - GUARD] : pattern(i);
        if (place[i] != due) {
            fprintf(stderr, "admit: %s: a place of %zu bytes: byte %ld is %d, not the %d %s\n", name, place_len,
                    (long)i - GUARD, place[i], due, in_text ? "of the text" : "that stood there before");
            failed = 1;
            break;
        }
    }
    if (memcmp(lent, table_before, table.length + 2 * GUARD) != 0) {
        fprintf(stderr, "admit: %s: a place of %zu bytes: the table bytes are altered\n", name, place_len);
        failed = 1;
    }
    free(place);
    free(table_before);
    free(lent);
}

/* A large place, one of exactly the length, one that is a byte too short, and one without bytes. */
static void calls(const char *name, struct bytes table, struct bytes text)
{
    call(name, table, text, LARGE);
    call(name, table, text, text.length);
    call(name, table, text, text.length - 1);
    call(name, table, text, 0);
}

static struct bytes read_file(const char *name)
{
    struct bytes content;
    FILE *file = fopen(name, "rb");
    content.at = memory(LONGEST);
    content.length = file == NULL ? 0 : fread(content.at, 1, LONGEST, file);
    if (file == NULL || ferror(file) || content.length == LONGEST) {
        fprintf(stderr, "admit: cannot read %s, or it is too long\n", name);
        exit(1);
    }
    fclose(file);
    return content;
}

static void no_bytes(void)
{
    static uint8_t line[] = "refused 1 byte 0\n";
    struct bytes table, text;
    table.at = line;
    table.length = 0;
    text.at = line;
    text.length = sizeof line - 1;
    calls("no bytes", table, text);
}

int main(int argc, char **argv)
{
    if (argc != 1 && argc != 3) {
        fprintf(stderr, "usage: admit [FILE EXPECTED]\n");
        return 1;
    }
    no_bytes();
    if (argc == 3) {
        struct bytes table = read_file(argv[1]);
        struct bytes text = read_file(argv[2]);
        if (text.length == 0 || text.length > LARGE) {
            fprintf(stderr, "admit: %s is no text of an answer\n", argv[2]);
            failed = 1;
        } else {
            calls(argv[1], table, text);
        }
        free(text.at);
        free(table.at);
    }
    return failed;
}

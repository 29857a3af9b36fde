/* Puts what each row of its input says by the calls of rmp.h, and compares the bytes with those of the row, which msgpack-c wrote. The first put of
 * a row goes into a buffer that is a byte too short, and has to leave it alone and tell the length that it needs.
 */
#include <stdio.h>
#include <stdlib.h>
#include <string.h>

#include "rmp.h"

enum { BEFORE = 3, AFTER = 2, LONGEST = 65536, UNTOUCHED = 0xee };

/* What is put: a number, or how much payload with which type. */
typedef struct {
    char kind[16];
    uint64_t number;
    int8_t tag;
} row;

static uint8_t payload[LONGEST], wanted[LONGEST + 16], found[LONGEST + 16 + BEFORE + AFTER];

static uint32_t put_payload(const row *it, uint8_t *out, size_t room, size_t *at) {
    if (strcmp(it->kind, "str") == 0) {
        return rmp_put_str(out, room, at, payload, it->number);
    }
    if (strcmp(it->kind, "bin") == 0) {
        return rmp_put_bin(out, room, at, payload, it->number);
    }
    return rmp_put_ext(out, room, at, it->tag, payload, it->number);
}

static int has_payload(const row *it) {
    return strcmp(it->kind, "str") == 0 || strcmp(it->kind, "bin") == 0 || strcmp(it->kind, "ext") == 0;
}

static uint32_t put(const row *it, uint8_t *out, size_t room, size_t *at) {
    if (has_payload(it)) {
        return put_payload(it, out, room, at);
    }
    if (strcmp(it->kind, "bool") == 0) {
        return rmp_put_bool(out, room, at, it->number != 0);
    }
    if (strcmp(it->kind, "uint") == 0) {
        return rmp_put_uint(out, room, at, it->number);
    }
    if (strcmp(it->kind, "int") == 0) {
        return rmp_put_int(out, room, at, (int64_t)it->number);
    }
    if (strcmp(it->kind, "f32_bits") == 0) {
        return rmp_put_f32_bits(out, room, at, (uint32_t)it->number);
    }
    if (strcmp(it->kind, "f64_bits") == 0) {
        return rmp_put_f64_bits(out, room, at, it->number);
    }
    if (strcmp(it->kind, "array") == 0) {
        return rmp_put_array(out, room, at, (uint32_t)it->number);
    }
    if (strcmp(it->kind, "map") == 0) {
        return rmp_put_map(out, room, at, (uint32_t)it->number);
    }
    return rmp_put_nil(out, room, at);
}

/* Reads a row: what is put, and the bytes that are wanted, whose length is returned. */
static size_t read_row(char *line, row *it) {
    char *words[4] = {"", "", "", ""};
    int count = 0;
    for (char *word = strtok(line, " \n"); word && count < 4; word = strtok(NULL, " \n")) {
        words[count++] = word;
    }
    snprintf(it->kind, sizeof it->kind, "%s", words[0]);
    it->number = count > 2 ? strtoull(words[1], NULL, strstr(it->kind, "bits") ? 16 : 10) : 0;
    it->tag = count > 3 ? (int8_t)atoi(words[2]) : 0;
    const char *digits = words[count - 1];
    size_t head = strlen(digits) / 2;
    for (size_t i = 0; i < head; i++) {
        unsigned byte = 0;
        sscanf(digits + 2 * i, "%2x", &byte);
        wanted[i] = (uint8_t)byte;
    }
    if (!has_payload(it)) {
        return head;
    }
    memcpy(wanted + head, payload, it->number);
    return head + it->number;
}

static int is_untouched(size_t from, size_t to) {
    for (size_t i = from; i < to; i++) {
        if (found[i] != UNTOUCHED) {
            return 0;
        }
    }
    return 1;
}

/* Whether both puts do what they should. */
static int is_right(const row *it, size_t len) {
    size_t end = BEFORE + len;
    memset(found, UNTOUCHED, sizeof found);
    size_t at = BEFORE;
    if (put(it, found, end - 1, &at) != RMP_TOO_SHORT || at != end || !is_untouched(0, end + AFTER)) {
        return 0;
    }
    at = BEFORE;
    if (put(it, found, end + AFTER, &at) != RMP_OK || at != end || memcmp(found + BEFORE, wanted, len) != 0) {
        return 0;
    }
    return is_untouched(0, BEFORE) && is_untouched(end, end + AFTER);
}

int main(void) {
    char line[256];
    int rows = 0;
    for (size_t i = 0; i < LONGEST; i++) {
        payload[i] = (uint8_t)i;
    }
    while (fgets(line, sizeof line, stdin)) {
        if (line[0] == '#') {
            continue;
        }
        char said[256];
        snprintf(said, sizeof said, "%s", line);
        row it;
        size_t len = read_row(line, &it);
        if (!is_right(&it, len)) {
            fprintf(stderr, "rmp_put_%s writes otherwise than msgpack-c: %s", it.kind, said);
            return 1;
        }
        rows++;
    }
    printf("%d\n", rows);
    return 0;
}

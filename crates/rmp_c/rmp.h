/* Messages of MessagePack, from C and C++: docs/C.md shows these calls. Link librmp_c.a and the kit's c/liblibc_c.a. */
#ifndef RMP_H
#define RMP_H

#include <stdbool.h>
#include <stddef.h>
#include <stdint.h>
#include <string.h>

#ifdef __cplusplus
extern "C" {
#endif

/* What a call returns. */
enum {
    RMP_OK = 0,
    RMP_END = 1,           /* the input ends where a message should begin */
    RMP_CUT = 2,           /* the input ends inside a message: inside a head or its payload, or for rmp_skip anywhere */
    RMP_RESERVED = 3,      /* the byte c1, which begins no message */
    RMP_NOT_CANONICAL = 4, /* a head that isn't the canonical one */
    RMP_NOT_UTF8 = 5,      /* a text that isn't UTF-8 */
    RMP_TOO_DEEP = 6,      /* lists and maps nest to 1024 levels */
    RMP_LONGER = 7,        /* bytes follow the message */
    RMP_TOO_SHORT = 8,     /* the buffer is too short */
    RMP_NO_MEMORY = 9,     /* out of memory */
    RMP_MORE = 10,         /* the message goes on after the piece */
    RMP_TOO_LONG = 11,     /* the message asks for more bytes than the limit */
    RMP_FAILED = 12,       /* an earlier call failed */
    RMP_TOO_LARGE = 13     /* a payload of 2^32 bytes or more */
};

/* What a status means, as a text for people. */
static inline const char *rmp_text(uint32_t status)
{
    switch (status) {
    case RMP_OK: return "ok";
    case RMP_END: return "the input ends where a message should begin";
    case RMP_CUT: return "the input ends inside a message";
    case RMP_RESERVED: return "the byte c1, which begins no message";
    case RMP_NOT_CANONICAL: return "a head that isn't the canonical one";
    case RMP_NOT_UTF8: return "a text that isn't UTF-8";
    case RMP_TOO_DEEP: return "lists and maps nest to 1024 levels";
    case RMP_LONGER: return "bytes follow the message";
    case RMP_TOO_SHORT: return "the buffer is too short";
    case RMP_NO_MEMORY: return "out of memory";
    case RMP_MORE: return "the message goes on after the piece";
    case RMP_TOO_LONG: return "the message asks for more bytes than the limit";
    case RMP_FAILED: return "an earlier call failed";
    case RMP_TOO_LARGE: return "a payload of 2^32 bytes or more";
    default: return "no status of rmp.h";
    }
}

/* The kinds of messages. */
enum {
    RMP_NIL = 0,
    RMP_TRUTH = 1,
    RMP_UNSIGNED = 2, /* an integer from 0 on */
    RMP_NEGATIVE = 3, /* an integer below 0 */
    RMP_F32 = 4,
    RMP_F64 = 5,
    RMP_TEXT = 6,
    RMP_BYTES = 7,
    RMP_LIST = 8,
    RMP_MAP = 9,
    RMP_EXTENSION = 10
};

/* What a head says, and where its payload is. */
typedef struct {
    uint32_t kind;
    uint32_t items;  /* the number of elements of a list, or of pairs of a map */
    uint64_t number; /* a truth as 0 or 1, an integer (below 0 as an int64_t), the bits of a float, the type of an extension */
    size_t start;    /* the offset after the head: that of the payload of a text, of bytes or of an extension */
    size_t len;      /* the length of the payload in bytes */
} rmp_item;

/* Reads the head at the offset `at`. The next message is at `item->start + item->len`: for a list or a map, its first element or key.
 * RMP_END, RMP_CUT or RMP_RESERVED: no whole head with its payload is there, and `*item` is unchanged. */
uint32_t rmp_next(const uint8_t *bytes, size_t len, size_t at, rmp_item *item);

/* Finds where the message at the offset `at` ends. RMP_OK: `*next` is the offset after it. RMP_END: no byte is at `at`. RMP_CUT: the bytes
 * end inside the message. RMP_RESERVED: the byte c1 is in the place of a message. Except for RMP_OK, `*next` is unchanged. Lists and maps
 * may nest to any depth, and texts needn't be UTF-8. */
uint32_t rmp_skip(const uint8_t *bytes, size_t len, size_t at, size_t *next);

/* Whether the bytes begin with the canonical encoding of a message. RMP_OK: `*place` is its length. RMP_NOT_CANONICAL: `*place` is the
 * offset of the first head that isn't canonical. RMP_END, RMP_CUT or RMP_RESERVED comes before that, and `*place` is unchanged. */
uint32_t rmp_check(const uint8_t *bytes, size_t len, size_t *place);

/* Writes the canonical encoding of the message that the bytes are, in any widths, to `out`, a buffer of `room` bytes, and its length to
 * `*written`. It is no longer than the message. RMP_TOO_SHORT: `*written` is the length that is needed, and `out` is unchanged.
 * RMP_END, RMP_CUT, RMP_RESERVED, RMP_NOT_UTF8, RMP_TOO_DEEP, RMP_LONGER, RMP_NO_MEMORY: both are unchanged. */
uint32_t rmp_canonical(const uint8_t *bytes, size_t len, uint8_t *out, size_t room, size_t *written);

/* What rmp_scan keeps between pieces. A program copies it as it likes, and looks at none of its members. */
typedef struct {
    uint64_t limit;
    uint64_t taken;
    uint64_t messages;
    uint64_t number;
    uint32_t next;
    uint32_t missing;
} rmp_scanner;

/* Sets a scanner to wait for the first byte of a message of at most `limit` bytes. RMP_OK is returned. */
uint32_t rmp_scan_init(rmp_scanner *scanner, size_t limit);

/* Goes through the next piece of a message. RMP_OK: the first `*used` bytes of the piece end the message, and the scanner waits for the
 * next one, which begins with what follows in the piece. RMP_MORE: the message goes on after the piece.
 * RMP_RESERVED: the byte c1 is at the offset `*used` of the piece, where a message is wanted. RMP_TOO_LONG: the heads so far ask for more
 * bytes than the limit, which is found before the payload arrives. After either each call is RMP_FAILED until rmp_scan_init.
 * Except for RMP_OK and RMP_RESERVED, `*used` is unchanged. */
uint32_t rmp_scan(rmp_scanner *scanner, const uint8_t *piece, size_t len, size_t *used);

/* Each rmp_put_ call writes a message, in its canonical encoding, to `out`, a buffer of `room` bytes, at the offset `*at`, and moves `*at`
 * to its end. RMP_TOO_SHORT: the buffer is unchanged, and `*at` moves to where the message would have ended, at most to SIZE_MAX: after all
 * the messages it is the length that is needed. */
uint32_t rmp_put_nil(uint8_t *out, size_t room, size_t *at);
uint32_t rmp_put_bool(uint8_t *out, size_t room, size_t *at, bool value);
uint32_t rmp_put_uint(uint8_t *out, size_t room, size_t *at, uint64_t number);
uint32_t rmp_put_int(uint8_t *out, size_t room, size_t *at, int64_t number);
uint32_t rmp_put_f32_bits(uint8_t *out, size_t room, size_t *at, uint32_t bits);
uint32_t rmp_put_f64_bits(uint8_t *out, size_t room, size_t *at, uint64_t bits);

/* The head of a list of `len` elements, which follow, each by a call of its own; of a map of `len` pairs, each a key and then its value. */
uint32_t rmp_put_array(uint8_t *out, size_t room, size_t *at, uint32_t len);
uint32_t rmp_put_map(uint8_t *out, size_t room, size_t *at, uint32_t len);

/* A text, which isn't checked to be UTF-8; bytes; an extension. The payload doesn't overlap the buffer. RMP_TOO_LARGE: the payload has
 * 2^32 bytes or more, and nothing changes. */
uint32_t rmp_put_str(uint8_t *out, size_t room, size_t *at, const uint8_t *payload, size_t len);
uint32_t rmp_put_bin(uint8_t *out, size_t room, size_t *at, const uint8_t *payload, size_t len);
uint32_t rmp_put_ext(uint8_t *out, size_t room, size_t *at, int8_t tag, const uint8_t *payload, size_t len);

/* Finds the part of a message that the offset is in, and puts the path to it into `out`, as the rmp_put_ calls do: a text as `.origin.pid` or
 * `.tags[1]` with no zero after it, for the whole message of no byte. `*place` is the offset where the part begins. The bytes are a message, or
 * several that follow one another; from where they are cut or wrong on, it is the part that is. RMP_NO_MEMORY: nothing changes. */
uint32_t rmp_path(const uint8_t *bytes, size_t len, size_t offset, uint8_t *out, size_t room, size_t *at, size_t *place);

static inline uint32_t rmp_put_f32(uint8_t *out, size_t room, size_t *at, float number)
{
    uint32_t bits;
    memcpy(&bits, &number, sizeof bits);
    return rmp_put_f32_bits(out, room, at, bits);
}

static inline uint32_t rmp_put_f64(uint8_t *out, size_t room, size_t *at, double number)
{
    uint64_t bits;
    memcpy(&bits, &number, sizeof bits);
    return rmp_put_f64_bits(out, room, at, bits);
}

#ifdef __cplusplus
}
#endif

#endif

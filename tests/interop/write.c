/* Writes and reads messages by msgpack-c: `write` prints rows as write.py does, `write read` prints what it reads in rows of what this library wrote,
 * and `write puts` prints a row of each kind and width of message: what is packed, and the bytes before its payload.
 */
#include <inttypes.h>
#include <msgpack.h>
#include <stdio.h>
#include <stdlib.h>
#include <string.h>

static msgpack_sbuffer buffer;
static msgpack_packer packer;

/* Prints a kind and the message that was packed. */
static void print(const char *kind) {
    printf("%s ", kind);
    for (size_t i = 0; i < buffer.size; i++) {
        printf("%02x", (unsigned char)buffer.data[i]);
    }
    msgpack_sbuffer_clear(&buffer);
}

static uint64_t bits(double value) {
    uint64_t n;
    memcpy(&n, &value, sizeof n);
    return n;
}

static void text(const char *words) {
    msgpack_pack_str_with_body(&packer, words, strlen(words));
}

static void write_rows(void) {
    const double floats[] = {0.0, -0.0, 1.0, 0.1, -2.5, 1e-310};
    for (size_t i = 0; i < sizeof floats / sizeof *floats; i++) {
        msgpack_pack_double(&packer, floats[i]);
        print("float");
        printf(" %016" PRIx64 "\n", bits(floats[i]));
        msgpack_pack_float(&packer, (float)floats[i]);
        print("float");
        printf(" %016" PRIx64 "\n", bits((float)floats[i]));
    }
    const int64_t whole[] = {0, 1, -1, 300, -70000, 9007199254740992, INT64_MIN};
    for (size_t i = 0; i < sizeof whole / sizeof *whole; i++) {
        msgpack_pack_int64(&packer, whole[i]);
        print("float");
        printf(" %016" PRIx64 "\n", bits((double)whole[i]));
    }
    const msgpack_timestamp times[] = {{0, 0}, {1514862245, 678901234}, {17179869184, 1}, {-1, 999999999}};
    for (size_t i = 0; i < sizeof times / sizeof *times; i++) {
        msgpack_pack_timestamp(&packer, &times[i]);
        print("time");
        printf(" %" PRId64 " %" PRIu32 "\n", times[i].tv_sec, times[i].tv_nsec);
    }
    msgpack_pack_map(&packer, 3);
    text("at");
    msgpack_pack_timestamp(&packer, &times[1]);
    text("load");
    msgpack_pack_int(&packer, -7);
    text("name");
    text("bridge");
    print("record");
    printf(" bridge %016" PRIx64 " 1514862245 678901234\n", bits(-7));
}

static void print_float(const msgpack_object *object) {
    if (object->type == MSGPACK_OBJECT_FLOAT64) {
        printf(" %016" PRIx64, bits(object->via.f64));
    } else {
        printf(" no-double");
    }
}

static void print_time(const msgpack_object *object) {
    msgpack_timestamp time;
    if (msgpack_object_to_timestamp(object, &time)) {
        printf(" %" PRId64 " %" PRIu32, time.tv_sec, time.tv_nsec);
    } else {
        printf(" no-time");
    }
}

/* The value of a key, or of the map itself where it has no such key. */
static const msgpack_object *field(const msgpack_object *map, const char *name) {
    for (size_t i = 0; i < map->via.map.size; i++) {
        const msgpack_object_str *key = &map->via.map.ptr[i].key.via.str;
        if (key->size == strlen(name) && memcmp(key->ptr, name, key->size) == 0) {
            return &map->via.map.ptr[i].val;
        }
    }
    return map;
}

static void print_record(const msgpack_object *object) {
    if (object->type != MSGPACK_OBJECT_MAP || object->via.map.size != 3) {
        printf(" no-record");
        return;
    }
    const msgpack_object *name = field(object, "name");
    if (name->type == MSGPACK_OBJECT_STR) {
        printf(" %.*s", (int)name->via.str.size, name->via.str.ptr);
    } else {
        printf(" no-name");
    }
    print_float(field(object, "load"));
    print_time(field(object, "at"));
}

/* Prints the double, the point in time, or the three fields that a message is. */
static void print_value(const char *kind, const msgpack_object *object) {
    if (strcmp(kind, "float") == 0) {
        print_float(object);
    } else if (strcmp(kind, "time") == 0) {
        print_time(object);
    } else {
        print_record(object);
    }
    printf("\n");
}

static int read_rows(void) {
    char kind[16], digits[1024];
    while (scanf("%15s %1023s", kind, digits) == 2) {
        char bytes[512];
        size_t len = strlen(digits) / 2;
        for (size_t i = 0; i < len; i++) {
            unsigned byte;
            sscanf(digits + 2 * i, "%2x", &byte);
            bytes[i] = (char)byte;
        }
        printf("%s %s", kind, digits);
        msgpack_unpacked message;
        msgpack_unpacked_init(&message);
        if (msgpack_unpack_next(&message, bytes, len, NULL) != MSGPACK_UNPACK_SUCCESS) {
            printf(" no message\n");
            return 1;
        }
        print_value(kind, &message.data);
        msgpack_unpacked_destroy(&message);
    }
    return 0;
}

/* The payload of a put: byte `i` is `i` modulo 256. */
static char payload[65536];

/* Ends a row by the bytes that were packed before so much payload, which has to follow them. */
static void print_put(size_t len) {
    size_t head = buffer.size - len;
    if (len > 0 && memcmp(buffer.data + head, payload, len) != 0) {
        fprintf(stderr, "another payload was packed\n");
        exit(1);
    }
    for (size_t i = 0; i < head; i++) {
        printf("%02x", (unsigned char)buffer.data[i]);
    }
    printf("\n");
    msgpack_sbuffer_clear(&buffer);
}

static void put_numbers(void) {
    const uint64_t from_0[] = {0, 1, 127, 128, 255, 256, 65535, 65536, UINT32_MAX, UINT32_MAX + UINT64_C(1), INT64_MAX, UINT64_MAX};
    for (size_t i = 0; i < sizeof from_0 / sizeof *from_0; i++) {
        printf("uint %" PRIu64 " ", from_0[i]);
        msgpack_pack_uint64(&packer, from_0[i]);
        print_put(0);
    }
    const int64_t either[] = {0, 127, 128, 255, 256, 65535, 65536, UINT32_MAX, UINT32_MAX + INT64_C(1), INT64_MAX,
                              -1, -32, -33, -128, -129, -32768, -32769, INT32_MIN, INT32_MIN - INT64_C(1), INT64_MIN};
    for (size_t i = 0; i < sizeof either / sizeof *either; i++) {
        printf("int %" PRId64 " ", either[i]);
        msgpack_pack_int64(&packer, either[i]);
        print_put(0);
    }
}

/* Floats by their bits: 0, -0, 1.5, infinities, the least and a NaN with bits of its own. */
static void put_floats(void) {
    const uint32_t short_ones[] = {0, 0x80000000, 0x3fc00000, 0x7f800000, 0xff800000, 1, 0x7fc00123};
    for (size_t i = 0; i < sizeof short_ones / sizeof *short_ones; i++) {
        float value;
        memcpy(&value, &short_ones[i], sizeof value);
        printf("f32_bits %08" PRIx32 " ", short_ones[i]);
        msgpack_pack_float(&packer, value);
        print_put(0);
    }
    const uint64_t long_ones[] = {0, UINT64_C(1) << 63, UINT64_C(0x3ff8000000000000), UINT64_C(0x7ff0000000000000),
                                  UINT64_C(0xfff0000000000000), 1, UINT64_C(0x7ff8000000000123)};
    for (size_t i = 0; i < sizeof long_ones / sizeof *long_ones; i++) {
        double value;
        memcpy(&value, &long_ones[i], sizeof value);
        printf("f64_bits %016" PRIx64 " ", long_ones[i]);
        msgpack_pack_double(&packer, value);
        print_put(0);
    }
}

static void put_heads(void) {
    const uint32_t counts[] = {0, 1, 15, 16, 65535, 65536, UINT32_MAX};
    for (size_t i = 0; i < sizeof counts / sizeof *counts; i++) {
        printf("array %" PRIu32 " ", counts[i]);
        msgpack_pack_array(&packer, counts[i]);
        print_put(0);
        printf("map %" PRIu32 " ", counts[i]);
        msgpack_pack_map(&packer, counts[i]);
        print_put(0);
    }
}

static void put_payloads(void) {
    const size_t lens[] = {0, 1, 2, 3, 4, 5, 7, 8, 9, 15, 16, 17, 31, 32, 255, 256, 65535, 65536};
    const int8_t tags[] = {-128, -1, 0, 5, 127};
    for (size_t i = 0; i < sizeof payload; i++) {
        payload[i] = (char)i;
    }
    for (size_t i = 0; i < sizeof lens / sizeof *lens; i++) {
        printf("str %zu ", lens[i]);
        msgpack_pack_str_with_body(&packer, payload, lens[i]);
        print_put(lens[i]);
        printf("bin %zu ", lens[i]);
        msgpack_pack_bin_with_body(&packer, payload, lens[i]);
        print_put(lens[i]);
        int8_t tag = tags[i % (sizeof tags / sizeof *tags)];
        printf("ext %zu %d ", lens[i], tag);
        msgpack_pack_ext_with_body(&packer, payload, lens[i], tag);
        print_put(lens[i]);
    }
}

static void put_rows(void) {
    printf("nil ");
    msgpack_pack_nil(&packer);
    print_put(0);
    printf("bool 0 ");
    msgpack_pack_false(&packer);
    print_put(0);
    printf("bool 1 ");
    msgpack_pack_true(&packer);
    print_put(0);
    put_numbers();
    put_floats();
    put_heads();
    put_payloads();
}

int main(int argc, char **argv) {
    const char *task = argc > 1 ? argv[1] : "write";
    msgpack_sbuffer_init(&buffer);
    msgpack_packer_init(&packer, &buffer, msgpack_sbuffer_write);
    if (strcmp(task, "read") == 0) {
        return read_rows();
    }
    if (strcmp(task, "puts") == 0) {
        put_rows();
    } else {
        write_rows();
    }
    msgpack_sbuffer_destroy(&buffer);
    return 0;
}

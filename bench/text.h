/* The text of values, for the programs that write what `check` writes (check.c through libdbus, check-sd.c through sd-bus). */
#include <stdint.h>
#include <stdio.h>

/* A value without parts, as both libraries hand it out. */
union basic {
    uint8_t byte;
    int boolean;
    int16_t i16;
    uint16_t u16;
    int32_t i32;
    uint32_t u32;
    int64_t i64;
    uint64_t u64;
    const char *text;
};

static void put(const char *text) { fputs_unlocked(text, stdout); }

static void put_quoted(const char *text) {
    putc_unlocked('"', stdout);
    for (const unsigned char *c = (const unsigned char *)text; *c; c++) {
        if (*c == '"' || *c == '\\') {
            putc_unlocked('\\', stdout);
            putc_unlocked(*c, stdout);
        } else if (*c < 32 || *c == 127) {
            printf("\\x%02x", *c);
        } else {
            putc_unlocked(*c, stdout);
        }
    }
    putc_unlocked('"', stdout);
}

/* A value of the type with that code of the D-Bus Specification; one that is no number is a text. */
static void put_basic(int type, const union basic *value) {
    switch (type) {
    case 'y':
        printf("%u", value->byte);
        return;
    case 'b':
        put(value->boolean ? "true" : "false");
        return;
    case 'n':
        printf("%d", value->i16);
        return;
    case 'q':
        printf("%u", value->u16);
        return;
    case 'i':
        printf("%d", value->i32);
        return;
    case 'u':
        printf("%u", value->u32);
        return;
    case 'x':
        printf("%lld", (long long)value->i64);
        return;
    case 't':
        printf("%llu", (unsigned long long)value->u64);
        return;
    case 'd':
        printf("0x%016llx", (unsigned long long)value->u64);
        return;
    default:
        put_quoted(value->text);
    }
}

static void put_field(const char *name, const char *value) {
    if (value) {
        put(name);
        put(value);
    }
}

/* The first words of a line: where the message starts, its type, and of its bytes the order and the flags. */
static void put_front(size_t start, int type, const char *bytes, uint32_t serial) {
    static const char *words[] = {"", "call", "return", "error", "signal"};
    printf("%zu ", start);
    if (1 <= type && type <= 4)
        put(words[type]);
    else
        printf("type-%d", type);
    printf(" %c %u %u", bytes[0], (unsigned char)bytes[2], serial);
}

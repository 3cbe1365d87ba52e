/* The work of `atspi_speed` in plain C, with the same checks, as the measure that bench/run.sh holds it against. `make N` makes the
   bytes of an array of N structs (utu), and `decode N` decodes them too and drops the value; standard error has how long that took.
   Values are tagged, lists grow by realloc, the type is data, and a fault tells its place and reason. */
#include <stdint.h>
#include <stdio.h>
#include <stdlib.h>
#include <string.h>
#include <time.h>

enum tag { BYTE, BOOL, U32, U64, TEXT, ARRAY, STRUCT };

struct type {
    enum tag tag;
    const struct type *inner;
    size_t count;
};

struct value {
    enum tag tag;
    union {
        uint8_t byte;
        uint32_t u32;
        uint64_t u64;
        struct { char *bytes; size_t len; } text;
        struct { struct value *items; size_t len, capacity; const struct type *element; } list;
    };
};

struct input { const uint8_t *bytes; int big; };
struct bound { size_t end; int reason; };
struct fault { size_t place; int reason; };

static struct fault fault;

static int bad(size_t place, int reason)
{
    fault = (struct fault){place, reason};
    return -1;
}

static uint32_t u32_at(const struct input *in, size_t at)
{
    uint32_t n;
    memcpy(&n, in->bytes + at, 4);
    return in->big ? __builtin_bswap32(n) : n;
}

static uint64_t u64_at(const struct input *in, size_t at)
{
    uint64_t n;
    memcpy(&n, in->bytes + at, 8);
    return in->big ? __builtin_bswap64(n) : n;
}

/* The place behind the padding, whose bytes have to be zero. */
static int padding(const struct input *in, size_t align, struct bound bound, size_t *at)
{
    size_t place = (*at + align - 1) & ~(align - 1);
    if (place > bound.end)
        return bad(*at, *at < bound.end && in->bytes[*at] ? 10 : bound.reason);
    for (; *at < place; ++*at)
        if (in->bytes[*at])
            return bad(*at, 10);
    return 0;
}

static int room(const struct input *in, size_t len, struct bound bound, size_t *at)
{
    if (padding(in, len, bound, at))
        return -1;
    return *at + len > bound.end ? bad(*at, bound.reason) : 0;
}

/* The length of the longest front that is well-formed UTF-8 (RFC 3629, section 4). */
static size_t utf8_front(const uint8_t *s, size_t len)
{
    size_t i = 0;
    while (i < len) {
        uint8_t b = s[i], low = 0x80, high = 0xbf;
        size_t more;
        if (b < 0x80) { i++; continue; }
        if (b >= 0xc2 && b <= 0xdf) more = 1;
        else if (b >= 0xe0 && b <= 0xef) { more = 2; if (b == 0xe0) low = 0xa0; if (b == 0xed) high = 0x9f; }
        else if (b >= 0xf0 && b <= 0xf4) { more = 3; if (b == 0xf0) low = 0x90; if (b == 0xf4) high = 0x8f; }
        else return i;
        for (size_t k = 1; k <= more; k++, low = 0x80, high = 0xbf)
            if (i + k >= len || s[i + k] < low || s[i + k] > high)
                return i;
        i += more + 1;
    }
    return i;
}

static int read_text(const struct input *in, struct bound bound, size_t *at, struct value *out)
{
    if (room(in, 4, bound, at))
        return -1;
    size_t len = u32_at(in, *at), start = *at + 4;
    if (start + len + 1 > bound.end)
        return bad(*at, bound.reason);
    const uint8_t *zero = memchr(in->bytes + start, 0, len);
    size_t before = zero ? (size_t)(zero - in->bytes) - start : len, front = utf8_front(in->bytes + start, before);
    if (front < before)
        return bad(start + front, 14);
    if (zero)
        return bad(start + before, 13);
    if (in->bytes[start + len])
        return bad(start + len, 12);
    if (!(out->text.bytes = malloc(len + 1)))
        return -1;
    memcpy(out->text.bytes, in->bytes + start, len + 1);
    out->text.len = len;
    *at = start + len + 1;
    return 0;
}

static void drop(struct value *value)
{
    if (value->tag == TEXT)
        free(value->text.bytes);
    if (value->tag != ARRAY && value->tag != STRUCT)
        return;
    for (size_t i = 0; i < value->list.len; i++)
        drop(value->list.items + i);
    free(value->list.items);
}

static int push(struct value *list, const struct value *item)
{
    if (list->list.len == list->list.capacity) {
        size_t capacity = list->list.capacity ? 2 * list->list.capacity : 4;
        struct value *items = realloc(list->list.items, capacity * sizeof *items);
        if (!items)
            return -1;
        list->list.items = items;
        list->list.capacity = capacity;
    }
    list->list.items[list->list.len++] = *item;
    return 0;
}

static int read_value(const struct input *, int, const struct type *, struct bound, size_t *, struct value *);

static int read_item(const struct input *in, int levels, const struct type *type, struct bound bound, size_t *at, struct value *list)
{
    struct value item;
    if (read_value(in, levels, type, bound, at, &item))
        return -1;
    if (push(list, &item)) {
        drop(&item);
        return -1;
    }
    return 0;
}

static size_t alignment(const struct type *type)
{
    switch (type->tag) {
    case BYTE: return 1;
    case BOOL: case U32: case TEXT: case ARRAY: return 4;
    case U64: case STRUCT: return 8;
    }
    return 1;
}

static int read_array(const struct input *in, int levels, const struct type *type, struct bound bound, size_t *at, struct value *out)
{
    size_t place, align = alignment(type->inner);
    if (room(in, 4, bound, at))
        return -1;
    uint32_t len = u32_at(in, place = *at);
    if (len > 67108864)
        return bad(place, 17);
    struct bound inside = {((place + 4 + align - 1) & ~(align - 1)) + len, 18};
    if (inside.end > bound.end)
        return bad(place, bound.reason);
    if (!levels)
        return bad(place, 20);
    *at = place + 4;
    if (padding(in, align, inside, at))
        return -1;
    while (*at < inside.end)
        if (read_item(in, levels - 1, type->inner, inside, at, out))
            return drop(out), -1;
    return 0;
}

static int read_struct(const struct input *in, int levels, const struct type *type, struct bound bound, size_t *at, struct value *out)
{
    if (padding(in, 8, bound, at))
        return -1;
    if (!levels)
        return bad(*at, 20);
    for (size_t i = 0; i < type->count; i++)
        if (read_item(in, levels - 1, type->inner + i, bound, at, out))
            return drop(out), -1;
    return 0;
}

static int read_value(const struct input *in, int levels, const struct type *type, struct bound bound, size_t *at, struct value *out)
{
    out->tag = type->tag;
    switch (type->tag) {
    case BYTE:
        if (room(in, 1, bound, at))
            return -1;
        out->byte = in->bytes[(*at)++];
        return 0;
    case BOOL:
    case U32:
        if (room(in, 4, bound, at))
            return -1;
        out->u32 = u32_at(in, *at);
        if (type->tag == BOOL && out->u32 > 1)
            return bad(*at, 11);
        *at += 4;
        return 0;
    case U64:
        if (room(in, 8, bound, at))
            return -1;
        out->u64 = u64_at(in, *at);
        *at += 8;
        return 0;
    case TEXT:
        return read_text(in, bound, at, out);
    case ARRAY:
    case STRUCT:
        out->list.items = NULL;
        out->list.len = out->list.capacity = 0;
        out->list.element = type->inner;
        return type->tag == ARRAY ? read_array(in, levels, type, bound, at, out)
                                  : read_struct(in, levels, type, bound, at, out);
    }
    return -1;
}

/* The bytes of an array of so many structs, each with its index in every field. */
static uint8_t *array_of(uint32_t count, size_t *len)
{
    uint8_t *bytes = calloc(1, 24 * (size_t)count + 8);
    uint32_t array = count ? 24 * count - 4 : 0;
    if (!bytes)
        return NULL;
    memcpy(bytes, &array, 4);
    for (uint32_t i = 0; i < count; i++) {
        uint8_t *item = bytes + 8 + 24 * (size_t)i;
        uint64_t wide = i;
        memcpy(item, &i, 4);
        memcpy(item + 8, &wide, 8);
        memcpy(item + 16, &i, 4);
    }
    *len = 8 + (size_t)array;
    return bytes;
}

int main(int argc, char **argv)
{
    static const struct type fields[] = {{U32, NULL, 0}, {U64, NULL, 0}, {U32, NULL, 0}};
    static const struct type item = {STRUCT, fields, 3}, array = {ARRAY, &item, 1};
    struct timespec start, end;
    struct value value;
    size_t len, at = 0;
    uint32_t count = argc == 3 ? (uint32_t)strtoul(argv[2], NULL, 10) : 0;
    uint8_t *bytes;
    if (argc != 3 || count > 2796202 || !(bytes = array_of(count, &len)))
        return 1;
    if (!strcmp(argv[1], "make"))
        return printf("%zu bytes\n", len) < 0;
    clock_gettime(CLOCK_MONOTONIC, &start);
    struct input in = {bytes, getenv("BIG") != NULL};
    if (read_value(&in, 64, &array, (struct bound){len, 19}, &at, &value)) {
        printf("fault %d at %zu\n", fault.reason, fault.place);
        return 1;
    }
    size_t items = value.list.len;
    drop(&value);
    clock_gettime(CLOCK_MONOTONIC, &end);
    printf("%zu structs in %zu bytes\n", items, at);
    fprintf(stderr, "%ld us\n", (end.tv_sec - start.tv_sec) * 1000000 + (end.tv_nsec - start.tv_nsec) / 1000);
    free(bytes);
    return 0;
}

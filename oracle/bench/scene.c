/* A scene, read by hand. Each field is cut out of 64 bits that are loaded at once. Where the input
 * and the lent words are long enough for all fields of a position, its fields do not ask for them
 * again.
 *
 * The reader is a local variable of scene_by_hand, and all that takes it is inlined. So its members
 * stand in registers, and each combination of `recording` and `ample` becomes code of its own. */
#include "scene.h"

#include <string.h>

#define INLINE static inline __attribute__((always_inline))
#define TRY(call)         \
    do {                  \
        if (!(call))      \
            return false; \
    } while (0)

/* The same call, where the condition is known to hold and where it is known not to. */
#define KNOWING(condition, call) ((condition) ? (call) : (call))

/* A name word (docs/FIELDS.md) is the sum of these and of a leaf. */
#define BLOCK(number) ((uint64_t)(number) << 8)
#define FIRST_INDEX(i) ((uint64_t)(i) << 12)
#define THIRD_INDEX(k) ((uint64_t)(k) << 38)

enum Leaf {
    COUNT = 1,
    PARENT_DYNAMIC,
    RANGE_DYNAMIC,
    POSITION_PRECISION,
    ROTATION_PRECISION,
    ABSOLUTE_PARENT = 7,
    PARENT_INDEX,
    RANGE = 10,
    POSITION_PRESENT,
    POLAR = 13,
    POSITION,
    ROTATION_PRESENT,
    ROTATION = 17,
    EXTENSIONS_PRESENT,
    EXTENSION_TYPE,
    EXTENSION_WIDTH,
    EXTENSION_BITS,
    EXTENSION_PAYLOAD
};

enum {
    LEAST_POSITION_BITS = 18,
    MOST_EXTENSIONS = 32,
    /* The most bits and fields of a position before its extensions, and of an extension before its
     * payload. */
    SHAPE_BITS = 243,
    SHAPE_FIELDS = 18,
    EXTENSION_HEADER_BITS = 27,
    EXTENSION_HEADER_FIELDS = 3
};

typedef struct {
    const uint8_t *bytes;
    size_t bytes_len;
    size_t end; /* in bits, as the position */
    size_t position;
    bool recording;
    uint64_t *words; /* those of the next field */
    size_t counted;
    size_t limit;    /* how many fields can be counted */
    uint64_t prefix; /* of the names */
    bool ample;      /* whether bits and words for the next fields are known to be there */
    uint64_t number; /* why the reading was refused */
} Reader;

INLINE size_t least(size_t a, size_t b)
{
    return a < b ? a : b;
}

INLINE bool refuse(Reader *r, uint64_t number)
{
    r->number = number;
    return false;
}

INLINE size_t remaining(const Reader *r)
{
    return r->end - r->position;
}

/* Whether so many bits and fields can follow, and eight bytes can be loaded at each of them. */
INLINE bool is_ample(const Reader *r, size_t bits, size_t fields)
{
    return remaining(r) >= bits + 64 && r->limit - r->counted >= fields;
}

INLINE uint64_t load(const uint8_t *bytes)
{
    uint64_t value;
    memcpy(&value, bytes, sizeof value);
    return __builtin_bswap64(value);
}

/* The last bytes of the input, and zeros after them. */
static __attribute__((noinline)) uint64_t load_last(const uint8_t *bytes, size_t bytes_len)
{
    uint8_t padded[8] = {0};
    memcpy(padded, bytes, bytes_len);
    return load(padded);
}

/* The next bits, which are there, 1 to 57 of them. */
INLINE uint64_t peek(const Reader *r, unsigned width)
{
    const uint8_t *bytes = r->bytes + r->position / 8;
    size_t left = r->bytes_len - r->position / 8;
    uint64_t loaded = r->ample || left >= 8 ? load(bytes) : load_last(bytes, left);
    return loaded << r->position % 8 >> (64 - width);
}

INLINE bool record(Reader *r, size_t length, uint64_t kind, uint64_t value, uint64_t leaf)
{
    size_t start = r->position;
    r->position += length;
    if (!r->ample && r->counted == r->limit)
        return refuse(r, r->limit < GATEWAY_MAX_FIELDS ? GATEWAY_WORD_LIMIT : GATEWAY_FIELD_LIMIT);
    r->counted++;
    if (r->recording) {
        r->words[GATEWAY_BIT_OFFSET] = start;
        r->words[GATEWAY_BIT_LENGTH] = length;
        r->words[GATEWAY_KIND] = kind;
        r->words[GATEWAY_VALUE] = value;
        r->words[GATEWAY_NAME] = r->prefix + leaf;
        r->words += GATEWAY_FIELD_WORDS;
    }
    return true;
}

INLINE bool read_field(Reader *r, unsigned width, uint64_t kind, uint64_t leaf, uint64_t *value)
{
    if (!r->ample && remaining(r) < width)
        return refuse(r, GATEWAY_TRUNCATED);
    *value = peek(r, width);
    return record(r, width, kind, *value, leaf);
}

INLINE bool take(Reader *r, unsigned width, uint64_t leaf, uint64_t *value)
{
    return read_field(r, width, GATEWAY_NUMBER, leaf, value);
}

INLINE bool flag(Reader *r, uint64_t leaf, bool *value)
{
    uint64_t bit;
    TRY(read_field(r, 1, GATEWAY_FLAG, leaf, &bit));
    *value = bit;
    return true;
}

INLINE bool read_precision(Reader *r, uint64_t leaf, size_t *precision)
{
    uint64_t encoded;
    TRY(take(r, 4, leaf, &encoded));
    *precision = least(2 * encoded, GATEWAY_MAX_PRECISION);
    return true;
}

INLINE bool read_parent(Reader *r, size_t *parent)
{
    bool absolute;
    uint64_t index = 0;
    TRY(flag(r, ABSOLUTE_PARENT, &absolute));
    if (!absolute)
        TRY(take(r, 6, PARENT_INDEX, &index));
    *parent = index;
    return true;
}

INLINE bool read_coordinates(Reader *r, PositionSyntax *shape)
{
    uint64_t value;
    TRY(flag(r, POLAR, &shape->polar));
    for (unsigned k = 0; k < 3; k++) {
        unsigned base = shape->polar ? 7 - k : 6;
        TRY(take(r, base + shape->position_precision, POSITION + THIRD_INDEX(k), &value));
    }
    return true;
}

INLINE bool read_rotation(Reader *r, const PositionSyntax *shape)
{
    uint64_t value;
    for (unsigned k = 0; k < 4; k++)
        TRY(take(r, 8 + shape->rotation_precision, ROTATION + THIRD_INDEX(k), &value));
    return true;
}

/* A position up to its extensions, and whether it has any. */
INLINE bool read_shape(Reader *r, PositionSyntax *shape, bool *extended)
{
    bool present;
    uint64_t range;
    TRY(flag(r, PARENT_DYNAMIC, &shape->parent_dynamic));
    TRY(flag(r, RANGE_DYNAMIC, &shape->range_dynamic));
    TRY(read_precision(r, POSITION_PRECISION, &shape->position_precision));
    TRY(read_precision(r, ROTATION_PRECISION, &shape->rotation_precision));
    TRY(read_parent(r, &shape->parent));
    TRY(take(r, 4, RANGE, &range));
    TRY(flag(r, POSITION_PRESENT, &present));
    shape->polar = false;
    if (present)
        TRY(read_coordinates(r, shape));
    TRY(flag(r, ROTATION_PRESENT, &present));
    if (present)
        TRY(read_rotation(r, shape));
    return flag(r, EXTENSIONS_PRESENT, extended);
}

/* An extension up to its payload, and the bits of that; 0 for the type that ends the extensions. */
INLINE bool read_extension_header(Reader *r, uint64_t indices, size_t *bits)
{
    uint64_t type, width, bits_minus_one;
    *bits = 0;
    TRY(take(r, 4, EXTENSION_TYPE + indices, &type));
    if (type == 0)
        return true;
    TRY(take(r, 4, EXTENSION_WIDTH + indices, &width));
    TRY(take(r, width + 4, EXTENSION_BITS + indices, &bits_minus_one));
    *bits = bits_minus_one + 1;
    return true;
}

INLINE bool read_payload(Reader *r, size_t bits, uint64_t leaf)
{
    if (remaining(r) < bits)
        return refuse(r, GATEWAY_TRUNCATED);
    return record(r, bits, GATEWAY_BITS, bits, leaf);
}

INLINE bool read_extensions(Reader *r)
{
    for (unsigned k = 0; k < MOST_EXTENSIONS; k++) {
        size_t bits;
        r->ample = is_ample(r, EXTENSION_HEADER_BITS, EXTENSION_HEADER_FIELDS);
        TRY(KNOWING(r->ample, read_extension_header(r, THIRD_INDEX(k), &bits)));
        r->ample = false;
        if (bits == 0)
            return true;
        TRY(read_payload(r, bits, EXTENSION_PAYLOAD + THIRD_INDEX(k)));
    }
    return refuse(r, GATEWAY_POSITION_EXTENSIONS);
}

INLINE bool read_position(Reader *r, PositionSyntax *shape)
{
    bool extended;
    r->ample = is_ample(r, SHAPE_BITS, SHAPE_FIELDS);
    TRY(KNOWING(r->ample, read_shape(r, shape, &extended)));
    return !extended || read_extensions(r);
}

/* Walks up from each position to one that has a rank, and then once more, to give each one on the
 * way its rank. Sets of positions are the bits of a word. */
static uint64_t validate(const PositionSyntax *shapes, size_t count, size_t *deepest)
{
    uint64_t ranked = 1;                           /* parent 0, whose rank is 0 */
    uint8_t rank[GATEWAY_MAX_POSITIONS + 1] = {0}; /* of the positions that are ranked */
    uint8_t most = 0;
    for (size_t first = 1; first <= count; first++) {
        uint64_t visited = 0;
        uint8_t steps = 0;
        size_t current = first;
        for (; !(ranked >> current & 1); steps++) {
            if (current > count)
                return GATEWAY_SCENE_PARENT;
            if (visited >> current & 1)
                return GATEWAY_SCENE_PARENT_CYCLE;
            visited |= 1ULL << current;
            current = shapes[current - 1].parent;
        }
        ranked |= visited;
        uint8_t next = rank[current] + steps;
        if (next > most)
            most = next;
        for (current = first; steps > 0; steps--) {
            rank[current] = next--;
            current = shapes[current - 1].parent;
        }
    }
    *deepest = most;
    return 0;
}

INLINE bool read_scene(Reader *r, GatewayScene *scene)
{
    uint64_t count;
    r->prefix = BLOCK(1);
    TRY(take(r, 6, COUNT, &count));
    if (count * LEAST_POSITION_BITS > remaining(r))
        return refuse(r, GATEWAY_COUNT_RANGE);
    for (size_t i = 0; i < count; i++) {
        r->prefix = BLOCK(2) + FIRST_INDEX(i);
        TRY(read_position(r, &scene->shapes[i]));
    }
    scene->count = count;
    r->number = validate(scene->shapes, count, &scene->answer.deepest);
    return r->number == 0;
}

INLINE bool enter(Reader *r, size_t offset, GatewayScene *scene)
{
    if (r->bytes_len > GATEWAY_MAX_BYTES)
        return refuse(r, GATEWAY_INPUT_LIMIT);
    r->end = 8 * r->bytes_len;
    if (offset > r->end)
        return refuse(r, GATEWAY_TRUNCATED);
    r->position = offset;
    return read_scene(r, scene);
}

void scene_by_hand(const uint8_t *bytes, size_t bytes_len, size_t offset, bool recording,
                   uint64_t *words, size_t words_len, GatewayScene *scene)
{
    Reader r = {
        .bytes = bytes,
        .bytes_len = bytes_len,
        .recording = recording,
        .words = words,
        .limit = recording ? least(words_len / GATEWAY_FIELD_WORDS, GATEWAY_MAX_FIELDS)
                           : GATEWAY_MAX_FIELDS,
    };
    bool is_read = KNOWING(r.recording, enter(&r, offset, scene));
    scene->answer.outcome = is_read ? GATEWAY_READ : GATEWAY_REFUSED;
    scene->answer.number = r.number;
    scene->answer.position = r.position;
    scene->answer.counted = r.counted;
    if (!is_read)
        scene->count = scene->answer.deepest = 0;
    size_t beyond = GATEWAY_MAX_POSITIONS - scene->count;
    memset(scene->shapes + scene->count, 0, beyond * sizeof *scene->shapes);
}

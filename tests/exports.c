/* Holds gateway.h to the static library by running it: which bytes of each type the library reads
 * and writes, and what each function answers. Then prints the types and their fields, each with its
 * size and its offset, and the greatest sizes, so that other declarations can be held to the same.
 * It is C and C++. */
#include "gateway.h"

#include <stdio.h>
#include <stdlib.h>
#include <string.h>

#define LENGTH(array) (sizeof(array) / sizeof *(array))
#define EXPECT(condition) ((condition) ? (void)0 : failed(#condition, __LINE__))

static void failed(const char *condition, int line) {
    fprintf(stderr, "tests/exports.c:%d: expected %s\n", line, condition);
    exit(1);
}

/* ---- The types, as the header has them. ---- */

typedef struct {
    const char *name;
    size_t size;
    size_t offset;
} Field;

#define FIELD(type, field) {#type "." #field, sizeof(((type *)0)->field), offsetof(type, field)}

static const Field SHAPE[] = {
    FIELD(PositionSyntax, parent_dynamic),     FIELD(PositionSyntax, range_dynamic),
    FIELD(PositionSyntax, position_precision), FIELD(PositionSyntax, rotation_precision),
    FIELD(PositionSyntax, parent),             FIELD(PositionSyntax, polar),
};
static const Field ANSWER[] = {
    FIELD(GatewayAnswer, outcome),
    FIELD(GatewayAnswer, number),
    FIELD(GatewayAnswer, position),
    FIELD(GatewayAnswer, counted),
};
static const Field GRAPH_ANSWER[] = {
    FIELD(GatewayGraphAnswer, outcome),  FIELD(GatewayGraphAnswer, number),
    FIELD(GatewayGraphAnswer, position), FIELD(GatewayGraphAnswer, counted),
    FIELD(GatewayGraphAnswer, deepest),
};
static const Field SCENE[] = {
    FIELD(GatewayScene, answer),
    FIELD(GatewayScene, count),
    FIELD(GatewayScene, shapes),
};

static void print_layout(const char *type, size_t size, const Field *fields, size_t count) {
    printf("%s %zu 0\n", type, size);
    for (size_t i = 0; i < count; i++)
        printf("%s %zu %zu\n", fields[i].name, fields[i].size, fields[i].offset);
}

static void print_limits(void) {
    printf("MAX_BYTES %d\n", GATEWAY_MAX_BYTES);
    printf("MAX_FIELDS %d\n", GATEWAY_MAX_FIELDS);
    printf("MAX_POSITIONS %d\n", GATEWAY_MAX_POSITIONS);
    printf("MAX_PRECISION %d\n", GATEWAY_MAX_PRECISION);
    printf("MAX_NAME %d\n", GATEWAY_MAX_NAME);
    printf("FIELD_WORDS %d\n", GATEWAY_FIELD_WORDS);
}

/* ---- Shapes. ---- */

static PositionSyntax none;

/* The shape of position i + 1. Each hangs on the one before it, and no two fields go together. */
static PositionSyntax shape_at(size_t i) {
    PositionSyntax shape;
    shape.parent_dynamic = i % 2 == 0;
    shape.range_dynamic = i % 3 == 0;
    shape.position_precision = i % 13 * 2;
    shape.rotation_precision = i % 11 * 2;
    shape.parent = i;
    shape.polar = i % 5 == 0;
    return shape;
}

static bool same(PositionSyntax a, PositionSyntax b) {
    return a.parent_dynamic == b.parent_dynamic && a.range_dynamic == b.range_dynamic &&
           a.position_precision == b.position_precision &&
           a.rotation_precision == b.rotation_precision && a.parent == b.parent &&
           a.polar == b.polar;
}

/* Shapes to lend, one more than a call takes, with a pattern around them. */
typedef struct {
    uint8_t before[64];
    PositionSyntax shapes[GATEWAY_MAX_POSITIONS + 1];
    uint8_t after[64];
} Lent;

static void lend(Lent *lent) {
    memset(lent, 0xA5, sizeof *lent);
    for (size_t i = 0; i < LENGTH(lent->shapes); i++)
        lent->shapes[i] = shape_at(i);
}

/* Whether every byte is as it was, but those of the first so many shapes. */
static bool kept_but(size_t shapes, const Lent *lent, const Lent *original) {
    const uint8_t *now = (const uint8_t *)lent, *then = (const uint8_t *)original;
    size_t start = offsetof(Lent, shapes), end = start + shapes * sizeof(PositionSyntax);
    return memcmp(now, then, start) == 0 && memcmp(now + end, then + end, sizeof *lent - end) == 0;
}

/* ---- Inputs, put together field by field. ---- */

typedef struct {
    uint8_t bytes[8192];
    size_t offset; /* where the reading begins, and */
    size_t end;    /* ends, in bits */
    size_t fields;
} Input;

static Input begun_at(size_t offset) {
    Input input;
    memset(&input, 0, sizeof input);
    input.offset = input.end = offset;
    return input;
}

static size_t bytes_of(const Input *input) {
    return (input->end + 7) / 8;
}

static void put(Input *input, size_t width, uint64_t value) {
    while (width-- > 0) {
        uint64_t bit = value >> width & 1;
        input->bytes[input->end / 8] |= (uint8_t)(bit << (7 - input->end % 8));
        input->end++;
    }
    input->fields++;
}

static void put_coordinates(Input *input, PositionSyntax shape) {
    size_t precision = shape.position_precision;
    put(input, 1, shape.polar);
    put(input, precision + (shape.polar ? 7 : 6), 1);
    put(input, precision + 6, 1);
    put(input, precision + (shape.polar ? 5 : 6), 1);
}

/* A full position of this shape. */
static void put_position(Input *input, PositionSyntax shape) {
    put(input, 1, shape.parent_dynamic);
    put(input, 1, shape.range_dynamic);
    put(input, 4, shape.position_precision / 2);
    put(input, 4, shape.rotation_precision / 2);
    put(input, 1, 0); /* absolute_parent */
    put(input, 6, shape.parent);
    put(input, 4, 9); /* range_encoded */
    put(input, 1, 1); /* position_present */
    put_coordinates(input, shape);
    put(input, 1, 0); /* rotation_present */
    put(input, 1, 0); /* extensions_present */
}

/* What the update below makes of a shape. */
static PositionSyntax moved(PositionSyntax shape) {
    shape.parent = shape.parent_dynamic ? 0 : shape.parent;
    shape.polar = !shape.polar;
    return shape;
}

/* An update of a position of this shape: every field of the shape has a say in it. */
static void put_update(Input *input, PositionSyntax shape) {
    put(input, 1, 1); /* updated */
    if (shape.parent_dynamic) {
        put(input, 1, 1); /* parent_update */
        put(input, 1, 1); /* absolute_parent */
    }
    if (shape.range_dynamic) {
        put(input, 1, 1); /* range_update */
        put(input, 4, 9); /* range_encoded */
    }
    put(input, 1, 1); /* position_present */
    put(input, 1, 0); /* position_delta */
    put_coordinates(input, moved(shape));
    put(input, 1, 1); /* rotation_present */
    put(input, 1, 0); /* rotation_delta */
    for (int i = 0; i < 4; i++)
        put(input, 8 + shape.rotation_precision, 1);
    put(input, 1, 0); /* extensions_present */
}

/* ---- The readings, with recording off. ---- */

static uint64_t no_words[1];

static GatewayScene scene(const Input *in) {
    return gateway_scene(in->bytes, bytes_of(in), in->offset, false, no_words, 0);
}

static GatewayGraphAnswer update(const Input *in, PositionSyntax *shapes, size_t count) {
    return gateway_update(in->bytes, bytes_of(in), in->offset, false, no_words, 0, shapes, count);
}

static GatewayAnswer position(const Input *in, PositionSyntax *shape, bool full) {
    return gateway_position(in->bytes, bytes_of(in), in->offset, false, no_words, 0, shape, full);
}

static GatewayAnswer metadata(const Input *in) {
    return gateway_metadata(in->bytes, bytes_of(in), in->offset, false, no_words, 0);
}

static bool is_read(GatewayAnswer answer, size_t end, size_t counted) {
    return answer.outcome == GATEWAY_READ && answer.number == 0 && answer.position == end &&
           answer.counted == counted;
}

static bool is_refused(GatewayAnswer answer, uint64_t number, size_t at, size_t counted) {
    return answer.outcome == GATEWAY_REFUSED && answer.number == number && answer.position == at &&
           answer.counted == counted;
}

/* What every answer has. */
static GatewayAnswer plain(GatewayGraphAnswer graph) {
    GatewayAnswer answer;
    answer.outcome = graph.outcome;
    answer.number = graph.number;
    answer.position = graph.position;
    answer.counted = graph.counted;
    return answer;
}

static bool is_ranked(GatewayGraphAnswer answer, size_t end, size_t counted, size_t deepest) {
    return is_read(plain(answer), end, counted) && answer.deepest == deepest;
}

static bool is_unranked(GatewayGraphAnswer answer, uint64_t number, size_t at, size_t counted) {
    return is_refused(plain(answer), number, at, counted) && answer.deepest == 0;
}

/* ---- Results. ---- */

/* A struct that is returned in memory has its place as a first argument, and that pointer is handed
 * back. The header's declarations hide both; here the same functions are declared with them. */
#ifdef __cplusplus
extern "C" {
#endif
void *scene_into(void *place, const uint8_t *bytes, size_t bytes_len, size_t offset, bool recording,
                 uint64_t *words, size_t words_len) __asm__("gateway_scene");
void *update_into(void *place, const uint8_t *bytes, size_t bytes_len, size_t offset,
                  bool recording, uint64_t *words, size_t words_len, PositionSyntax *shapes,
                  size_t shapes_len) __asm__("gateway_update");
void *position_into(void *place, const uint8_t *bytes, size_t bytes_len, size_t offset,
                    bool recording, uint64_t *words, size_t words_len, PositionSyntax *shape,
                    bool full) __asm__("gateway_position");
void *metadata_into(void *place, const uint8_t *bytes, size_t bytes_len, size_t offset,
                    bool recording, uint64_t *words, size_t words_len) __asm__("gateway_metadata");
void *validation_into(void *place, const PositionSyntax *shapes, size_t shapes_len, size_t at)
    __asm__("gateway_validation");
void *name_into(void *place, uint64_t word, uint8_t *bytes, size_t bytes_len)
    __asm__("gateway_name");
void *parents_into(void *place, const PositionSyntax *shapes, size_t shapes_len,
                   const size_t *parents, size_t parents_len, uint8_t *packet, size_t packet_len)
    __asm__("gateway_parents");
#ifdef __cplusplus
}
#endif

static uint8_t zeros[GATEWAY_MAX_NAME];

static void *read_scene(void *place) {
    return scene_into(place, zeros, sizeof zeros, 0, false, no_words, 0);
}

static void *refused_scene(void *place) {
    return scene_into(place, zeros, 0, 0, false, no_words, 0);
}

static void *read_update(void *place) {
    PositionSyntax shape = none;
    return update_into(place, zeros, sizeof zeros, 0, false, no_words, 0, &shape, 1);
}

static void *refused_update(void *place) {
    PositionSyntax shape = none;
    return update_into(place, zeros, 0, 0, false, no_words, 0, &shape, 1);
}

static void *read_position(void *place) {
    PositionSyntax shape = none;
    return position_into(place, zeros, sizeof zeros, 0, false, no_words, 0, &shape, true);
}

static void *refused_metadata(void *place) {
    return metadata_into(place, zeros, sizeof zeros, 0, false, no_words, 0);
}

static void *read_validation(void *place) {
    return validation_into(place, &none, 1, 0);
}

/* A position that hangs on itself. */
static void *refused_validation(void *place) {
    PositionSyntax shape = none;
    shape.parent = 1;
    return validation_into(place, &shape, 1, 0);
}

static void *refused_name(void *place) {
    return name_into(place, 0, zeros, sizeof zeros);
}

/* A position that keeps its parent: one bit, which is 0. */
static void *written_parents(void *place) {
    return parents_into(place, &none, 1, &none.parent, 1, zeros, sizeof zeros);
}

static void *refused_parents(void *place) {
    return parents_into(place, &none, 1, &none.parent, 0, zeros, sizeof zeros);
}

/* Calls with a place full of one pattern, and of another: a byte that was written is then the same
 * in both. Every byte of a field must be, and none before the place or after its size may be. */
static void check_result(void *(*call)(void *), size_t size, const bool *of_a_field) {
    enum { MARGIN = 64, ROOM = MARGIN + sizeof(GatewayScene) + MARGIN, ONE = 0xA5, OTHER = 0x5A };
    static union {
        uint8_t bytes[ROOM];
        GatewayScene aligned;
    } one, other;
    memset(one.bytes, ONE, ROOM);
    memset(other.bytes, OTHER, ROOM);
    EXPECT(call(one.bytes + MARGIN) == one.bytes + MARGIN);
    EXPECT(call(other.bytes + MARGIN) == other.bytes + MARGIN);
    for (size_t i = 0; i < ROOM; i++) {
        if (i < MARGIN || i >= MARGIN + size)
            EXPECT(one.bytes[i] == ONE && other.bytes[i] == OTHER);
        else if (of_a_field[i - MARGIN])
            EXPECT(one.bytes[i] == other.bytes[i]);
    }
}

static void mark(bool *of_a_field, const Field *fields, size_t count) {
    for (size_t i = 0; i < count; i++)
        memset(of_a_field + fields[i].offset, true, fields[i].size);
}

/* Only a shape has padding: elsewhere a part of a wider field could hide in it. */
static void check_results(void) {
    static bool of_answer[sizeof(GatewayAnswer)], of_graph[sizeof(GatewayGraphAnswer)],
        of_scene[sizeof(GatewayScene)];
    mark(of_answer, ANSWER, LENGTH(ANSWER));
    EXPECT(memchr(of_answer, false, sizeof of_answer) == NULL);
    check_result(read_position, sizeof(GatewayAnswer), of_answer);
    check_result(refused_metadata, sizeof(GatewayAnswer), of_answer);
    check_result(refused_name, sizeof(GatewayAnswer), of_answer);
    check_result(written_parents, sizeof(GatewayAnswer), of_answer);
    check_result(refused_parents, sizeof(GatewayAnswer), of_answer);

    mark(of_graph, GRAPH_ANSWER, LENGTH(GRAPH_ANSWER));
    EXPECT(memchr(of_graph, false, sizeof of_graph) == NULL);
    EXPECT(sizeof(GatewayGraphAnswer) == 40 && offsetof(GatewayGraphAnswer, deepest) == 32);
    check_result(read_update, sizeof(GatewayGraphAnswer), of_graph);
    check_result(refused_update, sizeof(GatewayGraphAnswer), of_graph);
    check_result(read_validation, sizeof(GatewayGraphAnswer), of_graph);
    check_result(refused_validation, sizeof(GatewayGraphAnswer), of_graph);

    bool *of_shapes = of_scene + offsetof(GatewayScene, shapes);
    mark(of_scene, SCENE, LENGTH(SCENE));
    EXPECT(memchr(of_scene, false, sizeof of_scene) == NULL);
    memset(of_shapes, false, sizeof(PositionSyntax[GATEWAY_MAX_POSITIONS]));
    for (size_t i = 0; i < GATEWAY_MAX_POSITIONS; i++)
        mark(of_shapes + i * sizeof(PositionSyntax), SHAPE, LENGTH(SHAPE));
    check_result(read_scene, sizeof(GatewayScene), of_scene);
    check_result(refused_scene, sizeof(GatewayScene), of_scene);
}

/* ---- Each function, by the header. ---- */

static void check_shapes(const PositionSyntax *shapes, size_t count) {
    for (size_t i = 0; i < GATEWAY_MAX_POSITIONS; i++)
        EXPECT(same(shapes[i], i < count ? shape_at(i) : none));
}

/* Scenes of every count, and each of them cut. */
static void check_scenes(void) {
    for (size_t count = 0; count <= GATEWAY_MAX_POSITIONS; count++) {
        Input input = begun_at(5);
        put(&input, 6, count);
        for (size_t i = 0; i < count; i++)
            put_position(&input, shape_at(i));
        GatewayScene read = scene(&input);
        EXPECT(is_ranked(read.answer, input.end, input.fields, count));
        EXPECT(read.count == count);
        check_shapes(read.shapes, count);

        input.end -= 8;
        GatewayScene refused = scene(&input);
        EXPECT(refused.answer.outcome == GATEWAY_REFUSED && refused.answer.deepest == 0);
        EXPECT(refused.count == 0);
        check_shapes(refused.shapes, 0);
    }
}

/* Updates of all lent shapes, but not of the one after them; of too many; and one that is cut. */
static void check_updates(void) {
    Input input = begun_at(3);
    for (size_t i = 0; i < GATEWAY_MAX_POSITIONS; i++)
        put_update(&input, shape_at(i));
    Lent original, lent;
    lend(&original);
    memcpy(&lent, &original, sizeof lent);
    GatewayGraphAnswer read = update(&input, lent.shapes, GATEWAY_MAX_POSITIONS);
    EXPECT(is_ranked(read, input.end, input.fields, 2));
    EXPECT(kept_but(GATEWAY_MAX_POSITIONS, &lent, &original));
    for (size_t i = 0; i < GATEWAY_MAX_POSITIONS; i++)
        EXPECT(same(lent.shapes[i], moved(shape_at(i))));

    memcpy(&lent, &original, sizeof lent);
    GatewayGraphAnswer too_many = update(&input, lent.shapes, LENGTH(lent.shapes));
    EXPECT(is_unranked(too_many, GATEWAY_SHAPE_LIMIT, 0, 0));
    input.end -= 8;
    GatewayGraphAnswer cut = update(&input, lent.shapes, GATEWAY_MAX_POSITIONS);
    EXPECT(cut.number == GATEWAY_TRUNCATED && cut.deepest == 0);
    EXPECT(kept_but(0, &lent, &original));
}

/* Full positions, each read into the least shape and the greatest, and cut. */
static void check_full_positions(void) {
    PositionSyntax greatest = {true, true, GATEWAY_MAX_PRECISION, GATEWAY_MAX_PRECISION, SIZE_MAX,
                               true};
    for (size_t i = 0; i < 2 * GATEWAY_MAX_POSITIONS; i++) {
        Input input = begun_at(7);
        put_position(&input, shape_at(i / 2));
        Input cut = input;
        cut.end -= 8;
        Lent original, lent;
        lend(&original);
        original.shapes[0] = i % 2 == 0 ? none : greatest;
        memcpy(&lent, &original, sizeof lent);
        EXPECT(position(&cut, lent.shapes, true).number == GATEWAY_TRUNCATED);
        EXPECT(kept_but(0, &lent, &original));
        EXPECT(is_read(position(&input, lent.shapes, true), input.end, input.fields));
        EXPECT(same(lent.shapes[0], shape_at(i / 2)));
        EXPECT(kept_but(1, &lent, &original));
    }
}

/* A position of an update that begins with these two bits and goes on with zeros. */
static GatewayAnswer position_after(unsigned bits, PositionSyntax *shape) {
    Input input = begun_at(0);
    put(&input, 2, bits);
    input.end = 1024;
    return position(&input, shape, false);
}

/* Each field of a shape changes how such a position goes on, but the parent, which is kept. */
static void check_shape_fields(void) {
    PositionSyntax shape = none;
    EXPECT(is_read(position_after(3, &shape), 10, 7));
    EXPECT(is_read(position_after(1, &shape), 36, 8));
    shape.parent = SIZE_MAX;
    EXPECT(is_read(position_after(3, &shape), 10, 7) && shape.parent == SIZE_MAX);
    shape.parent_dynamic = true;
    EXPECT(is_read(position_after(3, &shape), 5, 5) && shape.parent == 0);
    shape = none;
    shape.range_dynamic = true;
    EXPECT(is_read(position_after(3, &shape), 8, 5));
    shape = none;
    shape.position_precision = 7;
    EXPECT(is_read(position_after(3, &shape), 10 + 3 * 7, 7));
    shape = none;
    shape.rotation_precision = 9;
    EXPECT(is_read(position_after(1, &shape), 36 + 4 * 9, 8));
    shape = none;
    shape.polar = true;
    EXPECT(is_read(position_after(3, &shape), 9, 6));
    shape.position_precision = GATEWAY_MAX_PRECISION + 1;
    EXPECT(is_refused(position_after(3, &shape), GATEWAY_SHAPE_LIMIT, 0, 0));
}

/* Each byte of a number counts, in a shape and as an argument. */
static void check_number_bytes(void) {
    for (size_t low = 8; low < 64; low += 8) {
        size_t large = (size_t)1 << low;
        PositionSyntax shape = none;
        shape.position_precision = large;
        EXPECT(is_refused(position_after(0, &shape), GATEWAY_SHAPE_LIMIT, 0, 0));
        shape = none;
        shape.rotation_precision = large;
        EXPECT(is_refused(position_after(0, &shape), GATEWAY_SHAPE_LIMIT, 0, 0));
        shape = none;
        shape.parent = large;
        EXPECT(is_unranked(gateway_validation(&shape, 1, large), GATEWAY_SCENE_PARENT, large, 0));
        EXPECT(is_ranked(gateway_validation(&none, 1, large), large, 0, 1));
        Input input = begun_at(0);
        input.offset = large;
        EXPECT(is_unranked(scene(&input).answer, GATEWAY_TRUNCATED, 0, 0));
        EXPECT(is_refused(metadata(&input), GATEWAY_TRUNCATED, 0, 0));
    }
}

static void check_validations(void) {
    PositionSyntax shapes[GATEWAY_MAX_POSITIONS + 1];
    for (size_t i = 0; i < LENGTH(shapes); i++)
        shapes[i] = shape_at(i);
    for (size_t count = 0; count <= GATEWAY_MAX_POSITIONS; count++)
        EXPECT(is_ranked(gateway_validation(shapes, count, 77), 77, 0, count));
    EXPECT(is_unranked(gateway_validation(shapes, LENGTH(shapes), 77), GATEWAY_SHAPE_LIMIT, 0, 0));
    EXPECT(is_unranked(gateway_validation(shapes + 1, 1, 77), GATEWAY_SCENE_PARENT_CYCLE, 77, 0));
    EXPECT(is_unranked(gateway_validation(shapes + 2, 1, 77), GATEWAY_SCENE_PARENT, 77, 0));
    shapes[GATEWAY_MAX_POSITIONS - 1].parent = 7;
    EXPECT(is_ranked(gateway_validation(shapes, GATEWAY_MAX_POSITIONS, 77), 77, 0, 62));
}

static const uint8_t WORKED[] = {0x0A, 0x00, 0x80, 0x80, 0x00, 0x80};

/* Document 01's show: the last packet is refused, unless position 2 is freed before. */
static void check_worked_example(void) {
    static const uint8_t first_on_second[] = {0xC1, 0x00}, second_freed[] = {0x70};
    GatewayScene read = gateway_scene(WORKED, sizeof WORKED, 0, false, no_words, 0);
    EXPECT(is_ranked(read.answer, 48, 20, 2));
    struct {
        const uint8_t *bytes;
        size_t bytes_len, end, counted, deepest;
    } packets[] = {
        {first_on_second, sizeof first_on_second, 13, 8, 0},
        {second_freed, sizeof second_freed, 7, 7, 1},
        {first_on_second, sizeof first_on_second, 13, 8, 2},
    };
    for (size_t i = 0; i < LENGTH(packets); i++) {
        GatewayGraphAnswer answer = gateway_update(packets[i].bytes, packets[i].bytes_len, 0, false,
                                                   no_words, 0, read.shapes, read.count);
        size_t end = packets[i].end, counted = packets[i].counted, deepest = packets[i].deepest;
        EXPECT(deepest == 0 ? is_unranked(answer, GATEWAY_SCENE_PARENT_CYCLE, end, counted)
                            : is_ranked(answer, end, counted, deepest));
    }
}

/* A name word of these parts. */
static uint64_t word(uint64_t leaf, uint64_t block, uint64_t i, uint64_t j, uint64_t k,
                     uint64_t m) {
    return leaf | block << 8 | i << 12 | j << 25 | k << 38 | m << 51;
}

/* What the readings below record. It holds a pattern before. */
static uint64_t words[200];

static const uint8_t UPDATE[] = {0x40};
static const uint8_t PAYLOAD[] = {0xC1, 0xFF, 0x80};
static const uint8_t LABEL[] = {0x63, 0x20, 0x82, 0x00, 0x00, 0x00};

static GatewayAnswer record_scene(bool recording, size_t room) {
    return plain(gateway_scene(WORKED, sizeof WORKED, 0, recording, words, room).answer);
}

static GatewayAnswer record_position(bool recording, size_t room) {
    PositionSyntax shape = none;
    return gateway_position(WORKED, sizeof WORKED, 24, recording, words, room, &shape, true);
}

static GatewayAnswer record_update(bool recording, size_t room) {
    PositionSyntax shapes[2] = {none, none};
    return plain(gateway_update(UPDATE, sizeof UPDATE, 0, recording, words, room, shapes,
                                LENGTH(shapes)));
}

static GatewayAnswer record_payload(bool recording, size_t room) {
    return gateway_metadata(PAYLOAD, sizeof PAYLOAD, 0, recording, words, room);
}

static GatewayAnswer record_label(bool recording, size_t room) {
    return gateway_metadata(LABEL, sizeof LABEL, 0, recording, words, room);
}

static bool is_field(size_t index, size_t offset, size_t width, uint64_t kind, uint64_t value,
                     uint64_t name) {
    const uint64_t *field = words + index * GATEWAY_FIELD_WORDS;
    return field[GATEWAY_BIT_OFFSET] == offset && field[GATEWAY_BIT_LENGTH] == width &&
           field[GATEWAY_KIND] == kind && field[GATEWAY_VALUE] == value &&
           field[GATEWAY_NAME] == name;
}

static bool untouched_from(size_t first) {
    for (size_t i = first; i < LENGTH(words); i++)
        if (words[i] != UINT64_MAX - i)
            return false;
    return true;
}

/* With recording off no word is written, otherwise those of the counted fields. */
static void check_recording(GatewayAnswer (*record)(bool, size_t), size_t end, size_t fields) {
    size_t room = fields * GATEWAY_FIELD_WORDS;
    for (size_t i = 0; i < LENGTH(words); i++)
        words[i] = UINT64_MAX - i;
    EXPECT(is_read(record(false, room), end, fields));
    EXPECT(untouched_from(0));
    GatewayAnswer full = record(true, room - 1);
    EXPECT(full.number == GATEWAY_WORD_LIMIT && full.counted == fields - 1);
    EXPECT(untouched_from(room - GATEWAY_FIELD_WORDS));
    EXPECT(is_read(record(true, room), end, fields));
    EXPECT(untouched_from(room));
}

static void check_recordings(void) {
    check_recording(record_scene, 48, 20);
    EXPECT(is_field(0, 0, 6, GATEWAY_NUMBER, 2, word(1, 1, 0, 0, 0, 0)));
    EXPECT(is_field(10, 24, 1, GATEWAY_FLAG, 1, word(2, 2, 1, 0, 0, 0)));
    check_recording(record_position, 48, 10);
    EXPECT(is_field(5, 35, 6, GATEWAY_NUMBER, 1, word(8, 2, 0, 0, 0, 0)));
    check_recording(record_update, 5, 5);
    EXPECT(is_field(1, 1, 1, GATEWAY_FLAG, 1, word(23, 2, 1, 0, 0, 0)));
    check_recording(record_payload, 22, 7);
    EXPECT(is_field(3, 8, 8, GATEWAY_BITS, 8, word(47, 4, 0, 0, 0, 0)));
    check_recording(record_label, 47, 12);
    EXPECT(is_field(8, 15, 16, GATEWAY_BYTES, 2, word(62, 6, 0, 0, 0, 0)));
}

static void check_name(uint64_t name, const char *text) {
    uint8_t bytes[GATEWAY_MAX_NAME], before[GATEWAY_MAX_NAME];
    size_t length = strlen(text);
    memset(before, '-', sizeof before);
    memcpy(bytes, before, sizeof bytes);
    EXPECT(is_refused(gateway_name(name, bytes, length - 1), GATEWAY_SHORT_BUFFER, 0, 0));
    EXPECT(memcmp(bytes, before, sizeof bytes) == 0);
    EXPECT(is_read(gateway_name(name, bytes, sizeof bytes), 0, length));
    EXPECT(memcmp(bytes, text, length) == 0);
    EXPECT(memcmp(bytes + length, before + length, sizeof bytes - length) == 0);
}

static void check_names(void) {
    check_name(word(1, 1, 0, 0, 0, 0), "ancillary.scene_graph.count");
    check_name(word(111, 9, 1164, 127, 581, 1),
               "ancillary.metadata.groups[1164].data.parameters[127].bands[581].encoded[1]");
    GatewayAnswer unknown = gateway_name(word(2, 1, 0, 0, 0, 0), zeros, sizeof zeros);
    EXPECT(is_refused(unknown, GATEWAY_UNKNOWN_WORD, 0, 0));
}

/* Shapes with new parents and bytes for a packet, with a pattern around them. */
typedef struct {
    Lent lent;
    size_t parents[GATEWAY_MAX_POSITIONS + 1];
    uint8_t before[64];
    uint8_t packet[128];
    uint8_t after[64];
} Wanted;

/* Positions whose parent can change shall lose it or hang on position 1, by turns, and the others
 * keep theirs. */
static void want(Wanted *wanted) {
    memset(wanted, 0xA5, sizeof *wanted);
    lend(&wanted->lent);
    for (size_t i = 0; i < LENGTH(wanted->parents); i++)
        wanted->parents[i] = i % 4 == 2 ? 1 : moved(shape_at(i)).parent;
}

/* The bits of a position in such a packet. */
static void put_parent(Input *input, PositionSyntax shape, size_t parent) {
    put(input, 1, shape.parent != parent); /* updated */
    if (shape.parent == parent)
        return;
    put(input, 1, 1);           /* parent_update */
    put(input, 1, parent == 0); /* absolute_parent */
    if (parent != 0)
        put(input, 6, parent);
    if (shape.range_dynamic)
        put(input, 1, 0); /* range_update */
    put(input, 1, 0);     /* position_present */
    put(input, 1, 0);     /* rotation_present */
    put(input, 1, 0);     /* extensions_present */
}

/* Lends so many shapes, new parents and bytes. Only so many bytes of the packet may be written. */
static GatewayAnswer write_parents(Wanted *wanted, size_t shapes, size_t parents, size_t room,
                                   size_t written) {
    static Wanted original;
    memcpy(&original, wanted, sizeof original);
    GatewayAnswer answer = gateway_parents(wanted->lent.shapes, shapes, wanted->parents, parents,
                                           wanted->packet, room);
    memcpy(original.packet, wanted->packet, written);
    EXPECT(memcmp(&original, wanted, sizeof original) == 0);
    return answer;
}

/* Packets of every count, written into more bytes than they take, into as many, and into a byte too
 * few; and read back. */
static void check_packets(void) {
    static Wanted wanted;
    for (size_t count = 0; count <= GATEWAY_MAX_POSITIONS; count++) {
        Input input = begun_at(0);
        want(&wanted);
        for (size_t i = 0; i < count; i++)
            put_parent(&input, shape_at(i), wanted.parents[i]);
        size_t bytes = bytes_of(&input);
        if (bytes > 0) {
            GatewayAnswer full = write_parents(&wanted, count, count, bytes - 1, 0);
            EXPECT(is_refused(full, GATEWAY_SHORT_PACKET, 0, 0));
        }
        size_t rooms[] = {bytes, sizeof wanted.packet};
        for (size_t i = 0; i < LENGTH(rooms); i++) {
            memset(wanted.packet, 0xA5, sizeof wanted.packet);
            GatewayAnswer written = write_parents(&wanted, count, count, rooms[i], bytes);
            EXPECT(is_read(written, 0, input.end));
            EXPECT(memcmp(wanted.packet, input.bytes, bytes) == 0);
        }

        GatewayGraphAnswer read = update(&input, wanted.lent.shapes, count);
        EXPECT(is_read(plain(read), input.end, input.fields));
        for (size_t i = 0; i < count; i++) {
            PositionSyntax hung = shape_at(i);
            hung.parent = wanted.parents[i];
            EXPECT(same(wanted.lent.shapes[i], hung));
        }
    }
}

/* What is refused: first by one question alone, then by one asked before those that refused before
 * it. Nothing is written. */
static void check_refused_parents(void) {
    static Wanted wanted;
    size_t all = GATEWAY_MAX_POSITIONS, room = sizeof wanted.packet;
    struct {
        size_t shapes, parents, room;
        uint64_t number;
    } cases[] = {
        {all, all - 1, room, GATEWAY_PARENT_COUNT}, {all, all + 1, room, GATEWAY_PARENT_COUNT},
        {0, 1, room, GATEWAY_PARENT_COUNT},         {all + 1, all, room, GATEWAY_PARENT_COUNT},
        {all, all, 0, GATEWAY_SHORT_PACKET},        {all + 1, all + 1, room, GATEWAY_SHAPE_LIMIT},
    };
    want(&wanted);
    for (size_t i = 0; i < LENGTH(cases); i++) {
        GatewayAnswer refused = write_parents(&wanted, cases[i].shapes, cases[i].parents,
                                              cases[i].room, 0);
        EXPECT(is_refused(refused, cases[i].number, 0, 0));
    }
    wanted.parents[2] = 3;
    EXPECT(is_refused(write_parents(&wanted, all, all, 0, 0), GATEWAY_SCENE_PARENT_CYCLE, 0, 0));
    wanted.parents[2] = 64;
    EXPECT(is_refused(write_parents(&wanted, all, all, 0, 0), GATEWAY_SCENE_PARENT, 0, 0));
    wanted.parents[3] = 0;
    EXPECT(is_refused(write_parents(&wanted, all, all, 0, 0), GATEWAY_PARENT_FIXED, 0, 0));
    wanted.lent.shapes[9].rotation_precision = GATEWAY_MAX_PRECISION + 1;
    EXPECT(is_refused(write_parents(&wanted, all, all, 0, 0), GATEWAY_SHAPE_LIMIT, 0, 0));
}

/* A position of this shape that is to have this parent, and as many bytes as it takes at most. */
static GatewayAnswer parent_of(PositionSyntax shape, size_t parent) {
    uint8_t packet[2];
    return gateway_parents(&shape, 1, &parent, 1, packet, sizeof packet);
}

/* Each field of a shape counts but polar, and each byte of its numbers and of a new parent. */
static void check_parent_fields(void) {
    for (size_t low = 0; low < 64; low += 8) {
        size_t large = (size_t)1 << low;
        PositionSyntax shape = none;
        shape.parent = large;
        uint64_t unranked = large == 1 ? GATEWAY_SCENE_PARENT_CYCLE : GATEWAY_SCENE_PARENT;
        EXPECT(is_refused(parent_of(shape, large), unranked, 0, 0));
        EXPECT(is_refused(parent_of(shape, 0), GATEWAY_PARENT_FIXED, 0, 0));
        shape.parent_dynamic = true;
        EXPECT(is_read(parent_of(shape, 0), 0, 6));
        shape.range_dynamic = true;
        EXPECT(is_read(parent_of(shape, 0), 0, 7));
        shape.parent = 0;
        EXPECT(is_refused(parent_of(shape, large), unranked, 0, 0));
        shape.polar = true;
        EXPECT(is_read(parent_of(shape, 0), 0, 1));
        shape.position_precision = 32 * large;
        EXPECT(is_refused(parent_of(shape, 0), GATEWAY_SHAPE_LIMIT, 0, 0));
        shape.position_precision = 0;
        shape.rotation_precision = 32 * large;
        EXPECT(is_refused(parent_of(shape, 0), GATEWAY_SHAPE_LIMIT, 0, 0));
    }
}

/* ---- The numbers that were not met above. ---- */

/* The first bytes of an input, with zeros after them, that ends in a number. */
typedef struct {
    uint64_t number;
    uint8_t bytes[4];
} Case;

static const Case SCENES[] = {
    {GATEWAY_COUNT_RANGE, {0xFC}},
    {GATEWAY_SCENE_PARENT, {0x04, 0x00, 0x04}},
    {GATEWAY_SCENE_PARENT_CYCLE, {0x04, 0x00, 0x02}},
};
static const Case METADATA[] = {
    {GATEWAY_METADATA_PRESENCE, {0x00}},
    {GATEWAY_METADATA_PARAMETER_COUNT, {0x7F, 0xD2}},
    {GATEWAY_RENDERER_PARAMETER_COUNT, {0x42, 0x1F, 0xFE}},
    {GATEWAY_RENDERER_REVERB_TYPE, {0x42, 0x18, 0xCC}},
    {GATEWAY_RENDERER_MATRIX_LOCATION, {0x42, 0x18, 0xF8, 0x7C}},
    {GATEWAY_RENDERER_RADIATION_TYPE, {0x42, 0x18, 0xDD}},
    {GATEWAY_METADATA_COMPONENT_TYPE, {0x42, 0x08, 0x50}},
    {GATEWAY_METADATA_HEADPHONE_SIZE, {0x63, 0xE0}},
    {GATEWAY_METADATA_COMPRESSION_SIZE, {0xAF, 0x05}},
    {GATEWAY_METADATA_TABLE_RESOURCE_LIMIT, {0x91, 0x1B}},
    {GATEWAY_METADATA_CODEWORD_WIDTH, {0xB8, 0x00, 0xF9, 0x08}},
    {GATEWAY_METADATA_PROBABILITY, {0xA2}},
    {GATEWAY_ROOM_GEOMETRY_FALLBACK, {0x42, 0x18, 0xCB, 0x02}},
    {GATEWAY_DOUBLE_PRECISION_RADIATION, {0x42, 0x18, 0xDB, 0xC6}},
    {GATEWAY_RESOURCE_HRTF, {0x62, 0xE4}},
    {GATEWAY_HRTF_TYPE, {0x62, 0xE6}},
    {GATEWAY_LZW_WIDTHS, {0x81, 0x78}},
};

static Input input_of(Case given) {
    Input input = begun_at(0);
    memcpy(input.bytes, given.bytes, sizeof given.bytes);
    input.end = 128;
    return input;
}

static bool has(GatewayAnswer answer, uint64_t number) {
    bool stops = number >= GATEWAY_ROOM_GEOMETRY_FALLBACK && number <= GATEWAY_LZW_WIDTHS;
    return answer.outcome == (stops ? GATEWAY_STOPPED : GATEWAY_REFUSED) && answer.number == number;
}

static void check_cases(void) {
    for (size_t i = 0; i < LENGTH(SCENES); i++) {
        Input input = input_of(SCENES[i]);
        GatewayGraphAnswer answer = scene(&input).answer;
        EXPECT(has(plain(answer), SCENES[i].number) && answer.deepest == 0);
    }
    for (size_t i = 0; i < LENGTH(METADATA); i++) {
        Input input = input_of(METADATA[i]);
        EXPECT(has(metadata(&input), METADATA[i].number));
    }
}

static void check_input_limit(void) {
    static uint8_t bytes[GATEWAY_MAX_BYTES + 1] = {0x40};
    GatewayAnswer longest = gateway_metadata(bytes, sizeof bytes - 1, 0, false, no_words, 0);
    EXPECT(is_read(longest, 7, 4));
    GatewayAnswer longer = gateway_metadata(bytes, sizeof bytes, 0, false, no_words, 0);
    EXPECT(is_refused(longer, GATEWAY_INPUT_LIMIT, 0, 0));
}

/* Four tables of a compression, of 4,096 symbols each. */
static void check_field_limit(void) {
    Input input = begun_at(0);
    put(&input, 1, 1);          /* compression_present */
    put(&input, 3, 1);          /* compression.type */
    put(&input, 28, 0xFFF0800); /* compression.bytes */
    put(&input, 3, 3);          /* table_count_minus_one */
    for (int table = 0; table < 4; table++) {
        put(&input, 5, 11); /* symbol_width_minus_one */
        put(&input, 5, 0);  /* value_width_minus_one */
        for (int i = 0; i < 4096; i++)
            put(&input, 1, 1); /* values_encoded */
    }
    input.end = 8 * sizeof input.bytes;
    GatewayAnswer answer = metadata(&input);
    EXPECT(has(answer, GATEWAY_FIELD_LIMIT) && answer.counted == GATEWAY_MAX_FIELDS);
}

static void check_extensions(void) {
    Input input = begun_at(0);
    PositionSyntax shape = none;
    put(&input, 1, 0); /* position_present */
    put(&input, 1, 0); /* rotation_present */
    put(&input, 1, 1); /* extensions_present */
    for (int i = 0; i < 32; i++) {
        put(&input, 4, 1); /* type */
        put(&input, 4, 0); /* length_width_minus_four */
        put(&input, 4, 0); /* bits_minus_one */
        put(&input, 1, 0); /* payload */
    }
    GatewayAnswer answer = position(&input, &shape, false);
    EXPECT(is_refused(answer, GATEWAY_POSITION_EXTENSIONS, input.end, input.fields));
}

/* A label that doesn't end. */
static void check_string_limit(void) {
    Input input = begun_at(0);
    memset(input.bytes, 0xFF, sizeof input.bytes);
    input.bytes[0] = 0x63;
    input.bytes[1] = 0x21;
    input.end = 8 * sizeof input.bytes;
    EXPECT(is_refused(metadata(&input), GATEWAY_METADATA_STRING_LIMIT, 15 + 8 * 4097, 8));
}

int main(void) {
    check_results();
    check_scenes();
    check_updates();
    check_full_positions();
    check_shape_fields();
    check_number_bytes();
    check_validations();
    check_worked_example();
    check_recordings();
    check_names();
    check_packets();
    check_refused_parents();
    check_parent_fields();
    check_cases();
    check_input_limit();
    check_field_limit();
    check_extensions();
    check_string_limit();
    print_layout("PositionSyntax", sizeof(PositionSyntax), SHAPE, LENGTH(SHAPE));
    print_layout("GatewayAnswer", sizeof(GatewayAnswer), ANSWER, LENGTH(ANSWER));
    print_layout("GatewayGraphAnswer", sizeof(GatewayGraphAnswer), GRAPH_ANSWER,
                 LENGTH(GRAPH_ANSWER));
    print_layout("GatewayScene", sizeof(GatewayScene), SCENE, LENGTH(SCENE));
    print_limits();
}

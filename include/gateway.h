/* Scene, renderer and compression declarations of the APAC audio codec: the functions of the static
 * library libgateway.a, for x86-64 and its System V calling convention.
 *
 * Any input, cut anywhere and begun at any bit, is read to its end, refused with a number and a bit
 * position, or stopped with a number and a bit position. A scene is read, and then updated:
 *
 *     GatewayScene scene = gateway_scene(bytes, bytes_len, 0, false, words, 0);
 *     if (scene.answer.outcome == GATEWAY_READ)
 *         answer = gateway_update(packet, packet_len, 0, false, words, 0,
 *                                 scene.shapes, scene.count);
 *
 * What holds of every function:
 * - It is lent memory for the call and keeps nothing of it. It allocates nothing and has no state
 *   of its own, so any thread may call it.
 * - A slice is lent as a pointer and the number of its elements. The pointer must be aligned for
 *   them and not null, even where that number is 0. What is lent to one call must not overlap.
 * - A bool must be 0 or 1, in a lent shape too. Nothing else is asked of the arguments: every value
 *   has its answer.
 */
#ifndef GATEWAY_H
#define GATEWAY_H

#include <stdbool.h>
#include <stddef.h>
#include <stdint.h>

#ifdef __cplusplus
extern "C" {
#endif

/* The greatest sizes. */
enum GatewayLimit {
    GATEWAY_MAX_BYTES = 8388608, /* of an input */
    GATEWAY_MAX_FIELDS = 16384,  /* of a reading, each of five words if recorded */
    GATEWAY_MAX_POSITIONS = 63,  /* of a scene, and so of shapes */
    GATEWAY_MAX_PRECISION = 24,  /* of a shape */
    GATEWAY_MAX_NAME = 128       /* bytes of a name's text */
};

/* The shape of one position. Positions are numbered from 1: shapes[i] is that of position i + 1.
 * The default is all false and 0. */
typedef struct {
    bool parent_dynamic;       /* whether an update can change the parent */
    bool range_dynamic;        /* whether an update can change the range, which no shape holds */
    size_t position_precision; /* twice its 4-bit field, at most 24 */
    size_t rotation_precision; /* likewise */
    size_t parent;             /* the number of the parent, 0 for none */
    bool polar;                /* whether coordinates are polar; in a scene false if it has none */
} PositionSyntax;

enum GatewayOutcome {
    GATEWAY_READ = 0,
    GATEWAY_REFUSED = 1,
    GATEWAY_STOPPED = 2
};

/* What a position, metadata, a name or new parents answer. The last two are "read" if they are
 * written. */
typedef struct {
    uint64_t outcome; /* a GatewayOutcome */
    uint64_t number;  /* 0 if read, else a GatewayNumber */
    size_t position;  /* in bits, from the first bit of the input; the end, if read */
    size_t counted;   /* the fields counted, recorded or not; of a name the bytes of its text; of
                         new parents the bits of their packet */
} GatewayAnswer;

/* What a scene, an update or a validation answers. `deepest` is the largest rank of the shapes that
 * it accepts: the length of the longest chain of parents. What a rank is stands at 8 below. Later
 * libraries add fields at the end: a caller is compiled with the header of its library. */
typedef struct {
    uint64_t outcome; /* a GatewayOutcome */
    uint64_t number;  /* 0 if read, else a GatewayNumber */
    size_t position;  /* as in GatewayAnswer */
    size_t counted;   /* the fields counted, recorded or not */
    size_t deepest;   /* the largest rank, 0 unless read; 0 too where there are no positions */
} GatewayGraphAnswer;

/* Why a call was refused or stopped. The words beside the numbers are those of docs/NUMBERS.md.
 *
 * 1, 2, 25, 26, 36 to 38, and 3 for the offset, give position 0 and count nothing. 3 for a field
 * gives the place of the read that failed: in an escaped number that part, in a label that byte, in
 * a payload its start. 4 to 22 and the stops give the place just after the bits last read. But
 * gateway_validation gives 8 and 9 at a position that it was handed, and gateway_parents at 0. */
enum GatewayNumber {
    /* Asked first, in this order: 1 and 3 by every reading, 2 where shapes are lent (by
     * gateway_parents after 36). 3 is given for an offset past the input's end, and later for each
     * field whose bits are not there. */
    GATEWAY_INPUT_LIMIT = 1, /* the input has more than 8,388,608 bytes */
    GATEWAY_SHAPE_LIMIT = 2, /* more than 63 shapes, or a precision above 24 */
    GATEWAY_TRUNCATED = 3,   /* the bits asked for are not there */

    /* Asked of each field, after 3 and in this order: 4 recording or not, 5 only if recording. */
    GATEWAY_FIELD_LIMIT = 4, /* 16,384 fields are counted already */
    GATEWAY_WORD_LIMIT = 5,  /* no five words remain for the field */

    /* Asked where a count says how many things follow, in a scene or metadata. The bits left can
     * hold them unless count x least bits is above the bits left. */
    GATEWAY_COUNT_RANGE = 6, /* count above 4,096, or above what the bits left can hold */

    /* Asked of each position, wherever it stands. */
    GATEWAY_POSITION_EXTENSIONS = 7, /* no type 0 among 32 position extensions */

    /* Asked of all parents after the last position, and of all new parents. The rank of a position
     * is 1 if its parent is 0, otherwise one more than the rank of its parent, which must be
     * declared. The lowest-numbered position without a rank decides: 8 if its chain of parents
     * leaves the declared numbers, 9 if the chain returns. */
    GATEWAY_SCENE_PARENT = 8,       /* a chain of parents leaves the declared positions */
    GATEWAY_SCENE_PARENT_CYCLE = 9, /* a chain of parents closes a circle */

    /* Asked of metadata. Headphone bytes are too few if 3 x channels + 8 is above 8 x headphone
     * bytes. */
    GATEWAY_METADATA_PRESENCE = 10,             /* no configuration is present */
    GATEWAY_METADATA_PARAMETER_COUNT = 11,      /* more than 128 global parameters */
    GATEWAY_RENDERER_PARAMETER_COUNT = 12,      /* more than 128 renderer parameters */
    GATEWAY_RENDERER_REVERB_TYPE = 13,          /* reverb type above 3 */
    GATEWAY_RENDERER_MATRIX_LOCATION = 14,      /* matrix location above 2 */
    GATEWAY_RENDERER_RADIATION_TYPE = 15,       /* radiation type above 4 */
    GATEWAY_METADATA_COMPONENT_TYPE = 16,       /* component type above 4 */
    GATEWAY_METADATA_STRING_LIMIT = 17,         /* label not ended within 4,097 bytes */
    GATEWAY_METADATA_HEADPHONE_SIZE = 18,       /* too few headphone bytes for the channels */
    GATEWAY_METADATA_COMPRESSION_SIZE = 19, /* compression bytes not inside the input, or not used up */
    GATEWAY_METADATA_TABLE_RESOURCE_LIMIT = 20, /* symbol width above 12 */
    GATEWAY_METADATA_CODEWORD_WIDTH = 21,       /* codeword above 64 bits */
    /* At precision 32 each probability must be finite and not below zero (-0 passes), and all,
     * added in order in binary32, must come to exactly 1. At others their sum must not be 0. */
    GATEWAY_METADATA_PROBABILITY = 22, /* probability rules not kept, or parameter not finite */

    /* Asked of a name, in this order. */
    GATEWAY_UNKNOWN_WORD = 25, /* name word not known */
    GATEWAY_SHORT_BUFFER = 26, /* buffer too short for the text */

    /* The stops, all of metadata. 32 stops before the value is read, 33 after the HRTF's mode. LZW
     * is the compression of type 0. */
    GATEWAY_ROOM_GEOMETRY_FALLBACK = 31,     /* room-geometry fallback not 0 */
    GATEWAY_DOUBLE_PRECISION_RADIATION = 32, /* 64-bit radiation value */
    GATEWAY_RESOURCE_HRTF = 33,              /* HRTF type 2 */
    GATEWAY_HRTF_TYPE = 34,                  /* HRTF type above 2 */
    GATEWAY_LZW_WIDTHS = 35, /* LZW initial width above 15, or greatest width above 16 */

    /* Asked of new parents, in this order: 36, 2, 37, then 8 or 9, then 38. 37 is asked of a
     * position whose new parent differs from the parent that it has, and of no other. A packet takes
     * as many bytes as hold its bits, (bits + 7) / 8. */
    GATEWAY_PARENT_COUNT = 36,  /* not as many new parents as shapes */
    GATEWAY_PARENT_FIXED = 37,  /* the parent that changes is not dynamic */
    GATEWAY_SHORT_PACKET = 38   /* buffer too short for the packet */
};

/* The words of a recorded field: the value of field i, counted from 0, is
 * words[i * GATEWAY_FIELD_WORDS + GATEWAY_VALUE]. */
enum GatewayWord {
    GATEWAY_BIT_OFFSET = 0, /* from the first bit of the input */
    GATEWAY_BIT_LENGTH = 1,
    GATEWAY_KIND = 2,  /* a GatewayKind, which says what the value is */
    GATEWAY_VALUE = 3,
    GATEWAY_NAME = 4,  /* a name word */
    GATEWAY_FIELD_WORDS = 5
};

enum GatewayKind {
    GATEWAY_FLAG = 0,   /* 0 or 1 */
    GATEWAY_NUMBER = 1, /* the number; if it was escaped, the sum of its parts */
    GATEWAY_BITS = 2,   /* a payload: the count of its bits. One of 0 bits makes no field */
    GATEWAY_BYTES = 3   /* a label: the count of its bytes, the zero byte at its end included */
};

/* A name word has, from its lowest bit on, a leaf (8 bits), a block (4 bits) and four indices (13
 * bits each), two of the block's text and two of the leaf's. They count from 0, so that position 1
 * is "ancillary.scene_graph.positions[0]"; one that a text does not have is 0. A word is known if
 * its leaf stands in its block and its indices are in range, and every recorded word is.
 * gateway_name writes the texts, and docs/FIELDS.md lists them. */

/* What a scene answers. */
typedef struct {
    GatewayGraphAnswer answer;                    /* `deepest` is of the shapes below */
    size_t count;                                 /* the positions declared, 0 unless read */
    PositionSyntax shapes[GATEWAY_MAX_POSITIONS]; /* those beyond the count are the default */
} GatewayScene;

/* The readings: of a scene, an update, a position, metadata. The input is bytes[0] to
 * bytes[bytes_len - 1], the most significant bit of each byte first. A reading begins at the bit
 * `offset` with no field counted, and does not look at the bits after its end.
 *
 * If `recording`, the first 5 x counted words hold the counted fields in their order, whether it
 * was read, refused or stopped, and the words after them are unchanged. With recording off no word
 * is touched, and the answer is that of a recording with enough words. */

/* Reads a scene. It gives 1, 3 to 9, and no stop. */
GatewayScene gateway_scene(const uint8_t *bytes, size_t bytes_len, size_t offset, bool recording,
                           uint64_t *words, size_t words_len);

/* Reads an update of all the lent shapes. They are changed only if it is read: a position whose
 * `updated` flag is 1 then has the parent and polar that the update gives it. `deepest` is of the
 * shapes that it leaves, not of those from before, and 0 if it is refused. It gives 1 to 5, 7 to 9,
 * and no stop. */
GatewayGraphAnswer gateway_update(const uint8_t *bytes, size_t bytes_len, size_t offset,
                                  bool recording, uint64_t *words, size_t words_len,
                                  PositionSyntax *shapes, size_t shapes_len);

/* Reads one position alone: if `full` as in a scene, otherwise as in an update, after the `updated`
 * flag. Its fields are named as those of position 1. The lent shape is changed only if it is read;
 * polar stays as it was if no position is present. The parent is not validated. It gives 1 to 5, 7,
 * and no stop. */
GatewayAnswer gateway_position(const uint8_t *bytes, size_t bytes_len, size_t offset,
                               bool recording, uint64_t *words, size_t words_len,
                               PositionSyntax *shape, bool full);

/* Reads a metadata configuration. In its compression, 3 and 6 ask for the bits left in the declared
 * compression bytes, not in the input. It gives 1, 3 to 7, 10 to 22, and the stops. */
GatewayAnswer gateway_metadata(const uint8_t *bytes, size_t bytes_len, size_t offset,
                               bool recording, uint64_t *words, size_t words_len);

/* Whether all positions have ranks. `deepest` is the largest of them, 0 for no shapes and if it is
 * refused. It gives 2, for more than 63 shapes only, then 8 or 9. Unless 2 is given, the position of
 * the answer is `at`, whatever that is. No field is counted. */
GatewayGraphAnswer gateway_validation(const PositionSyntax *shapes, size_t shapes_len, size_t at);

/* Writes the text of a name word, in ASCII and with no zero byte after it. The bytes after the text
 * are unchanged, and all of them if the word is refused, by 25 or 26. The position is 0. */
GatewayAnswer gateway_name(uint64_t word, uint8_t *bytes, size_t bytes_len);

/* Writes the packet of fewest bits that gives the shapes new parents: parents[i] is to be that of
 * shapes[i]. gateway_update, lent the same shapes, reads the packet to its last bit, and leaves them
 * with these parents and everything else as it was. A position that keeps its parent takes 1 bit,
 * one that loses it 6, one that is hung on another 12; the last two take 1 more if range_dynamic.
 *
 * The packet begins with the first bit of packet[0]. `counted` is its length in bits: 0 if it is
 * refused, and for no shapes. 103 bytes are enough for every packet. The bits left in its last byte
 * are 0. The bytes after it are unchanged, and all of them if it is refused, by 2, 8, 9, or 36 to
 * 38. The position is 0. Old and new parents may be any numbers. */
GatewayAnswer gateway_parents(const PositionSyntax *shapes, size_t shapes_len,
                              const size_t *parents, size_t parents_len, uint8_t *packet,
                              size_t packet_len);

#ifdef __cplusplus
}
#endif

#endif

/* Livukoe: verified cleaning of grey images, for C.
 *
 * Link with -llivukoe where it is installed (`pkg-config --cflags --libs livukoe`), or with the archive that `make`
 * builds, target/staticlib/liblivukoe.a. Each function of the library calls one proved function, lays its answer out for
 * C, and has its contract, said of that (crates/livukoe/src/lib.rt).
 *
 * A plate is width x height greys, one 16-bit number each, row by row from the top left, and a greatest grey, `greatest`
 * below, which is 1 to 65535: a grey runs from 0, full ink, to the greatest, bare paper. Width and height are 1 to
 * 32768, their product, the pixels, at most 16777216. The length of a plate counts its pixels. Connectivity says which
 * pixels touch a pixel: 4 (left, right, above, below), 6 (those, the upper left and the lower right) or 8 (those four
 * and all corners). The trim edge is the first and last row and the first and last column.
 *
 * Every buffer is a pointer and the number of its elements. The caller answers for this, and for nothing else: each
 * pointer is not null (also where the number is 0), aligned for its type, and valid for that many elements; no buffer
 * that is written overlaps another; no other thread writes to a buffer during the call. There is no other condition:
 * whatever the numbers and the bytes are, the function returns, and answers what is written here.
 *
 * An answer has 0 in `refusal`, or the number of a refusal and zeros elsewhere. A refusal leaves the outputs as they
 * were. An output may be longer than the answer: the excess stays as it was.
 *
 * `work` is work space of at least 8 numbers for each pixel, whatever they hold. Its first 8 x pixels numbers are zero
 * afterwards, except that refusal 6 and those that come ahead of it leave all of it as it was.
 *
 * The functions allocate nothing, keep nothing between calls, and may run in several threads at once on buffers of
 * their own.
 *
 * Each runs in LIVUKOE_STACK_BYTES of stack. No proof speaks of the stack: what each function needs was measured, with
 * the library as it is built (x86-64, -O3), on plates, files, rolls and records that were chosen to make it deep
 * (host/tests/c/stack.c). In bytes, rounded up to whole 1024:
 *
 *     livukoe_clean           13312
 *     livukoe_regional_maxima 13312
 *     livukoe_node_list       13312
 *     livukoe_node_entries    13312
 *     livukoe_read_pgm         2048
 *     livukoe_roll_count       3072
 *     livukoe_roll_plate       3072
 *     livukoe_plate_at         2048
 *     livukoe_write_pgm        1024
 *     livukoe_seeded_plate     1024
 *     livukoe_write_record    13312
 *     livukoe_read_record     13312
 *     livukoe_cut_record      14336
 *     livukoe_size_list       14336
 *     livukoe_write_cut_list  14336
 *     livukoe_record_to_old   13312
 *     livukoe_record_to_new   13312
 *     livukoe_ink_percentage   1024 */
#ifndef LIVUKOE_H
#define LIVUKOE_H

#include <stddef.h>
#include <stdint.h>

#ifdef __cplusplus
extern "C" {
#endif

/* The stack that each function runs in, as measured. */
#define LIVUKOE_STACK_BYTES 16384

/* How long `work` must be for so many pixels, in numbers. */
#define LIVUKOE_WORK_NUMBERS(pixels) (8 * (size_t)(pixels))

/* How long an output must be for the record of so many pixels, whatever they are, in bytes: a field of at most 2^24 has
 * at most 4 bytes, and one of at most 65535 at most 3. The head has 0 and 2 (1 byte each), the greatest grey (3), width
 * and height (3 each), connectivity (1) and node count (4), the root its level (3) and area (4); each further node, and
 * there are fewer of them than pixels, the step to its parent (4), its rise (3) and its area (4); each pixel its own
 * node (4). */
#define LIVUKOE_RECORD_BYTES(pixels) (15 * (size_t)(pixels) + 12)

/* How long an output must be for the plate file of so many pixels, whatever they are, in bytes: two a pixel, and a header
 * of at most 21. */
#define LIVUKOE_PGM_BYTES(pixels) (2 * (size_t)(pixels) + 21)

/* The greatest grey of every record in the old form. */
#define LIVUKOE_OLD_GREATEST 255

/* Which patches are cleaned away. */
enum livukoe_side {
    LIVUKOE_SIDE_LIGHT = 1, /* light patches */
    LIVUKOE_SIDE_DARK = 2   /* dark patches */
};

/* Refusals. Each function names those that it gives, in the order in which it looks. */
enum livukoe_refusal {
    LIVUKOE_CONNECTIVITY = 1,   /* the connectivity is not 4, 6 or 8 */
    LIVUKOE_GRID = 2,           /* width, height or pixels are beyond the grid (0 included) */
    LIVUKOE_PLATE_LENGTH = 3,   /* image_length is not width x height */
    LIVUKOE_LIMIT = 4,          /* the limit is 0 or above the pixels */
    LIVUKOE_OUTPUT_SHORT = 5,   /* an output is shorter than the answer */
    LIVUKOE_WORK_SHORT = 6,     /* work_length is below 8 x pixels */
    LIVUKOE_LETTERS = 10,       /* the plate file does not open with "P5" */
    LIVUKOE_HEADER = 11,        /* a gap or number of the header is missing or malformed, or the last blank is absent */
    LIVUKOE_FILE_GREATEST = 12, /* the third number of the header, the greatest grey, is 0 or above 65535 */
    LIVUKOE_RASTER_SHORT = 14,  /* the plate file ends before its last pixel */
    LIVUKOE_RASTER_LONG = 15,   /* bytes are left over after the last pixel */
    LIVUKOE_FIELD_UNENDED = 20, /* the record ends before a byte with its top bit clear */
    LIVUKOE_FIELD_FORM = 21,    /* a field is not in its shortest form, or is 4294967296 or more */
    LIVUKOE_FIELD_RANGE = 22,   /* a field is outside its range */
    LIVUKOE_RECORD_LONG = 23,   /* bytes are left over after the last field */
    LIVUKOE_NOT_CANONICAL = 24, /* the bytes differ from the record of the plate that they spell */
    LIVUKOE_PLATE_NUMBER = 25,  /* the number of the plate is not below the number of plates */
    LIVUKOE_SIDE = 26,          /* the side is neither 1 (light) nor 2 (dark) */
    LIVUKOE_GREY = 28,          /* a pixel is above the greatest grey */
    LIVUKOE_GREATEST = 29,      /* the greatest grey is not from 1 to 65535 */
    LIVUKOE_NO_OLD_FORM = 30    /* the record's greatest grey is not 255, so it has no old form */
};

/* The text of a refusal. */
static inline const char *livukoe_refusal_text(uint32_t refusal)
{
    switch (refusal) {
    case 0: return "not refused";
    case LIVUKOE_CONNECTIVITY: return "the connectivity is not 4, 6 or 8";
    case LIVUKOE_GRID: return "the width or the height is not from 1 to 32768, or there are more than 16777216 pixels";
    case LIVUKOE_PLATE_LENGTH: return "the number of greys is not the width times the height";
    case LIVUKOE_LIMIT: return "the limit is 0 or above the number of pixels";
    case LIVUKOE_OUTPUT_SHORT: return "an output is too short for the answer";
    case LIVUKOE_WORK_SHORT: return "the work space has fewer than 8 numbers for each pixel";
    case LIVUKOE_LETTERS: return "the plate file does not begin with P5";
    case LIVUKOE_HEADER: return "the plate file's header lacks a number or a gap, or has one that is malformed";
    case LIVUKOE_FILE_GREATEST: return "the plate file's greatest grey is not from 1 to 65535";
    case LIVUKOE_RASTER_SHORT: return "the plate file ends before its last pixel";
    case LIVUKOE_RASTER_LONG: return "the plate file has bytes behind its last pixel";
    case LIVUKOE_FIELD_UNENDED: return "the record ends inside a field";
    case LIVUKOE_FIELD_FORM: return "a field of the record is not in its shortest form, or is too large";
    case LIVUKOE_FIELD_RANGE: return "a field of the record is outside its range";
    case LIVUKOE_RECORD_LONG: return "the record has bytes behind its last field";
    case LIVUKOE_NOT_CANONICAL: return "the record is not the one that its plate has";
    case LIVUKOE_PLATE_NUMBER: return "the number of the plate is not below the number of plates";
    case LIVUKOE_SIDE: return "the side is neither 1 (light) nor 2 (dark)";
    case LIVUKOE_GREY: return "a pixel is above the greatest grey";
    case LIVUKOE_GREATEST: return "the greatest grey is not from 1 to 65535";
    case LIVUKOE_NO_OLD_FORM: return "the record's greatest grey is not 255, so it has no old form";
    default: return "no refusal has this number";
    }
}

/* Cleans a plate on a side (enum livukoe_side). On the light side each pixel gets the greatest t for which a connected
 * set contains it that has no grey below t, and that has at least `limit` pixels or holds a pixel of the trim edge. So
 * light patches of fewer pixels go, but one that reaches the trim edge stays whatever the limit, since the next sheet
 * shows the remainder. On the dark side each pixel gets the greatest grey minus the same of the greatest grey minus each
 * grey, which does to dark patches what the light side does to light ones.
 *
 * A plate cleaned at one limit and then on the same side at another is the plate cleaned once at the greater of the two.
 * Where one plate is nowhere darker than another, so it is after both are cleaned alike.
 *
 * The area opening of the literature has no trim edge. For it put a frame one pixel wide around the plate, of 0 for the
 * light side and of the greatest grey for the dark side, and take it off afterwards: only the frame is then on the trim
 * edge, and no patch inside reaches it.
 *
 * Refusals 26, 1, 2, 29, 3, 28, 4, 5, 6. Returns the refusal. */
uint32_t livukoe_clean(
    uint32_t side, const uint16_t *image, size_t image_length, uint32_t width, uint32_t height, uint32_t greatest,
    uint32_t connectivity, uint32_t limit, uint16_t *out, size_t out_length, uint32_t *work, size_t work_length);

/* Regional maxima: 1 inside a greatest connected set of one grey whose outside neighbours are all darker, 0 elsewhere.
 * Refusals 1, 2, 29, 3, 28, 5, 6. Returns the refusal. */
uint32_t livukoe_regional_maxima(
    const uint16_t *image, size_t image_length, uint32_t width, uint32_t height, uint32_t greatest,
    uint32_t connectivity, uint16_t *out, size_t out_length, uint32_t *work, size_t work_length);

struct livukoe_node_count {
    uint32_t refusal;
    uint32_t count; /* of the nodes */
};

/* The nodes of the component tree (max-tree), numbered from 0 by level rising, then anchor rising: for node i its level
 * (least grey), parent (smallest node that strictly contains it; 0 for the root), area (pixels) and anchor (lowest
 * number of a pixel at its level). A plate has at most as many nodes as pixels. Refusals 1, 2, 29, 3, 28, 6, 5. */
struct livukoe_node_count livukoe_node_list(
    const uint16_t *image, size_t image_length, uint32_t width, uint32_t height, uint32_t greatest,
    uint32_t connectivity, uint32_t *levels, size_t levels_length, uint32_t *parents, size_t parents_length,
    uint32_t *areas, size_t areas_length, uint32_t *anchors, size_t anchors_length,
    uint32_t *work, size_t work_length);

struct livukoe_node {
    uint32_t level;
    uint32_t parent;
    uint32_t area;
    uint32_t anchor;
};

/* The same as one list of entries. Refusals 1, 2, 29, 3, 28, 6, 5. */
struct livukoe_node_count livukoe_node_entries(
    const uint16_t *image, size_t image_length, uint32_t width, uint32_t height, uint32_t greatest,
    uint32_t connectivity, struct livukoe_node *list, size_t list_length, uint32_t *work, size_t work_length);

struct livukoe_plate_head {
    uint32_t refusal;
    uint32_t width;
    uint32_t height;
    uint32_t greatest;
};

/* Reads a plate file, the binary form of Netpbm's PGM ("P5"), into `out`: one byte a pixel where the greatest grey is up
 * to 255, else two, the high byte first. An output of as many numbers as the file has bytes is always long enough.
 * Refusals 10, 11, 2, 12, 14, 15, 28, 5. */
struct livukoe_plate_head livukoe_read_pgm(const uint8_t *file, size_t file_length, uint16_t *out, size_t out_length);

/* A roll is any number of plate files one after the other, as Netpbm's tools read and write several images in one file.
 * Its plates are counted from 0, and no bytes are a roll of none. What stands after a raster must begin another plate, so
 * that 15 is not met. Each plate is judged by 10, 11, 2, 12, 14, 28 before the next is looked at: the first faulty one
 * refuses the whole roll. Each plate of a roll is what livukoe_read_pgm reads from that plate's bytes alone. */

struct livukoe_roll {
    uint32_t refusal;
    size_t count; /* of the plates */
};

/* The number of plates of a roll. Refusals 10, 11, 2, 12, 14, 28 of each plate in turn. */
struct livukoe_roll livukoe_roll_count(const uint8_t *file, size_t file_length);

/* Reads the plate of a number, counted from 0, into `out`, as livukoe_read_pgm does. All plates are judged, at each call;
 * for all plates of a roll see livukoe_plate_at. Refusals as for livukoe_roll_count, then 25, then 5 when `out` has fewer
 * places than that plate has pixels. */
struct livukoe_plate_head livukoe_roll_plate(
    const uint8_t *file, size_t file_length, size_t number, uint16_t *out, size_t out_length);

struct livukoe_plate_place {
    uint32_t refusal;
    uint32_t width;
    uint32_t height;
    uint32_t greatest;
    size_t raster; /* the place of the raster's first byte */
    size_t end;    /* the place after its last byte: the next plate's first, or the file's end */
};

/* Where the plate lies that begins at byte `at`, judged as one of a roll. At the file's end and beyond it none begins
 * (10). A program that reads all plates of a roll begins at 0, goes on from each plate's `end`, and reads the bytes from
 * `at` to `end` by livukoe_read_pgm: its time is linear in the bytes, whatever the number of plates, where
 * livukoe_roll_plate judges the whole roll for each. Refusals 10, 11, 2, 12, 14, 28. */
struct livukoe_plate_place livukoe_plate_at(const uint8_t *file, size_t file_length, size_t at);

struct livukoe_file_length {
    uint32_t refusal;
    size_t length; /* of the file, in bytes */
};

/* Writes a plate file: "P5", LF, width, one space, height, LF, greatest grey, LF and the raster, without comments or
 * leading zeros. Of all files that livukoe_read_pgm reads as this plate only this one has that form.
 * LIVUKOE_PGM_BYTES(pixels) are always enough. Refusals 2, 29, 3, 28, 5. */
struct livukoe_file_length livukoe_write_pgm(
    const uint16_t *image, size_t image_length, uint32_t width, uint32_t height, uint32_t greatest,
    uint8_t *out, size_t out_length);

/* Writes the test plate of a seed into `out`, the same on every machine, with the greatest grey 255. A state of 32 bits
 * begins as the seed. For each pixel, row by row, it is multiplied by 1664525, 1013904223 is added (both wrap at 2^32),
 * and the grey is its top eight bits: seed 0 begins 60, 71, 209, 170. The plate read back from its file is this one.
 * Refusals 2, 5. Returns the refusal. */
uint32_t livukoe_seeded_plate(uint32_t seed, uint32_t width, uint32_t height, uint16_t *out, size_t out_length);

/* The record of a plate: its canonical description, by the tree of its nodes and each pixel's own node. It has two
 * forms. The new one, which is written, begins with the fields 0, 2 and the greatest grey; the old one lacks these, and
 * only a plate whose greatest grey is 255 has it. Both are read. */

struct livukoe_record_length {
    uint32_t refusal;
    size_t length; /* of the record, in bytes */
};

/* Writes the record of a plate with its connectivity, in the new form. LIVUKOE_RECORD_BYTES(pixels) are always enough.
 * Refusals 1, 2, 29, 3, 28, 6, 5. */
struct livukoe_record_length livukoe_write_record(
    const uint16_t *image, size_t image_length, uint32_t width, uint32_t height, uint32_t greatest,
    uint32_t connectivity, uint8_t *out, size_t out_length, uint32_t *work, size_t work_length);

struct livukoe_record_head {
    uint32_t refusal;
    uint32_t width;
    uint32_t height;
    uint32_t greatest; /* 255 for the old form */
    uint32_t connectivity;
};

/* Reads a record of either form: `out` gets its plate. 24 compares in the form received. Refusals 20, 21, 22 field by
 * field, with 6 after the node count; 23, 24, 5. */
struct livukoe_record_head livukoe_read_record(
    const uint8_t *bytes, size_t bytes_length, uint16_t *out, size_t out_length, uint32_t *work, size_t work_length);

/* Cuts a record at a limit: `out` gets its plate, cleaned on the light side under its connectivity, so that patches
 * that reach the trim edge stay. Refusals as for reading up to 24, then 4, 5. */
struct livukoe_record_head livukoe_cut_record(
    const uint8_t *bytes, size_t bytes_length, uint32_t limit,
    uint16_t *out, size_t out_length, uint32_t *work, size_t work_length);

struct livukoe_size_head {
    uint32_t refusal;
    uint32_t width;
    uint32_t height;
    uint32_t greatest; /* 255 for the old form */
    uint32_t connectivity;
    uint32_t nodes;   /* their number, with those that reach the trim edge */
    uint32_t darkest; /* the least grey */
    uint64_t held;    /* the total grey of the cut at the limit `pixels`, less the darkest grey times the pixels */
};

/* The size list (pattern spectrum) of a record: for each area a from 1 to pixels - 1, counts[a - 1] is the number of
 * nodes of that area off the trim edge, which hold no pixel of it, and losses[a - 1] the sum over the pixels of the cut
 * at a minus the cut at a + 1. All losses, held and the darkest grey times the pixels make the plate's total grey.
 * Refusals as for reading up to 24, then 5 when either table has fewer than pixels - 1 places. */
struct livukoe_size_head livukoe_size_list(
    const uint8_t *bytes, size_t bytes_length, uint32_t *counts, size_t counts_length,
    uint64_t *losses, size_t losses_length, uint32_t *work, size_t work_length);

/* Converts a record to the old form, or to the new form: `out` gets the record of the same plate in that form. A record
 * that is in it already comes back unchanged. The old form has at most as many bytes, the new form at most 4 more.
 * Refusals as for reading up to 24, then 30 where the old form is asked for and the greatest grey is not 255, then 5 when
 * `out` is shorter than the converted record. */
struct livukoe_record_length livukoe_record_to_old(
    const uint8_t *bytes, size_t bytes_length, uint8_t *out, size_t out_length, uint32_t *work, size_t work_length);

struct livukoe_record_length livukoe_record_to_new(
    const uint8_t *bytes, size_t bytes_length, uint8_t *out, size_t out_length, uint32_t *work, size_t work_length);

struct livukoe_joint {
    uint32_t refusal;
    size_t length;    /* of the record, in bytes */
    uint32_t nodes;   /* as in livukoe_size_head */
    uint32_t darkest;
    uint64_t held;
};

/* Writes the record of a plate, cuts it at a limit and lists its sizes, with the exact bytes passed on: `bytes` is as
 * livukoe_write_record leaves it, `out` as livukoe_cut_record, the tables as livukoe_size_list, which count only nodes
 * off the trim edge. Refusals 1, 2, 29, 3, 28, 4; then 5 when `out` is shorter than the pixels or either table has
 * fewer than pixels - 1 places; then 6; then 5 when the record needs more bytes than were lent, which leaves the work
 * space zeroed. No output is written on a refusal. */
struct livukoe_joint livukoe_write_cut_list(
    const uint16_t *image, size_t image_length, uint32_t width, uint32_t height, uint32_t greatest,
    uint32_t connectivity, uint32_t limit, uint8_t *bytes, size_t bytes_length,
    uint16_t *out, size_t out_length, uint32_t *counts, size_t counts_length,
    uint64_t *losses, size_t losses_length, uint32_t *work, size_t work_length);

struct livukoe_ink {
    uint32_t refusal;
    uint32_t percentage;
};

/* The ink percentage of a grey: the whole number nearest to (greatest - grey) x 100 / greatest, halves up.
 * Refusals 29, 28. */
struct livukoe_ink livukoe_ink_percentage(uint16_t grey, uint32_t greatest);

#ifdef __cplusplus
}
#endif

#endif

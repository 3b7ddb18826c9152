/* Calls every function of livukoe.h from C, with buffers of exactly the lengths that are passed, so that a checker of
 * memory sees any access beyond them. Prints nothing and exits with 0 where all is as it must be. */
#include <livukoe.h>
#include <stdio.h>
#include <stdlib.h>
#include <string.h>

static int failures = 0;

#define EXPECT(fact)                                                           \
    do {                                                                       \
        if (!(fact)) {                                                         \
            fprintf(stderr, "%s:%d: not so: %s\n", __FILE__, __LINE__, #fact); \
            failures++;                                                        \
        }                                                                      \
    } while (0)

enum { WIDTH = 4, HEIGHT = 3, PIXELS = 12, WORK = 8 * PIXELS, GREATEST = 255 };

static const uint16_t SMALL[PIXELS] = {10, 10, 10, 10, 10, 50, 30, 10, 10, 10, 10, 90};

/* `length` bytes, each 77. */
static void *filled(size_t length)
{
    void *bytes = malloc(length);
    if (bytes == NULL)
        exit(2);
    return memset(bytes, 77, length);
}

/* A plate of one grey. */
static uint16_t *flat(size_t pixels, uint16_t grey)
{
    uint16_t *greys = filled(pixels * sizeof *greys);
    for (size_t p = 0; p < pixels; p++)
        greys[p] = grey;
    return greys;
}

static int all(const void *bytes, int value, size_t length)
{
    const unsigned char *each = bytes;
    for (size_t i = 0; i < length; i++)
        if (each[i] != value)
            return 0;
    return 1;
}

/* What is left of the small plate on the light side at the limit 2: pixel 11 is on the trim edge, and stays. */
static const uint16_t CLEAN[PIXELS] = {10, 10, 10, 10, 10, 30, 30, 10, 10, 10, 10, 90};

static void check_cleaning(void)
{
    const uint16_t hole[9] = {90, 80, 90, 90, 10, 90, 90, 90, 90};
    const uint16_t filled_hole[9] = {90, 80, 90, 90, 80, 90, 90, 90, 90};
    uint16_t *out = filled((PIXELS + 1) * sizeof *out);
    uint32_t *work = filled((WORK + 1) * sizeof *work);
    EXPECT(
        livukoe_clean(
            LIVUKOE_SIDE_LIGHT, SMALL, PIXELS, WIDTH, HEIGHT, GREATEST, 4, 2, out, PIXELS + 1, work, WORK + 1)
        == 0);
    EXPECT(memcmp(out, CLEAN, sizeof CLEAN) == 0 && all(out + PIXELS, 77, sizeof *out));
    EXPECT(all(work, 0, WORK * sizeof *work) && all(work + WORK, 77, sizeof *work));
    EXPECT(
        livukoe_clean(LIVUKOE_SIDE_DARK, SMALL, PIXELS, WIDTH, HEIGHT, GREATEST, 4, 10, out, PIXELS, work, WORK) == 0);
    EXPECT(memcmp(out, SMALL, sizeof SMALL) == 0); /* every dark patch reaches the trim edge */
    EXPECT(livukoe_clean(LIVUKOE_SIDE_DARK, hole, 9, 3, 3, 90, 4, 2, out, 9, work, LIVUKOE_WORK_NUMBERS(9)) == 0);
    EXPECT(memcmp(out, filled_hole, sizeof filled_hole) == 0);
    free(out);
    free(work);
}

/* Every refusal of cleaning; that of a side that is neither 1 nor 2 comes ahead of the others. Nothing is written. */
static void check_refusals_of_cleaning(void)
{
    static const uint32_t sides[5] = {LIVUKOE_SIDE_LIGHT, LIVUKOE_SIDE_DARK, 0, 3, UINT32_MAX};
    uint16_t *out = filled(PIXELS * sizeof *out);
    uint32_t *work = filled(WORK * sizeof *work);
    for (int s = 0; s < 5; s++) {
        const int known = s < 2;
#define REFUSED(refusal, ...) EXPECT(livukoe_clean(sides[s], SMALL, __VA_ARGS__) == (known ? refusal : LIVUKOE_SIDE))
        REFUSED(LIVUKOE_CONNECTIVITY, PIXELS, WIDTH, HEIGHT, GREATEST, 5, 2, out, PIXELS, work, WORK);
        REFUSED(LIVUKOE_CONNECTIVITY, PIXELS, WIDTH, HEIGHT, GREATEST, 7, 2, out, PIXELS, work, WORK);
        REFUSED(LIVUKOE_GRID, PIXELS, 0, HEIGHT, GREATEST, 4, 2, out, PIXELS, work, WORK);
        REFUSED(LIVUKOE_GREATEST, PIXELS - 1, WIDTH, HEIGHT, 0, 4, 2, out, PIXELS, work, WORK);
        REFUSED(LIVUKOE_GREATEST, PIXELS, WIDTH, HEIGHT, 65536, 4, 2, out, PIXELS, work, WORK);
        REFUSED(LIVUKOE_PLATE_LENGTH, PIXELS - 1, WIDTH, HEIGHT, GREATEST, 4, 2, out, PIXELS, work, WORK);
        REFUSED(LIVUKOE_GREY, PIXELS, WIDTH, HEIGHT, 89, 4, 13, out, PIXELS, work, WORK);
        REFUSED(LIVUKOE_LIMIT, PIXELS, WIDTH, HEIGHT, GREATEST, 4, 13, out, PIXELS, work, WORK);
        REFUSED(LIVUKOE_OUTPUT_SHORT, PIXELS, WIDTH, HEIGHT, GREATEST, 4, 2, out, PIXELS - 1, work, WORK);
        REFUSED(LIVUKOE_WORK_SHORT, PIXELS, WIDTH, HEIGHT, GREATEST, 4, 2, out, PIXELS, work, WORK - 1);
        if (!known)
            REFUSED(LIVUKOE_SIDE, PIXELS, WIDTH, HEIGHT, GREATEST, 4, 2, out, PIXELS, work, WORK);
#undef REFUSED
    }
    EXPECT(all(out, 77, PIXELS * sizeof *out) && all(work, 77, WORK * sizeof *work));
    free(out);
    free(work);
}

/* Two light pixels touch on the falling diagonal, with 6 and 8; two others on the rising one, with 8 alone. None is on
 * the trim edge. */
static void check_connectivities(void)
{
    enum { ROW = 6, ROWS = 5, ALL = ROW * ROWS };
    static const uint32_t known[3] = {4, 6, 8};
    static const uint16_t left[3][2] = {{10, 10}, {50, 10}, {50, 90}}; /* of the first two and of the others */
    uint16_t *image = flat(ALL, 10), *out = flat(ALL, 10), *ground = flat(ALL, 10);
    uint32_t *work = filled(LIVUKOE_WORK_NUMBERS(ALL) * sizeof *work);
    image[13] = image[20] = 50;
    image[10] = image[15] = 90;
    for (int c = 0; c < 3; c++) {
        EXPECT(
            livukoe_clean(
                LIVUKOE_SIDE_LIGHT, image, ALL, ROW, ROWS, 90, known[c], 2, out, ALL, work, LIVUKOE_WORK_NUMBERS(ALL))
            == 0);
        EXPECT(out[13] == left[c][0] && out[20] == left[c][0] && out[10] == left[c][1] && out[15] == left[c][1]);
        out[13] = out[20] = out[10] = out[15] = 10;
        EXPECT(memcmp(out, ground, ALL * sizeof *out) == 0);
    }
    free(image);
    free(out);
    free(ground);
    free(work);
}

static void check_maxima_and_nodes(void)
{
    const uint16_t marks[PIXELS] = {0, 0, 0, 0, 0, 1, 0, 0, 0, 0, 0, 1};
    const uint32_t wanted[4][4] = {{10, 30, 50, 90}, {0, 0, 1, 0}, {12, 2, 1, 1}, {0, 6, 5, 11}};
    uint16_t *out = filled(PIXELS * sizeof *out);
    uint32_t *work = filled(WORK * sizeof *work);
    uint32_t *columns[4];
    EXPECT(livukoe_regional_maxima(SMALL, PIXELS, WIDTH, HEIGHT, GREATEST, 4, out, PIXELS, work, WORK) == 0);
    EXPECT(memcmp(out, marks, sizeof marks) == 0);
    for (int c = 0; c < 4; c++)
        columns[c] = filled(4 * sizeof(uint32_t));
    struct livukoe_node_count answer = livukoe_node_list(
        SMALL, PIXELS, WIDTH, HEIGHT, GREATEST, 4, columns[0], 4, columns[1], 4, columns[2], 3, columns[3], 4, work, WORK);
    EXPECT(answer.refusal == LIVUKOE_OUTPUT_SHORT && answer.count == 0);
    EXPECT(all(columns[2], 77, 4 * sizeof(uint32_t)) && all(work, 0, WORK * sizeof *work));
    answer = livukoe_node_list(
        SMALL, PIXELS, WIDTH, HEIGHT, GREATEST, 4, columns[0], 4, columns[1], 4, columns[2], 4, columns[3], 4, work, WORK);
    EXPECT(answer.refusal == 0 && answer.count == 4);
    struct livukoe_node *list = filled(4 * sizeof *list);
    answer = livukoe_node_entries(SMALL, PIXELS, WIDTH, HEIGHT, GREATEST, 4, list, 4, work, WORK);
    EXPECT(answer.refusal == 0 && answer.count == 4);
    EXPECT(list[2].level == 50 && list[2].parent == 1 && list[2].area == 1 && list[2].anchor == 5);
    free(list);
    for (int c = 0; c < 4; c++) {
        EXPECT(memcmp(columns[c], wanted[c], sizeof wanted[c]) == 0);
        free(columns[c]);
    }
    free(out);
    free(work);
}

/* The plate file of the small plate with a header and so many bytes a pixel. */
static uint8_t *file_of(const char *header, size_t depth)
{
    size_t ahead = strlen(header), length = ahead + depth * PIXELS;
    uint8_t *file = memset(filled(length), 0, length);
    memcpy(file, header, ahead);
    for (size_t p = 0; p < PIXELS; p++)
        file[ahead + depth * p + depth - 1] = (uint8_t)SMALL[p];
    return file;
}

/* Reads a plate file of so many bytes a pixel, whole and without its last byte. */
static void check_file(const char *header, uint32_t greatest, size_t depth)
{
    size_t length = strlen(header) + depth * PIXELS;
    uint8_t *file = file_of(header, depth);
    uint16_t *out = filled(PIXELS * sizeof *out);
    struct livukoe_plate_head head = livukoe_read_pgm(file, length - 1, out, PIXELS);
    EXPECT(head.refusal == LIVUKOE_RASTER_SHORT && head.width == 0 && head.height == 0 && head.greatest == 0);
    head = livukoe_read_pgm(file, length, out, PIXELS - 1);
    EXPECT(head.refusal == LIVUKOE_OUTPUT_SHORT && all(out, 77, PIXELS * sizeof *out));
    head = livukoe_read_pgm(file, length, out, PIXELS);
    EXPECT(head.refusal == 0 && head.width == WIDTH && head.height == HEIGHT && head.greatest == greatest);
    EXPECT(memcmp(out, SMALL, sizeof SMALL) == 0);
    free(file);
    free(out);
}

static void check_files(void)
{
    check_file("P5 # a comment\n4 3\n255\n", 255, 1);
    check_file("P5\n4 3\n90\n", 90, 1);
    check_file("P5 4 3 256 ", 256, 2);
    check_file("P5 4 3\r65535\n", 65535, 2);
    static const uint8_t above[] = "P5 1 1 256\n\1\1", none[] = "P5 1 1 0\n";
    uint16_t out = 77;
    EXPECT(livukoe_read_pgm(above, sizeof above - 1, &out, 1).refusal == LIVUKOE_GREY && out == 77);
    EXPECT(livukoe_read_pgm(none, sizeof none, &out, 1).refusal == LIVUKOE_FILE_GREATEST && out == 77);
}

/* The places of a plate of one pixel that begins at a byte of a roll. */
static void check_place(const uint8_t *roll, size_t length, size_t at, uint32_t greatest, size_t raster, size_t end)
{
    struct livukoe_plate_place place = livukoe_plate_at(roll, length, at);
    EXPECT(place.refusal == 0 && place.width == 1 && place.height == 1 && place.greatest == greatest);
    EXPECT(place.raster == raster && place.end == end);
}

/* Two plates, the second of two bytes a pixel: counted, found and read, one by one. */
static void check_roll(void)
{
    static const char text[] = "P5 1 1 255 aP5 1 1 300 \1\2";
    enum { LENGTH = sizeof text - 1, SECOND = 12 };
    uint8_t *roll = memcpy(filled(LENGTH), text, LENGTH);
    uint16_t *out = filled(2 * sizeof *out);
    struct livukoe_roll counted = livukoe_roll_count(roll, LENGTH);
    EXPECT(counted.refusal == 0 && counted.count == 2);
    counted = livukoe_roll_count(roll, 0);
    EXPECT(counted.refusal == 0 && counted.count == 0);
    check_place(roll, LENGTH, 0, 255, SECOND - 1, SECOND);
    check_place(roll, LENGTH, SECOND, 300, LENGTH - 2, LENGTH);
    EXPECT(livukoe_plate_at(roll, LENGTH, LENGTH).refusal == LIVUKOE_LETTERS);
    EXPECT(livukoe_plate_at(roll, LENGTH, SIZE_MAX).refusal == LIVUKOE_LETTERS);
    EXPECT(livukoe_roll_plate(roll, LENGTH, 2, out, 0).refusal == LIVUKOE_PLATE_NUMBER);
    EXPECT(livukoe_roll_plate(roll, LENGTH, SIZE_MAX, out, 2).refusal == LIVUKOE_PLATE_NUMBER);
    EXPECT(livukoe_roll_plate(roll, 0, 0, out, 2).refusal == LIVUKOE_PLATE_NUMBER);
    EXPECT(livukoe_roll_plate(roll, LENGTH, 1, out, 0).refusal == LIVUKOE_OUTPUT_SHORT);
    EXPECT(all(out, 77, 2 * sizeof *out));
    struct livukoe_plate_head head = livukoe_roll_plate(roll, LENGTH, 1, out, 2);
    EXPECT(head.refusal == 0 && head.width == 1 && head.height == 1 && head.greatest == 300);
    EXPECT(out[0] == 258 && all(out + 1, 77, sizeof *out));
    free(roll);
    free(out);
}

/* The first faulty plate refuses the whole roll, also when another plate is asked for. Nothing is written. */
static void check_refused_rolls(void)
{
#define REFUSED(refused, text)                                                                      \
    do {                                                                                            \
        enum { LENGTH = sizeof text - 1 };                                                          \
        uint8_t *roll = memcpy(filled(LENGTH), text, LENGTH);                                       \
        uint16_t out = 77;                                                                          \
        struct livukoe_roll counted = livukoe_roll_count(roll, LENGTH);                             \
        EXPECT(counted.refusal == refused && counted.count == 0);                                   \
        struct livukoe_plate_head head = livukoe_roll_plate(roll, LENGTH, 0, &out, 1);              \
        EXPECT(head.refusal == refused && head.width == 0 && head.greatest == 0 && out == 77);      \
        struct livukoe_plate_place place = livukoe_plate_at(roll, LENGTH, 12);                      \
        EXPECT(place.refusal == refused && place.width == 0 && place.raster == 0 && place.end == 0); \
        free(roll);                                                                                 \
    } while (0)
    REFUSED(LIVUKOE_LETTERS, "P5 1 1 255 a\n");
    REFUSED(LIVUKOE_LETTERS, "P5 1 1 255 aP");
    REFUSED(LIVUKOE_HEADER, "P5 1 1 255 aP5 1 1 7");
    REFUSED(LIVUKOE_GRID, "P5 1 1 255 aP5 0 1 0 P6");
    REFUSED(LIVUKOE_FILE_GREATEST, "P5 1 1 255 aP5 1 1 0 ");
    REFUSED(LIVUKOE_RASTER_SHORT, "P5 1 1 255 aP5 2 1 255 a");
    REFUSED(LIVUKOE_GREY, "P5 1 1 255 aP5 1 1 7 aP6");
#undef REFUSED
}

/* Writes the file with this header: into an output of its length, into one that is a byte shorter, and into one that is
 * long enough for every plate of so many pixels. */
static void check_written_file(const char *header, uint32_t greatest, size_t depth)
{
    const size_t length = strlen(header) + depth * PIXELS, most = LIVUKOE_PGM_BYTES(PIXELS);
    uint8_t *file = file_of(header, depth), *out = filled(length), *longer = filled(most);
    struct livukoe_file_length written =
        livukoe_write_pgm(SMALL, PIXELS, WIDTH, HEIGHT, greatest, out, length - 1);
    EXPECT(written.refusal == LIVUKOE_OUTPUT_SHORT && written.length == 0 && all(out, 77, length));
    written = livukoe_write_pgm(SMALL, PIXELS, WIDTH, HEIGHT, greatest, out, length);
    EXPECT(written.refusal == 0 && written.length == length && memcmp(out, file, length) == 0);
    written = livukoe_write_pgm(SMALL, PIXELS, WIDTH, HEIGHT, greatest, longer, most);
    EXPECT(written.refusal == 0 && written.length == length && memcmp(longer, file, length) == 0);
    EXPECT(all(longer + length, 77, most - length));
    free(file);
    free(out);
    free(longer);
}

/* Every refusal of writing a file, each with a condition that comes after it. Nothing is written. */
static void check_written_files(void)
{
    check_written_file("P5\n4 3\n90\n", 90, 1);
    check_written_file("P5\n4 3\n255\n", 255, 1);
    check_written_file("P5\n4 3\n256\n", 256, 2);
    check_written_file("P5\n4 3\n65535\n", 65535, 2);
    uint8_t *out = filled(PIXELS);
#define REFUSED(refused, ...)                                                                  \
    do {                                                                                       \
        struct livukoe_file_length answer = livukoe_write_pgm(SMALL, __VA_ARGS__, out, PIXELS); \
        EXPECT(answer.refusal == refused && answer.length == 0);                               \
    } while (0)
    REFUSED(LIVUKOE_GRID, PIXELS, 0, HEIGHT, 0);
    REFUSED(LIVUKOE_GRID, PIXELS, WIDTH, 32769, 0);
    REFUSED(LIVUKOE_GRID, PIXELS, 32768, 513, 0);
    REFUSED(LIVUKOE_GREATEST, PIXELS - 1, WIDTH, HEIGHT, 0);
    REFUSED(LIVUKOE_GREATEST, PIXELS - 1, WIDTH, HEIGHT, 65536);
    REFUSED(LIVUKOE_PLATE_LENGTH, PIXELS - 1, WIDTH, HEIGHT, 1);
    REFUSED(LIVUKOE_GREY, PIXELS, WIDTH, HEIGHT, 89);
    REFUSED(LIVUKOE_OUTPUT_SHORT, PIXELS, WIDTH, HEIGHT, 90);
#undef REFUSED
    EXPECT(all(out, 77, PIXELS));
    free(out);
}

/* The test plate of seed 0 in rows of one, two and four, and every refusal. */
static void check_seeded_plates(void)
{
    static const uint16_t greys[4] = {60, 71, 209, 170};
    uint16_t *out = filled(5 * sizeof *out);
    for (uint32_t width = 1; width <= 4; width *= 2) {
        EXPECT(livukoe_seeded_plate(0, width, 4 / width, out, 3) == LIVUKOE_OUTPUT_SHORT);
        EXPECT(livukoe_seeded_plate(0, width, 0, out, 5) == LIVUKOE_GRID);
        EXPECT(livukoe_seeded_plate(0, 32769, width, out, 0) == LIVUKOE_GRID);
        EXPECT(livukoe_seeded_plate(0, 65536, 65536, out, 5) == LIVUKOE_GRID);
        EXPECT(all(out, 77, 5 * sizeof *out));
        EXPECT(livukoe_seeded_plate(0, width, 4 / width, out, 5) == 0);
        EXPECT(memcmp(out, greys, sizeof greys) == 0 && all(out + 4, 77, sizeof *out));
        memset(out, 77, 5 * sizeof *out);
    }
    free(out);
}

static void check_ink(void)
{
    static const uint32_t inks[6][3] = {{0, 255, 100},    {255, 255, 0},  {10, 255, 96},
                                        {1, 200, 100}, {65535, 65535, 0}, {1, 2, 50}};
    for (int i = 0; i < 6; i++) {
        struct livukoe_ink ink = livukoe_ink_percentage((uint16_t)inks[i][0], inks[i][1]);
        EXPECT(ink.refusal == 0 && ink.percentage == inks[i][2]);
    }
    struct livukoe_ink ink = livukoe_ink_percentage(9, 8);
    EXPECT(ink.refusal == LIVUKOE_GREY && ink.percentage == 0);
    EXPECT(livukoe_ink_percentage(9, 0).refusal == LIVUKOE_GREATEST);
    EXPECT(livukoe_ink_percentage(9, 65536).refusal == LIVUKOE_GREATEST);
}

/* The record of the small plate in the new form; its old form begins after the fields in front. */
enum { FRONT = 4, NEW = 31, OLD = NEW - FRONT };
static const uint8_t RECORD[NEW] = {0,  2, 255, 1,  4, 3, 4, 4, 10, 12, 1, 20, 2, 1, 20, 1,
                                    3, 80, 1,   0, 0, 0, 0, 0, 2,  1,  0, 0,  0, 0, 3};

/* Reads, cuts and lists the record of the small plate in one of its forms. */
static void check_record(const uint8_t *record, size_t length)
{
    uint8_t *bytes = memcpy(filled(length), record, length);
    uint16_t *out = filled(PIXELS * sizeof *out);
    uint32_t *work = filled(WORK * sizeof *work), *counts = filled(11 * sizeof *counts);
    uint64_t *losses = filled(11 * sizeof *losses);
    struct livukoe_record_head head = livukoe_read_record(bytes, length, out, PIXELS, work, WORK);
    EXPECT(head.refusal == 0 && head.width == WIDTH && head.height == HEIGHT && head.connectivity == 4);
    EXPECT(head.greatest == GREATEST && memcmp(out, SMALL, sizeof SMALL) == 0);
    head = livukoe_cut_record(bytes, length, 2, out, PIXELS, work, WORK);
    EXPECT(head.refusal == 0 && memcmp(out, CLEAN, sizeof CLEAN) == 0);
    head = livukoe_cut_record(bytes, length - 1, 2, out, PIXELS, work, WORK);
    EXPECT(head.refusal == LIVUKOE_FIELD_UNENDED && head.width == 0 && head.greatest == 0);
    struct livukoe_size_head sizes = livukoe_size_list(bytes, length, counts, 11, losses, 11, work, WORK);
    EXPECT(sizes.refusal == 0 && sizes.nodes == 4 && sizes.darkest == 10 && sizes.connectivity == 4);
    EXPECT(sizes.width == WIDTH && sizes.height == HEIGHT && sizes.greatest == GREATEST);
    EXPECT(counts[0] == 1 && losses[0] == 20 && counts[1] == 1 && losses[1] == 40 && sizes.held == 80);
    EXPECT(all(counts + 2, 0, 9 * sizeof *counts) && all(losses + 2, 0, 9 * sizeof *losses));
    sizes = livukoe_size_list(bytes, length, counts, 11, losses, 10, work, WORK);
    EXPECT(sizes.refusal == LIVUKOE_OUTPUT_SHORT && sizes.nodes == 0 && sizes.darkest == 0 && sizes.held == 0);
    free(bytes);
    free(out);
    free(work);
    free(counts);
    free(losses);
}

static void check_writing(void)
{
    uint8_t *bytes = filled(NEW);
    uint32_t *work = filled(WORK * sizeof *work);
    struct livukoe_record_length written =
        livukoe_write_record(SMALL, PIXELS, WIDTH, HEIGHT, GREATEST, 4, bytes, NEW - 1, work, WORK);
    EXPECT(written.refusal == LIVUKOE_OUTPUT_SHORT && written.length == 0 && all(bytes, 77, NEW));
    written = livukoe_write_record(SMALL, PIXELS, WIDTH, HEIGHT, GREATEST, 4, bytes, NEW, work, WORK);
    EXPECT(written.refusal == 0 && written.length == NEW && memcmp(bytes, RECORD, NEW) == 0);
    free(bytes);
    free(work);
}

typedef struct livukoe_record_length conversion(
    const uint8_t *bytes, size_t bytes_length, uint8_t *out, size_t out_length, uint32_t *work, size_t work_length);

/* Converts a record into one that is wanted, and into an output that is too short for it. */
static void check_conversion(
    conversion *convert, const uint8_t *record, size_t length, const uint8_t *wanted, size_t wanted_length)
{
    uint8_t *bytes = memcpy(filled(length), record, length), *out = filled(wanted_length);
    uint32_t *work = filled(WORK * sizeof *work);
    struct livukoe_record_length made = convert(bytes, length, out, wanted_length - 1, work, WORK);
    EXPECT(made.refusal == LIVUKOE_OUTPUT_SHORT && made.length == 0 && all(out, 77, wanted_length));
    EXPECT(all(work, 0, WORK * sizeof *work));
    made = convert(bytes, length, out, wanted_length, work, WORK);
    EXPECT(made.refusal == 0 && made.length == wanted_length && memcmp(out, wanted, wanted_length) == 0);
    made = convert(bytes, length - 1, out, wanted_length, work, WORK);
    EXPECT(made.refusal == LIVUKOE_FIELD_UNENDED && made.length == 0);
    free(bytes);
    free(out);
    free(work);
}

static void check_conversions(void)
{
    check_conversion(livukoe_record_to_old, RECORD, NEW, RECORD + FRONT, OLD);
    check_conversion(livukoe_record_to_old, RECORD + FRONT, OLD, RECORD + FRONT, OLD);
    check_conversion(livukoe_record_to_new, RECORD + FRONT, OLD, RECORD, NEW);
    check_conversion(livukoe_record_to_new, RECORD, NEW, RECORD, NEW);
    static const uint8_t finer[10] = {0, 2, 100, 1, 1, 4, 1, 7, 1, 0};
    uint32_t work[8];
    uint8_t out[10];
    EXPECT(livukoe_record_to_old(finer, 10, out, 0, work, 8).refusal == LIVUKOE_NO_OLD_FORM);
    EXPECT(livukoe_record_to_new(finer, 10, out, 10, work, 8).length == 10 && memcmp(out, finer, 10) == 0);
}

static void check_joint(void)
{
    uint8_t *bytes = filled(NEW);
    uint16_t *out = filled(PIXELS * sizeof *out);
    uint32_t *work = filled(WORK * sizeof *work), *counts = filled(11 * sizeof *counts);
    uint64_t *losses = filled(11 * sizeof *losses);
    /* a short output or table is looked for ahead of the work space, a short record after it */
    struct livukoe_joint joint = livukoe_write_cut_list(
        SMALL, PIXELS, WIDTH, HEIGHT, GREATEST, 4, 2, bytes, NEW - 1, out, PIXELS - 1, counts, 11, losses, 11, work, WORK - 1);
    EXPECT(joint.refusal == LIVUKOE_OUTPUT_SHORT);
    joint = livukoe_write_cut_list(
        SMALL, PIXELS, WIDTH, HEIGHT, GREATEST, 4, 2, bytes, NEW - 1, out, PIXELS, counts, 11, losses, 10, work, WORK - 1);
    EXPECT(joint.refusal == LIVUKOE_OUTPUT_SHORT);
    joint = livukoe_write_cut_list(
        SMALL, PIXELS, WIDTH, HEIGHT, GREATEST, 4, 2, bytes, NEW - 1, out, PIXELS, counts, 11, losses, 11, work, WORK - 1);
    EXPECT(joint.refusal == LIVUKOE_WORK_SHORT && all(work, 77, WORK * sizeof *work));
    joint = livukoe_write_cut_list(
        SMALL, PIXELS, WIDTH, HEIGHT, GREATEST, 4, 2, bytes, NEW - 1, out, PIXELS, counts, 11, losses, 11, work, WORK);
    EXPECT(joint.refusal == LIVUKOE_OUTPUT_SHORT && joint.length == 0 && joint.held == 0);
    EXPECT(all(bytes, 77, NEW) && all(out, 77, PIXELS * sizeof *out));
    EXPECT(all(counts, 77, 11 * sizeof *counts) && all(losses, 77, 11 * sizeof *losses));
    EXPECT(all(work, 0, WORK * sizeof *work));
    joint = livukoe_write_cut_list(
        SMALL, PIXELS, WIDTH, HEIGHT, GREATEST, 4, 2, bytes, NEW, out, PIXELS, counts, 11, losses, 11, work, WORK);
    EXPECT(joint.refusal == 0 && joint.length == NEW && joint.nodes == 4 && joint.darkest == 10 && joint.held == 80);
    EXPECT(memcmp(out, CLEAN, sizeof CLEAN) == 0 && counts[0] == 1 && losses[0] == 20 && all(work, 0, WORK * sizeof *work));
    free(bytes);
    free(out);
    free(work);
    free(counts);
    free(losses);
}

/* A plate of chance, large enough for each column to be a block of memory of its own. */
enum { EXTENT = 97, MANY = EXTENT * EXTENT };
static const size_t PLATE = MANY * sizeof(uint16_t);

/* The numbers of an operation on it: its greatest grey and the connectivity. */
struct kind {
    uint32_t greatest;
    uint32_t connectivity;
};

static uint32_t clean_noise(uint32_t side, const uint16_t *image, struct kind kind, uint16_t *out, uint32_t *work)
{
    return livukoe_clean(
        side, image, MANY, EXTENT, EXTENT, kind.greatest, kind.connectivity, 9, out, MANY, work, 8 * MANY);
}

static void negate(uint16_t *greys, uint32_t greatest)
{
    for (int p = 0; p < MANY; p++)
        greys[p] = (uint16_t)(greatest - greys[p]);
}

/* Cleans that plate, again, and its negative. */
static void check_cleaning_noise(uint16_t *image, struct kind kind, uint32_t *work)
{
    uint16_t *out = filled(PLATE), *again = filled(PLATE);
    EXPECT(clean_noise(LIVUKOE_SIDE_LIGHT, image, kind, out, work) == 0);
    EXPECT(clean_noise(LIVUKOE_SIDE_LIGHT, out, kind, again, work) == 0);
    EXPECT(memcmp(out, again, PLATE) == 0);
    /* the dark side of the negative is the negative of the light side */
    negate(image, kind.greatest);
    EXPECT(clean_noise(LIVUKOE_SIDE_DARK, image, kind, again, work) == 0);
    negate(again, kind.greatest);
    EXPECT(memcmp(out, again, PLATE) == 0);
    negate(image, kind.greatest);
    free(out);
    free(again);
}

/* Writes, reads and converts the record of that plate. */
static void check_record_of_noise(const uint16_t *image, struct kind kind, uint32_t *work)
{
    const size_t most = LIVUKOE_RECORD_BYTES(MANY);
    uint16_t *out = filled(PLATE);
    uint8_t *bytes = filled(most), *old = filled(most);
    struct livukoe_record_length written = livukoe_write_record(
        image, MANY, EXTENT, EXTENT, kind.greatest, kind.connectivity, bytes, most, work, LIVUKOE_WORK_NUMBERS(MANY));
    EXPECT(written.refusal == 0 && bytes[0] == 0 && bytes[1] == 2);
    struct livukoe_record_head head = livukoe_read_record(bytes, written.length, out, MANY, work, 8 * MANY);
    EXPECT(head.refusal == 0 && head.greatest == kind.greatest && head.connectivity == kind.connectivity);
    EXPECT(memcmp(out, image, PLATE) == 0);
    EXPECT(livukoe_read_record(bytes, written.length - 1, out, MANY, work, 8 * MANY).refusal != 0);
    struct livukoe_record_length made = livukoe_record_to_old(bytes, written.length, old, most, work, 8 * MANY);
    if (kind.greatest == LIVUKOE_OLD_GREATEST)
        EXPECT(made.refusal == 0 && made.length == written.length - FRONT && old[2] == kind.connectivity);
    else
        EXPECT(made.refusal == LIVUKOE_NO_OLD_FORM && made.length == 0);
    free(bytes);
    free(old);
    free(out);
}

/* Writes the file of that plate and reads it. */
static void check_file_of_noise(const uint16_t *image, struct kind kind)
{
    const size_t most = LIVUKOE_PGM_BYTES(MANY);
    uint16_t *out = filled(PLATE);
    uint8_t *file = filled(most);
    struct livukoe_file_length written =
        livukoe_write_pgm(image, MANY, EXTENT, EXTENT, kind.greatest, file, most);
    EXPECT(written.refusal == 0);
    struct livukoe_plate_head head = livukoe_read_pgm(file, written.length, out, MANY);
    EXPECT(head.refusal == 0 && head.width == EXTENT && head.height == EXTENT && head.greatest == kind.greatest);
    EXPECT(memcmp(out, image, PLATE) == 0);
    free(file);
    free(out);
}

/* Every operation on that plate. */
static void check_noise(struct kind kind)
{
    uint16_t *image = filled(PLATE), *out = filled(PLATE);
    uint32_t *work = filled(8 * MANY * sizeof *work);
    uint32_t state = 1;
    for (int p = 0; p < MANY; p++) {
        state = state * 1664525 + 1013904223;
        image[p] = (uint16_t)((state >> 8) % (kind.greatest + 1));
    }
    check_cleaning_noise(image, kind, work);
    EXPECT(
        livukoe_regional_maxima(
            image, MANY, EXTENT, EXTENT, kind.greatest, kind.connectivity, out, MANY, work, 8 * MANY)
        == 0);
    check_record_of_noise(image, kind, work);
    check_file_of_noise(image, kind);
    free(image);
    free(out);
    free(work);
}

int main(void)
{
    check_cleaning();
    check_refusals_of_cleaning();
    check_connectivities();
    check_maxima_and_nodes();
    check_files();
    check_roll();
    check_refused_rolls();
    check_written_files();
    check_seeded_plates();
    check_ink();
    check_record(RECORD, NEW);
    check_record(RECORD + FRONT, OLD);
    check_writing();
    check_conversions();
    check_joint();
    for (uint32_t connectivity = 4; connectivity <= 8; connectivity += 2) {
        check_noise((struct kind){LIVUKOE_OLD_GREATEST, connectivity});
        check_noise((struct kind){65535, connectivity});
    }
    return failures != 0;
}

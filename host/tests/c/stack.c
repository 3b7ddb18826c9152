/* Runs every function of livukoe.h on a thread whose stack has 65536 bytes, with a page below it that may not be
 * touched, on plates, files, rolls and records that were chosen to make it deep, and prints how many bytes of stack each
 * used at most: the stack is painted, and the deepest byte that changed is looked for. Exits with 0 where every function
 * returned, and did its work at least once. */
#define _GNU_SOURCE
#include <livukoe.h>
#include <pthread.h>
#include <stdio.h>
#include <stdlib.h>
#include <string.h>
#include <sys/mman.h>

enum { STACK = 65536, PAGE = 4096, BLIND = 256 };

/* The plates have at most this many pixels. */
enum { MANY = 65536, RECORD = LIVUKOE_RECORD_BYTES(MANY), COMMENTS = 20000, FILE_BYTES = 3 * 3 * COMMENTS + 64 };

/* KINDS is the number of connectivities, which are the first of the numbers that are passed as one. */
enum { PLATES = 18, KINDS = 3, CONNECTIVITIES = 4, LIMITS = 6, FILES = 24, ROLLS = 4 };
static const uint32_t CONNECTIVITY[CONNECTIVITIES] = {4, 6, 8, 5};

static struct plate {
    uint32_t width, height, greatest;
    size_t pixels;
    uint16_t greys[MANY];
    /* by connectivity */
    uint8_t record[KINDS][RECORD];
    size_t length[KINDS];
} plates[PLATES];

static struct file {
    size_t length;
    uint8_t *bytes;
} files[FILES], rolls[ROLLS];

static uint16_t out[MANY > FILE_BYTES ? MANY : FILE_BYTES];
static uint8_t bytes[RECORD];
static uint32_t work[LIVUKOE_WORK_NUMBERS(MANY)], columns[4][MANY];
static uint64_t losses[MANY];
static struct livukoe_node nodes[MANY];

static uint32_t chance_state = 1;

static uint32_t chance(void)
{
    chance_state = chance_state * 1664525 + 1013904223;
    return chance_state >> 16;
}

/* The grey of a pixel in the plate of a kind, whose greatest grey is one below a power of two. */
static uint16_t grey_of(int kind, uint32_t x, uint32_t y, const struct plate *plate)
{
    const uint32_t greatest = plate->greatest, end = plate->width - 1;
    switch (kind % 6) {
    case 0: return (uint16_t)(chance() & greatest);
    case 1: return (uint16_t)((x + y) & greatest); /* ramps, again and again */
    case 2: return (uint16_t)(greatest * ((x + y) % 2)); /* a checkerboard */
    case 3: return (uint16_t)(greatest * (y % 4 == 1 ? x == end : y % 4 == 3 ? x == 0 : 1)); /* one corridor, to and fro */
    case 4: return (uint16_t)(greatest - ((x * 7 + y * 13 * (greatest / 255)) & greatest)); /* every level, far apart */
    default: return (uint16_t)(((x ^ y) * 37 * (greatest / 255)) & greatest); /* a deep tree */
    }
}

/* Plates of two sizes with the greatest grey 255, and of one with 65535. */
static void make_plates(void)
{
    static const uint32_t numbers[3][3] = {{256, 256, 255}, {32768, 2, 255}, {256, 256, 65535}};
    for (int kind = 0; kind < PLATES; kind++) {
        struct plate *plate = &plates[kind];
        plate->width = numbers[kind / 6][0];
        plate->height = numbers[kind / 6][1];
        plate->greatest = numbers[kind / 6][2];
        plate->pixels = (size_t)plate->width * plate->height;
        for (uint32_t p = 0; p < plate->pixels; p++)
            plate->greys[p] = grey_of(kind, p % plate->width, p / plate->width, plate);
        for (int c = 0; c < KINDS; c++)
            plate->length[c] = livukoe_write_record(
                plate->greys, plate->pixels, plate->width, plate->height, plate->greatest, CONNECTIVITY[c],
                plate->record[c], RECORD, work, LIVUKOE_WORK_NUMBERS(plate->pixels)).length;
    }
}

/* A file of no bytes, with space for so many. */
static struct file empty(size_t space)
{
    struct file file = {0, malloc(space)};
    if (file.bytes == NULL)
        exit(2);
    return file;
}

static void put_bytes(struct file *file, const void *put, size_t length)
{
    memcpy(file->bytes + file->length, put, length);
    file->length += length;
}

static void put(struct file *file, const char *text)
{
    put_bytes(file, text, strlen(text));
}

/* A gap of comments, whose text is `comment`. */
static void put_gap(struct file *file, int comments, const char *comment)
{
    put(file, " ");
    for (int c = 0; c < comments; c++)
        put(file, comment);
}

/* Plate files whose three gaps have from 0 to 20000 comments, of one byte a pixel and of two, and some that are damaged. */
static void make_files(void)
{
    static const int comments[6] = {0, 1, 255, 1000, 1001, COMMENTS};
    for (int kind = 0; kind < FILES; kind++) {
        struct file *file = &files[kind];
        *file = empty(FILE_BYTES);
        const char *comment = kind % 12 < 6 ? "#\n" : "#x\r";
        int many = comments[kind % 6];
        put(file, "P5");
        put_gap(file, many, comment);
        put(file, "2");
        put_gap(file, many, comment);
        put(file, "1");
        put_gap(file, many, comment);
        put(file, kind % 12 == 11 ? "#" : kind < 12 ? "255\nab" : "65535\nabcd");
    }
}

/* Rolls: of no plates; of every sound file; of those and many plates of one pixel; of those with a damaged one at the
 * end. */
static void make_rolls(void)
{
    for (int kind = 0; kind < ROLLS; kind++) {
        struct file *roll = &rolls[kind];
        *roll = empty((size_t)FILES * FILE_BYTES + 12 * COMMENTS);
        for (int f = 0; kind > 0 && f < FILES; f++)
            if (f % 12 != 11 || (kind == 3 && f == FILES - 1))
                put_bytes(roll, files[f].bytes, files[f].length);
        for (int plate = 0; kind == 2 && plate < COMMENTS; plate++)
            put(roll, "P5 1 1 255 a");
    }
}

static uint32_t limit_of(int number, size_t pixels)
{
    const uint32_t limits[LIMITS] = {0, 1, 2, 100, (uint32_t)pixels, (uint32_t)pixels + 1};
    return limits[number];
}

/* How often a function did its work. */
static int done;

#define PLATE_ALONE for (const struct plate *plate = plates; plate < plates + PLATES; plate++)
#define EACH_PLATE PLATE_ALONE for (int c = 0; c < CONNECTIVITIES; c++)
#define EACH_RECORD PLATE_ALONE for (int c = 0; c < KINDS; c++)
#define EACH_LIMIT for (int l = 0; l < LIMITS; l++)
#define GREYS plate->greys, plate->pixels, plate->width, plate->height
#define IMAGE GREYS, plate->greatest, CONNECTIVITY[c]
#define WORK work, LIVUKOE_WORK_NUMBERS(plate->pixels)
#define LIMIT limit_of(l, plate->pixels)

/* On both sides, and on those that are neither. */
static void clean(void)
{
    EACH_PLATE EACH_LIMIT for (uint32_t side = 0; side <= 3; side++) done +=
        livukoe_clean(side, IMAGE, LIMIT, out, plate->pixels, WORK) == 0;
}

static void regional_maxima(void)
{
    EACH_PLATE done += livukoe_regional_maxima(IMAGE, out, plate->pixels, WORK) == 0;
}

static void node_list(void)
{
    EACH_PLATE for (size_t places = 1; places <= MANY; places += MANY - 1) done +=
        livukoe_node_list(
            IMAGE, columns[0], places, columns[1], MANY, columns[2], MANY, columns[3], MANY, WORK).refusal == 0;
}

static void node_entries(void)
{
    EACH_PLATE for (size_t places = 1; places <= MANY; places += MANY - 1) done +=
        livukoe_node_entries(IMAGE, nodes, places, WORK).refusal == 0;
}

static void read_pgm(void)
{
    for (const struct file *file = files; file < files + FILES; file++)
        for (size_t cut = 0; cut < 8; cut++)
            done += livukoe_read_pgm(file->bytes, file->length - cut, out, sizeof out / sizeof *out).refusal == 0;
}

/* Every roll, whole and without its last bytes. */
#define EACH_ROLL \
    for (const struct file *roll = rolls; roll < rolls + ROLLS; roll++) \
        for (size_t cut = 0; cut < 3 && cut <= roll->length; cut++)
#define ROLL roll->bytes, roll->length - cut

static void roll_count(void)
{
    EACH_ROLL done += livukoe_roll_count(ROLL).refusal == 0;
}

/* The first plate, later ones, and one that is not there. */
static void roll_plate(void)
{
    EACH_ROLL for (size_t number = 0; number <= 2 * COMMENTS; number = 5 * number + 1)
        for (size_t places = 1; places <= 2; places++)
            done += livukoe_roll_plate(ROLL, number, out, places).refusal == 0;
}

/* Every plate, and then the end. */
static void plate_at(void)
{
    EACH_ROLL for (size_t at = 0, end = 1; end > 0; at = end) {
        struct livukoe_plate_place place = livukoe_plate_at(ROLL, at);
        end = place.end;
        done += place.refusal == 0;
    }
}

/* With the greatest grey, and with smaller ones, which some greys are above. */
static void write_pgm(void)
{
    const size_t most = LIVUKOE_PGM_BYTES(MANY);
    PLATE_ALONE for (uint32_t greatest = plate->greatest; greatest > 0; greatest /= 2)
        for (size_t places = 20; places <= most; places += most - 20)
            done += livukoe_write_pgm(GREYS, greatest, bytes, places).refusal == 0;
}

static void seeded_plate(void)
{
    PLATE_ALONE for (size_t places = 20; places <= MANY; places += MANY - 20) done +=
        livukoe_seeded_plate(1, plate->width, plate->height, out, places) == 0;
}

static void write_record(void)
{
    EACH_PLATE for (size_t places = 20; places <= RECORD; places += RECORD - 20) done +=
        livukoe_write_record(IMAGE, bytes, places, WORK).refusal == 0;
}

/* The length of a record, or of the first part of it that a number below 20 names. */
static size_t part(size_t length, size_t number)
{
    return number == 0 ? length : length * (20 - number) / 20 + number % 3;
}

/* A form begins at the first byte, or after the fields in front, which have 4 bytes where there is an old form. */
#define EACH_FORM for (size_t front = 0; front <= 4; front += 4)
#define FORM_OF_RECORD plate->record[c] + front, part(plate->length[c], p) - front

static void read_record(void)
{
    EACH_RECORD EACH_FORM for (size_t p = 0; p < 20; p++) done +=
        livukoe_read_record(FORM_OF_RECORD, out, plate->pixels, WORK).refusal == 0;
}

static void cut_record(void)
{
    EACH_RECORD EACH_LIMIT for (size_t p = 0; p < 20; p += 7) done +=
        livukoe_cut_record(plate->record[c], part(plate->length[c], p), LIMIT, out, plate->pixels, WORK).refusal == 0;
}

static void size_list(void)
{
    EACH_RECORD for (size_t p = 0; p < 20; p++) done +=
        livukoe_size_list(plate->record[c], part(plate->length[c], p), columns[0], MANY, losses, MANY, WORK).refusal
        == 0;
}

/* Records of the new form, and those of the old form that they have in them. */
static void record_to_old(void)
{
    EACH_RECORD EACH_FORM for (size_t p = 0; p < 20; p += 4) done +=
        livukoe_record_to_old(FORM_OF_RECORD, bytes, RECORD, WORK).refusal == 0;
}

static void record_to_new(void)
{
    EACH_RECORD EACH_FORM for (size_t p = 0; p < 20; p += 4) done +=
        livukoe_record_to_new(FORM_OF_RECORD, bytes, RECORD, WORK).refusal == 0;
}

static void write_cut_list(void)
{
    EACH_PLATE EACH_LIMIT for (size_t places = 20; places <= RECORD; places += RECORD - 20) done +=
        livukoe_write_cut_list(
            IMAGE, LIMIT, bytes, places, out, plate->pixels, columns[0], MANY, losses, MANY, WORK).refusal == 0;
}

static void ink_percentage(void)
{
    for (uint32_t greatest = 0; greatest <= 65536; greatest += 255)
        for (uint32_t grey = 0; grey <= 65535; grey += 51)
            done += livukoe_ink_percentage((uint16_t)grey, greatest).refusal == 0;
}

static const struct function {
    const char *name;
    void (*run)(void);
} FUNCTIONS[] = {
    {"livukoe_clean", clean},                   {"livukoe_regional_maxima", regional_maxima},
    {"livukoe_node_list", node_list},           {"livukoe_node_entries", node_entries},
    {"livukoe_read_pgm", read_pgm},             {"livukoe_roll_count", roll_count},
    {"livukoe_roll_plate", roll_plate},         {"livukoe_plate_at", plate_at},
    {"livukoe_write_pgm", write_pgm},           {"livukoe_seeded_plate", seeded_plate},
    {"livukoe_write_record", write_record},     {"livukoe_read_record", read_record},
    {"livukoe_cut_record", cut_record},         {"livukoe_size_list", size_list},
    {"livukoe_record_to_old", record_to_old},   {"livukoe_record_to_new", record_to_new},
    {"livukoe_write_cut_list", write_cut_list}, {"livukoe_ink_percentage", ink_percentage},
};

static unsigned char *stack;
static size_t used;

static unsigned char paint(size_t place)
{
    return (unsigned char)(place * 167 + 13);
}

/* Paints the stack up to BLIND bytes below this function, runs a function, and measures from here. */
static void *measured(void *function)
{
    size_t top = (size_t)((unsigned char *)__builtin_frame_address(0) - stack);
    for (size_t place = 0; place < top - BLIND; place++)
        ((volatile unsigned char *)stack)[place] = paint(place);
    ((const struct function *)function)->run();
    size_t place = 0;
    while (place < top - BLIND && ((volatile unsigned char *)stack)[place] == paint(place))
        place++;
    used = top - place;
    return NULL;
}

/* Runs a function on a thread of its own and prints the stack that it used. */
static int run(const struct function *function)
{
    pthread_attr_t attributes;
    pthread_t thread;
    done = 0;
    if (pthread_attr_init(&attributes) || pthread_attr_setstack(&attributes, stack, STACK)
        || pthread_create(&thread, &attributes, measured, (void *)function) || pthread_join(thread, NULL))
        return 1;
    pthread_attr_destroy(&attributes);
    printf("%s %zu\n", function->name, used);
    fflush(stdout);
    return done == 0;
}

int main(void)
{
    int failures = 0;
    unsigned char *space = mmap(NULL, PAGE + STACK, PROT_READ | PROT_WRITE, MAP_PRIVATE | MAP_ANONYMOUS, -1, 0);
    if (space == MAP_FAILED || mprotect(space, PAGE, PROT_NONE))
        return 2;
    stack = space + PAGE;
    make_plates();
    make_files();
    make_rolls();
    for (size_t f = 0; f < sizeof FUNCTIONS / sizeof FUNCTIONS[0]; f++)
        failures += run(&FUNCTIONS[f]);
    return failures != 0;
}

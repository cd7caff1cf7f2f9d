/* compare ROUNDS MILLISECONDS: measures calls of three libraries in one process, for compare.py.
 *
 * Each line of standard input is the name of a call, the number of a kind, and two texts as hexadecimal digits, with
 * tabs between. First each library is asked once, and the answers must agree. Then they are called in turn, in batches
 * of MILLISECONDS, for ROUNDS rounds. The answer to a line is the least nanoseconds of a call, for the Rust crate, this
 * library and plain C, and the median of the rounds' ratios to the Rust crate, for this library and plain C. A figure
 * that does not exist is `-`. */
#define _GNU_SOURCE
#include "gix_config_value.h"
#include "limit.h"
#include "up.h"
#include <inttypes.h>
#include <stdio.h>
#include <stdlib.h>
#include <string.h>
#include <time.h>

enum { RUST, OURS, LIMIT, LIBRARIES, MOST_ROUNDS = 1000, LONGEST_ANSWER = 400, LONGEST_SHOWN = 60 };
static const char *const LIBRARY[] = {"the Rust crate", "this library", "plain C"};

/* The arguments of the calls of a row. */
struct row {
    uint32_t kind;
    const char *text, *second;
    size_t length, second_length;
    up_color up_color; /* the colors that the texts read to, if they read to colors */
    gcv_color color, second_color;
};

/* The memory that the answers are written to. */
struct room {
    union {
        int64_t amount;
        uint32_t number;
        uint8_t byte;
        gcv_integer integer;
        up_integer up_integer;
        gcv_name name;
        up_name up_name;
        gcv_color color;
        up_color up_color;
        char text[LIMIT_ROOM];
        uint8_t up_text[LIMIT_ROOM];
    };
    size_t size;
};

static const gcv_context CONTEXT = {
    .install_dir = "/usr/lib/git", .install_dir_length = 12, .home = "/home/bob", .home_length = 9,
    .passwd = "alice:x:1000:1000::/home/alice:/bin/sh\n", .passwd_length = 39};

static double nanoseconds(void)
{
    struct timespec now;
    clock_gettime(CLOCK_MONOTONIC, &now);
    return (double)now.tv_sec * 1e9 + (double)now.tv_nsec;
}

/* Calls this many times, and returns the nanoseconds; for 0 times it calls once, and returns whether it is accepted.
 * The arguments and answers are hidden from the compiler, so that it omits no call, and moves none out of the loop. */
typedef double calls(const struct row *row, uint64_t times, struct room *room);
#define CALLS(name, accepted)                                                           \
    static double name(const struct row *row, uint64_t times, struct room *room)        \
    {                                                                                   \
        if (times == 0)                                                                 \
            return accepted;                                                            \
        double start = nanoseconds();                                                   \
        for (uint64_t i = 0; i < times; i++) {                                          \
            __asm__ volatile("" : "+r"(row) : : "memory");                              \
            int is_accepted = accepted;                                                 \
            __asm__ volatile("" : "+r"(is_accepted) : "r"(room) : "memory");            \
        }                                                                               \
        return nanoseconds() - start;                                                   \
    }

#define UP_TEXT (const uint8_t *)row->text, row->length
#define TEXT row->text, row->length
#define SECOND row->second, row->second_length
#define BUFFER room->text, sizeof room->text, &room->size

CALLS(up_integers, up_integer_read(UP_TEXT, &room->up_integer) != 0)
CALLS(gcv_integers, gcv_read_integer(TEXT, &room->integer, NULL) == GCV_OK)
CALLS(limit_integers, limit_integer(TEXT, &room->integer))
CALLS(up_amounts, up_amount_read(UP_TEXT, &room->amount) != 0)
CALLS(gcv_amounts, gcv_read_amount(TEXT, &room->amount, NULL) == GCV_OK)
CALLS(limit_amounts, limit_amount(TEXT, &room->amount))
CALLS(up_booleans, up_boolean_read(UP_TEXT, &room->byte) != 0)
CALLS(gcv_booleans, gcv_read_boolean(TEXT, &room->number, NULL) == GCV_OK)
CALLS(limit_booleans, limit_boolean(TEXT, &room->number))
CALLS(up_names, up_name_read(UP_TEXT, &room->up_name) != 0)
CALLS(gcv_names, gcv_read_name(TEXT, &room->name, NULL) == GCV_OK)
CALLS(limit_names, limit_name(TEXT, &room->name))
CALLS(up_attributes, up_attribute_read(UP_TEXT, &room->number) != 0)
CALLS(gcv_attributes, gcv_read_attribute(TEXT, &room->number, NULL) == GCV_OK)
CALLS(limit_attributes, limit_attribute(TEXT, &room->number))
CALLS(up_colors, up_color_read(UP_TEXT, &room->up_color) != 0)
CALLS(gcv_colors, gcv_read_color(TEXT, &room->color, NULL) == GCV_OK)
CALLS(limit_colors, limit_color(TEXT, &room->color))
CALLS(up_shown, (room->size = up_color_show(&row->up_color, room->up_text)) != SIZE_MAX)
CALLS(gcv_shown, gcv_show_color(&row->color, BUFFER) == GCV_OK)
CALLS(limit_shown, ((room->size = limit_show_color(&row->color, room->text)), 1))
CALLS(up_normalized, (room->size = up_normalize(row->kind, UP_TEXT, room->up_text)) != SIZE_MAX)
CALLS(gcv_normalized, gcv_normalize(row->kind, TEXT, BUFFER) == GCV_OK)
CALLS(up_paths, (room->size = up_interpolate(UP_TEXT, room->up_text)) != SIZE_MAX)
CALLS(gcv_paths, gcv_interpolate(TEXT, &CONTEXT, BUFFER, NULL) == GCV_OK)
CALLS(gcv_sameness, gcv_same(row->kind, TEXT, SECOND, &room->number) == GCV_OK)
CALLS(gcv_composed, gcv_compose(&row->color, &row->second_color, &room->color) == GCV_OK)

static int write_name(char *to, gcv_name name)
{
    return sprintf(to, "name %u %u %u %u %u, ", name.tag, name.palette, name.red, name.green, name.blue);
}

/* Returns the struct that this library has for the name. */
static gcv_name of_up(up_name name)
{
    switch (name.form) {
    case 255: return (gcv_name){0};
    case 18: return (gcv_name){.tag = GCV_ANSI, .palette = name.numbers[0]};
    case 19: return (gcv_name){GCV_RGB, 0, name.numbers[0], name.numbers[1], name.numbers[2]};
    default: return (gcv_name){.tag = name.form + 1u};
    }
}

static void write_integer(char *to, int library, const struct room *room)
{
    if (library == RUST)
        sprintf(to, "%" PRIi64 ", suffix %u", room->up_integer.number, room->up_integer.suffix);
    else
        sprintf(to, "%" PRIi64 ", suffix %u", room->integer.value, room->integer.suffix);
}

static void write_amount(char *to, int library, const struct room *room)
{
    (void)library;
    sprintf(to, "%" PRIi64, room->amount);
}

static void write_flag(char *to, int library, const struct room *room)
{
    sprintf(to, "%u", library == RUST ? room->byte : room->number);
}

static void write_bits(char *to, int library, const struct room *room)
{
    (void)library;
    sprintf(to, "bits %#x", room->number);
}

static void write_one_name(char *to, int library, const struct room *room)
{
    write_name(to, library == RUST ? of_up(room->up_name) : room->name);
}

static void write_color(char *to, int library, const struct room *room)
{
    gcv_color color = room->color;
    if (library == RUST)
        color = (gcv_color){of_up(room->up_color.foreground), of_up(room->up_color.background), room->up_color.bits};
    to += write_name(to, color.foreground);
    to += write_name(to, color.background);
    sprintf(to, "bits %#x", color.attributes);
}

static void write_text(char *to, int library, const struct room *room)
{
    (void)library;
    sprintf(to, "`%.*s`", (int)room->size, room->text);
}

static const struct call {
    const char *name;
    void (*write)(char *to, int library, const struct room *room);
    calls *by[LIBRARIES];
} CALL[] = {
    {"integer", write_integer, {up_integers, gcv_integers, limit_integers}},
    {"amount", write_amount, {up_amounts, gcv_amounts, limit_amounts}},
    {"boolean", write_flag, {up_booleans, gcv_booleans, limit_booleans}},
    {"name", write_one_name, {up_names, gcv_names, limit_names}},
    {"attribute", write_bits, {up_attributes, gcv_attributes, limit_attributes}},
    {"color", write_color, {up_colors, gcv_colors, limit_colors}},
    {"show", write_text, {up_shown, gcv_shown, limit_shown}},
    {"normalize", write_text, {up_normalized, gcv_normalized, NULL}},
    {"path", write_text, {up_paths, gcv_paths, NULL}},
    {"same", write_bits, {NULL, gcv_sameness, NULL}},
    {"compose", write_color, {NULL, gcv_composed, NULL}},
};

static const struct call *call_of(const char *name)
{
    for (size_t i = 0; i < sizeof CALL / sizeof *CALL; i++)
        if (strcmp(CALL[i].name, name) == 0)
            return &CALL[i];
    fprintf(stderr, "no call %s\n", name);
    exit(2);
}

static unsigned value_of(char digit)
{
    return (unsigned)(digit <= '9' ? digit - '0' : digit - 'a' + 10);
}

/* Returns the bytes that hexadecimal digits mean. */
static char *bytes_of(const char *digits, size_t *length)
{
    *length = strlen(digits) / 2;
    char *bytes = malloc(*length + 1);
    if (!bytes)
        exit(2);
    for (size_t i = 0; i < *length; i++)
        bytes[i] = (char)(value_of(digits[2 * i]) << 4 | value_of(digits[2 * i + 1]));
    return bytes;
}

/* Asks each library once, and ends the process if two of them give different answers. */
static void compare_answers(const struct call *call, const struct row *row)
{
    char first[LONGEST_ANSWER] = "", answer[LONGEST_ANSWER];
    int asked = -1;
    for (int library = 0; library < LIBRARIES; library++) {
        if (!call->by[library])
            continue;
        struct room room;
        memset(&room, 0, sizeof room);
        strcpy(answer, "refused");
        if (call->by[library](row, 0, &room) != 0)
            call->write(answer, library, &room);
        if (asked < 0) {
            strcpy(first, answer);
            asked = library;
        } else if (strcmp(first, answer) != 0) {
            int length = row->length < LONGEST_SHOWN ? (int)row->length : LONGEST_SHOWN;
            fprintf(stderr, "%s of `%.*s`: ", call->name, length, row->text);
            fprintf(stderr, "%s answers %s, and %s %s\n", LIBRARY[asked], first, LIBRARY[library], answer);
            exit(1);
        }
    }
}

/* Returns how many calls take as long as a batch. */
static uint64_t batch_of(calls *call, const struct row *row, struct room *room, double batch)
{
    for (uint64_t times = 1;; times *= 2) {
        double taken = call(row, times, room);
        if (taken >= batch / 4)
            return (uint64_t)((double)times * batch / taken) + 1;
    }
}

static int rising(const void *first, const void *second)
{
    double a = *(const double *)first, b = *(const double *)second;
    return (a > b) - (a < b);
}

/* Prints the least nanoseconds, and the median of the ratios to the Rust crate. */
static void print_figures(const struct call *call, const double *least, double ratios[][MOST_ROUNDS], int rounds)
{
    for (int library = 0; library < LIBRARIES; library++) {
        if (call->by[library])
            printf("%.2f\t", least[library]);
        else
            printf("-\t");
    }
    for (int library = OURS; library < LIBRARIES; library++) {
        qsort(ratios[library], (size_t)rounds, sizeof(double), rising);
        if (call->by[RUST] && call->by[library])
            printf("%.3f", ratios[library][rounds / 2]);
        else
            printf("-");
        printf(library == LIMIT ? "\n" : "\t");
    }
    fflush(stdout);
}

static void measure(const struct call *call, const struct row *row, int rounds, double batch)
{
    static double ratios[LIBRARIES][MOST_ROUNDS];
    struct room room;
    double least[LIBRARIES];
    uint64_t times[LIBRARIES] = {0};
    for (int library = 0; library < LIBRARIES; library++) {
        least[library] = 1e18;
        if (call->by[library])
            times[library] = batch_of(call->by[library], row, &room, batch);
    }
    for (int round = 0; round < rounds; round++) {
        double taken[LIBRARIES] = {0};
        for (int library = 0; library < LIBRARIES; library++) {
            if (!call->by[library])
                continue;
            taken[library] = call->by[library](row, times[library], &room) / (double)times[library];
            if (taken[library] < least[library])
                least[library] = taken[library];
            ratios[library][round] = taken[library] / taken[RUST];
        }
    }
    print_figures(call, least, ratios, rounds);
}

/* Asks, compares and measures the call that a line names. */
static void answer_line(char *line, int rounds, double batch)
{
    char *rest = line;
    line[strcspn(line, "\n")] = 0;
    const struct call *call = call_of(strsep(&rest, "\t"));
    struct row row = {.kind = (uint32_t)atoi(strsep(&rest, "\t"))};
    char *text = bytes_of(strsep(&rest, "\t"), &row.length);
    char *second = bytes_of(rest, &row.second_length);
    row.text = text;
    row.second = second;
    up_color_read((uint8_t *)text, row.length, &row.up_color);
    gcv_status read[2] = {gcv_read_color(text, row.length, &row.color, NULL),
                          gcv_read_color(second, row.second_length, &row.second_color, NULL)};
    (void)read; /* a row may be of another kind */
    compare_answers(call, &row);
    measure(call, &row, rounds, batch);
    free(text);
    free(second);
}

int main(int count, char **arguments)
{
    int rounds = count == 3 ? atoi(arguments[1]) : 0;
    double batch = count == 3 ? atof(arguments[2]) * 1e6 : 0;
    if (rounds < 1 || rounds > MOST_ROUNDS || batch <= 0) {
        fputs("usage: compare ROUNDS MILLISECONDS\n", stderr);
        return 2;
    }
    limit_prepare();
    char *line = NULL;
    size_t room = 0;
    while (getline(&line, &room, stdin) > 0)
        answer_line(line, rounds, batch);
    free(line);
    return 0;
}

/* The C calls on the stored cases of program query. Each command line of crates/query/stdin is answered through htm.h, printed as
 * query prints it, and compared with its line of crates/query/stdout. Every call that writes into lent lists is made on each case
 * with lists that are longer than needed, shorter by one element and exactly long enough.
 *
 *   calls STDIN STDOUT     one line a call; exit status 1 on any difference */
#include <inttypes.h>
#include <stdarg.h>
#include <stdbool.h>
#include <stdio.h>
#include <stdlib.h>
#include <string.h>

#include "htm.h"

#define BEHIND 16 /* elements of a lent list that no answer reaches */
#define NAME (HTM_NAME_BYTES + BEHIND)
#define CORNERS (HTM_CORNERS_LENGTH + BEHIND)
#define ROWS (HTM_ROWS_LENGTH + BEHIND)
#define HEADER (HTM_HEADER_LENGTH + BEHIND)
#define CONTENTS (HTM_CONTENTS_LENGTH + BEHIND)
#define COUNTS (HTM_COVER_COUNTS + BEHIND)
#define FILE_BYTES (HTM_FILE_BYTES + BEHIND)
#define LISTS (HTM_RANGES_LENGTH + BEHIND)
#define MOST 32768 /* no command line has more numbers */
#define MOST_BYTES (1 << 18) /* no stored case has a longer file */

struct text {
    const uint8_t *at;
    size_t n;
};

struct tally {
    long equal, refused, differ, shorter, exact;
};

static struct text line, wanted;         /* the case at hand */
static struct tally *now;                /* its call's tally */
static struct tally headers;             /* that of htm_header, made on each line's region file */
static size_t line_number;
static char printed[1 << 18];            /* the answer through C */
static size_t printed_n;

static void die(const char *what, const char *of)
{
    fprintf(stderr, "calls: %s %s\n", what, of);
    exit(1);
}

static void print(const char *format, ...)
{
    va_list words;
    va_start(words, format);
    printed_n += (size_t)vsnprintf(printed + printed_n, sizeof printed - printed_n, format, words);
    va_end(words);
    if (printed_n >= sizeof printed)
        die("an answer is too long", "");
}

static void show(const char *label, const void *at, size_t n)
{
    printf("  %-6s %.*s%s\n", label, (int)(n < 300 ? n : 300), (const char *)at, n < 300 ? "" : " ..");
}

static void must(bool is, const char *what)
{
    if (is)
        return;
    now->differ++;
    printf("line %zu: it is not so that %s\n", line_number, what);
    show("line", line.at, line.n);
}

/* An answer that the lent list cannot hold: nothing after it can be trusted. */
static void must_fit(bool is, const char *what)
{
    must(is, what);
    if (!is)
        exit(1);
}

/* ---- words of a line, as query has accepted them: parted by one blank */

static struct text take_word(struct text *rest)
{
    const uint8_t *blank = memchr(rest->at, ' ', rest->n);
    struct text word = {rest->at, blank ? (size_t)(blank - rest->at) : rest->n};
    size_t used = word.n + (blank ? 1 : 0);
    rest->at += used;
    rest->n -= used;
    return word;
}

static uint64_t take_natural(struct text *rest)
{
    struct text word = take_word(rest);
    uint64_t n = 0;
    for (size_t i = 0; i < word.n; i++)
        n = n * 10 + (uint64_t)(word.at[i] - '0');
    return n;
}

static int32_t take_whole(struct text *rest)
{
    bool negative = rest->n > 0 && rest->at[0] == '-';
    if (negative) {
        rest->at++;
        rest->n--;
    }
    int64_t n = (int64_t)take_natural(rest);
    return (int32_t)(negative ? -n : n);
}

static int digit(uint8_t c)
{
    return c <= '9' ? c - '0' : (c | 32) - 'a' + 10;
}

/* A file in hexadecimal digits; `-` is the one with no bytes. */
static size_t take_file(struct text *rest, uint8_t file[MOST_BYTES])
{
    struct text word = take_word(rest);
    size_t n = word.n / 2;
    if (n > MOST_BYTES)
        die("a file is too long", "");
    for (size_t i = 0; i < n; i++)
        file[i] = (uint8_t)(digit(word.at[2 * i]) * 16 + digit(word.at[2 * i + 1]));
    return n;
}

/* The bits of a float in hexadecimal digits. */
static uint64_t take_bits(struct text *rest)
{
    struct text word = take_word(rest);
    uint64_t n = 0;
    for (size_t i = 0; i < word.n; i++)
        n = n << 4 | (uint64_t)digit(word.at[i]);
    return n;
}

static double take_double(struct text *rest)
{
    uint64_t bits = take_bits(rest);
    double v;
    memcpy(&v, &bits, sizeof v);
    return v;
}

static float take_single(struct text *rest)
{
    uint32_t bits = (uint32_t)take_bits(rest);
    float v;
    memcpy(&v, &bits, sizeof v);
    return v;
}

/* ---- lent lists: painted before a call, so that every element that it writes shows */

static uint8_t colour(size_t i)
{
    return (uint8_t)(0xa5 ^ (i * 29));
}

static void paint(void *list, size_t bytes)
{
    for (size_t i = 0; i < bytes; i++)
        ((uint8_t *)list)[i] = colour(i);
}

static bool stays(const void *list, size_t from, size_t to)
{
    for (size_t i = from; i < to; i++)
        if (((const uint8_t *)list)[i] != colour(i))
            return false;
    return true;
}

/* A refused call: with no room at all the number is the same, since 10 comes after all other checks, and no element changes. */
static void must_refuse(int64_t number, int64_t without_room, bool all_stays)
{
    must(without_room == number, "a refusal comes before that of lists too short");
    must(all_stays, "a refusal changes no lent element");
}

static void must_be_short(int64_t number, bool all_stays)
{
    must(number == -HTM_SPACE, "a list shorter by one element is refused with 10");
    must(all_stays, "refusal 10 changes no lent element");
    now->shorter++;
}

static void must_be_exact(bool same)
{
    must(same, "an exact list gets the same answer");
    now->exact++;
}

/* ---- each call on lists of the three lengths; the answer is that on long ones */

static int64_t try_name(uint64_t id, uint8_t out[NAME])
{
    uint8_t again[NAME];
    paint(out, NAME);
    paint(again, NAME);
    int64_t n = htm_name(id, out, NAME);
    if (n < 0) {
        must_refuse(n, htm_name(id, again, 0), stays(out, 0, NAME) && stays(again, 0, NAME));
        return n;
    }
    must_fit(n <= HTM_NAME_BYTES, "a name has at most HTM_NAME_BYTES bytes");
    must(stays(out, (size_t)n, NAME), "what is behind the name stays");
    must_be_short(htm_name(id, again, (size_t)n - 1), stays(again, 0, NAME));
    must_be_exact(htm_name(id, again, (size_t)n) == n && memcmp(again, out, NAME) == 0);
    return n;
}

static int64_t try_corners(uint64_t id, int32_t out[CORNERS])
{
    const size_t all = CORNERS * sizeof out[0];
    int32_t again[CORNERS];
    paint(out, all);
    paint(again, all);
    int64_t answer = htm_corners(id, out, CORNERS);
    if (answer < 0) {
        must_refuse(answer, htm_corners(id, again, 0), stays(out, 0, all) && stays(again, 0, all));
        return answer;
    }
    must(stays(out, HTM_CORNERS_LENGTH * sizeof out[0], all), "what is behind nine numbers stays");
    must_be_short(htm_corners(id, again, HTM_CORNERS_LENGTH - 1), stays(again, 0, all));
    must_be_exact(htm_corners(id, again, HTM_CORNERS_LENGTH) == 0 && memcmp(again, out, all) == 0);
    return answer;
}

static int64_t try_read(const uint8_t *file, size_t bytes, int32_t rows[ROWS], uint64_t header[HEADER])
{
    const size_t all = ROWS * sizeof rows[0], three = HEADER * sizeof header[0];
    static int32_t again[ROWS];
    uint64_t head[HEADER];
    paint(rows, all);
    paint(header, three);
    paint(again, all);
    paint(head, three);
    int64_t answer = htm_read(file, bytes, rows, ROWS, header, HEADER);
    if (answer < 0) {
        bool kept = stays(rows, 0, all) && stays(header, 0, three);
        must_refuse(answer, htm_read(file, bytes, again, 0, head, 0), kept && stays(again, 0, all) && stays(head, 0, three));
        return answer;
    }
    must_fit(header[0] * 5 <= HTM_ROWS_LENGTH, "HTM_ROWS_LENGTH elements are enough for every file");
    size_t n = (size_t)header[0] * 5;
    must(stays(rows, n * sizeof rows[0], all), "what is behind the rows stays");
    must(stays(header, HTM_HEADER_LENGTH * sizeof header[0], three), "what is behind count, depth and budget stays");
    int64_t short_rows = htm_read(file, bytes, again, n - 1, head, HEADER);
    must_be_short(short_rows, stays(again, 0, all) && stays(head, 0, three));
    int64_t short_head = htm_read(file, bytes, again, ROWS, head, HTM_HEADER_LENGTH - 1);
    must_be_short(short_head, stays(again, 0, all) && stays(head, 0, three));
    int64_t exact = htm_read(file, bytes, again, n, head, HTM_HEADER_LENGTH);
    must_be_exact(exact == 0 && memcmp(again, rows, all) == 0 && memcmp(head, header, three) == 0);
    return answer;
}

/* htm_header on a region file that a line has, beside the reader: the reader's three numbers, and one more than the last row's. */
static void try_header(const uint8_t *file, size_t bytes)
{
    static int32_t rows[ROWS];
    uint64_t header[HEADER], four[CONTENTS], again[CONTENTS];
    const size_t all = sizeof four, number = sizeof four[0];
    struct tally *call = now;
    now = &headers;
    long differ = now->differ;
    paint(four, all);
    paint(again, all);
    int64_t accepted = htm_read(file, bytes, rows, ROWS, header, HEADER);
    int64_t answer = htm_header(file, bytes, four, CONTENTS);
    must_fit(answer == accepted, "reader and header answer alike");
    if (answer < 0) {
        now->refused++;
        must_refuse(answer, htm_header(file, bytes, again, 0), stays(four, 0, all) && stays(again, 0, all));
    } else {
        must_fit(header[0] >= 1 && header[0] <= 512, "a file has 1 to 512 rows");
        must(memcmp(four, header, 3 * number) == 0, "count, depth and budget are the reader's");
        must(four[3] == (uint64_t)rows[5 * (header[0] - 1)] + 1, "there is one convex more than the last row's number");
        must(stays(four, 4 * number, all), "what is behind the four numbers stays");
        must_be_short(htm_header(file, bytes, again, 3), stays(again, 0, all));
        must_be_exact(htm_header(file, bytes, again, 4) == 0 && memcmp(again, four, all) == 0);
    }
    now->equal += now->differ == differ;
    now = call;
}

/* What a region file is made of: rows with depth and budget, or another file. */
struct source {
    uint32_t depth, budget;
    const int32_t *rows;
    const uint8_t *file;
    size_t n;
};

typedef int64_t making(const struct source *from, uint8_t *out, size_t room);

static int64_t write_plain(const struct source *from, uint8_t *out, size_t room)
{
    return htm_write(from->depth, from->budget, from->rows, from->n, out, room);
}

static int64_t write_grouped(const struct source *from, uint8_t *out, size_t room)
{
    return htm_write_grouped(from->depth, from->budget, from->rows, from->n, out, room);
}

static int64_t to_grouped(const struct source *from, uint8_t *out, size_t room)
{
    return htm_to_grouped(from->file, from->n, out, room);
}

static int64_t to_plain(const struct source *from, uint8_t *out, size_t room)
{
    return htm_to_plain(from->file, from->n, out, room);
}

static int64_t try_making(making *make, const struct source *from, uint8_t out[FILE_BYTES])
{
    static uint8_t again[FILE_BYTES];
    paint(out, FILE_BYTES);
    paint(again, FILE_BYTES);
    int64_t n = make(from, out, FILE_BYTES);
    if (n < 0) {
        int64_t without_room = make(from, again, 0);
        must_refuse(n, without_room, stays(out, 0, FILE_BYTES) && stays(again, 0, FILE_BYTES));
        return n;
    }
    must_fit(n <= HTM_FILE_BYTES, "a file has at most HTM_FILE_BYTES bytes");
    must(stays(out, (size_t)n, FILE_BYTES), "what is behind the file stays");
    must_be_short(make(from, again, (size_t)n - 1), stays(again, 0, FILE_BYTES));
    int64_t exact = make(from, again, (size_t)n);
    must_be_exact(exact == n && memcmp(again, out, FILE_BYTES) == 0);
    return n;
}

/* How many identifiers are in some ranges. */
static uint64_t contained(const uint64_t *pairs, uint64_t count)
{
    uint64_t sum = 0;
    for (uint64_t i = 0; i < count; i++)
        sum += pairs[2 * i + 1] - pairs[2 * i] + 1;
    return sum;
}

/* The budget is the file's, HTM_DEFAULT_BUDGET where it says 0; it counts only where the file is accepted. */
static int64_t try_cover(const uint8_t *file, size_t bytes, size_t budget, uint64_t out[LISTS], uint64_t counts[COUNTS])
{
    const size_t all = LISTS * sizeof out[0], six = COUNTS * sizeof counts[0], pair = 2 * sizeof out[0];
    static uint64_t again[LISTS];
    uint64_t tally[COUNTS];
    paint(out, all);
    paint(counts, six);
    paint(again, all);
    paint(tally, six);
    int64_t answer = htm_cover(file, bytes, out, LISTS, counts, COUNTS);
    if (answer < 0) {
        bool kept = stays(out, 0, all) && stays(counts, 0, six);
        must_refuse(answer, htm_cover(file, bytes, again, 0, tally, 0), kept && stays(again, 0, all) && stays(tally, 0, six));
        return answer;
    }
    must_fit(counts[0] <= budget && counts[1] <= budget, "both lists keep to the budget");
    must(stays(out, counts[0] * pair, budget * pair), "what is between both lists stays");
    must(stays(out, (budget + counts[1]) * pair, all), "what is behind the inner list stays");
    must(stays(counts, HTM_COVER_COUNTS * sizeof counts[0], six), "what is behind the counts stays");
    must(contained(out, counts[0]) == counts[3] + counts[4] + counts[5], "the outer ranges contain full + partial + swallowed");
    int64_t short_lists = htm_cover(file, bytes, again, 4 * budget - 1, tally, COUNTS);
    must_be_short(short_lists, stays(again, 0, all) && stays(tally, 0, six));
    int64_t short_counts = htm_cover(file, bytes, again, LISTS, tally, HTM_COVER_COUNTS - 1);
    must_be_short(short_counts, stays(again, 0, all) && stays(tally, 0, six));
    int64_t exact = htm_cover(file, bytes, again, 4 * budget, tally, HTM_COVER_COUNTS);
    must_be_exact(exact == 0 && memcmp(again, out, all) == 0 && memcmp(tally, counts, six) == 0);
    return answer;
}

/* ---- the answers, printed as query prints them */

static bool print_refusal(int64_t answer)
{
    if (answer >= 0)
        return false;
    print("refused %" PRId64, -answer);
    now->refused++;
    return true;
}

static void print_name(uint64_t id)
{
    uint8_t name[HTM_NAME_BYTES];
    int64_t n = htm_name(id, name, sizeof name);
    if (!print_refusal(n))
        print("%.*s", (int)n, (const char *)name);
}

static void print_found(int64_t answer)
{
    if (print_refusal(answer))
        return;
    print("%" PRId64 " ", answer);
    print_name((uint64_t)answer);
}

/* lookup X Y Z DEPTH, by both calls: one gives 0 for a refusal, the other its number. */
static void answer_lookup(struct text rest)
{
    int32_t x = take_whole(&rest), y = take_whole(&rest), z = take_whole(&rest);
    uint32_t depth = (uint32_t)take_natural(&rest);
    int64_t answer = htm_lookup(x, y, z, depth);
    must(lookup(x, y, z, depth) == (answer < 0 ? 0 : (uint64_t)answer), "lookup gives the same, and 0 for a refusal");
    print_found(answer);
}

/* double X Y Z DEPTH */
static void answer_double(struct text rest)
{
    double x = take_double(&rest), y = take_double(&rest), z = take_double(&rest);
    print_found(htm_lookup_f64(x, y, z, (uint32_t)take_natural(&rest)));
}

/* single X Y Z DEPTH */
static void answer_single(struct text rest)
{
    float x = take_single(&rest), y = take_single(&rest), z = take_single(&rest);
    print_found(htm_lookup_f32(x, y, z, (uint32_t)take_natural(&rest)));
}

/* line HEX DEPTH */
static void answer_line(struct text rest)
{
    static uint8_t bytes[MOST_BYTES];
    size_t n = take_file(&rest, bytes);
    print_found(htm_lookup_line(bytes, n, (uint32_t)take_natural(&rest)));
}

/* name ID */
static void answer_name(struct text rest)
{
    uint8_t name[NAME];
    int64_t n = try_name(take_natural(&rest), name);
    if (!print_refusal(n))
        print("%.*s", (int)n, (const char *)name);
}

/* id NAME. The call gives 0 for its only refusal. */
static void answer_id(struct text rest)
{
    struct text name = take_word(&rest);
    uint64_t id = htm_identifier(name.at, name.n);
    if (!print_refusal(id == 0 ? -HTM_NAME : 0))
        print("%" PRIu64, id);
}

/* corners ID */
static void answer_corners(struct text rest)
{
    int32_t c[CORNERS];
    if (print_refusal(try_corners(take_natural(&rest), c)))
        return;
    for (int i = 0; i < HTM_CORNERS_LENGTH; i++)
        print("%s%" PRId32, i ? " " : "", c[i]);
}

/* rows HEX */
static void answer_rows(struct text rest)
{
    static uint8_t file[MOST_BYTES];
    static int32_t rows[ROWS];
    uint64_t header[HEADER];
    size_t bytes = take_file(&rest, file);
    try_header(file, bytes);
    if (print_refusal(try_read(file, bytes, rows, header)))
        return;
    print("%" PRIu64 " %" PRIu64 " %" PRIu64, header[1], header[2], header[0]);
    for (size_t i = 0; i < header[0] * 5; i++)
        print(" %" PRId32, rows[i]);
}

static void print_file(making *make, const struct source *from)
{
    static uint8_t out[FILE_BYTES];
    int64_t bytes = try_making(make, from, out);
    if (print_refusal(bytes))
        return;
    for (int64_t i = 0; i < bytes; i++)
        print("%02x", out[i]);
}

static void print_written(making *make, struct text rest)
{
    static int32_t rows[MOST];
    struct source from = {0};
    from.depth = (uint32_t)take_natural(&rest);
    from.budget = (uint32_t)take_natural(&rest);
    from.rows = rows;
    while (rest.n > 0 && from.n < MOST)
        rows[from.n++] = take_whole(&rest);
    print_file(make, &from);
}

/* file DEPTH BUDGET N1 N2 .. */
static void answer_file(struct text rest)
{
    print_written(write_plain, rest);
}

/* grouped DEPTH BUDGET N1 N2 .. */
static void answer_grouped(struct text rest)
{
    print_written(write_grouped, rest);
}

static void print_converted(making *make, struct text rest)
{
    static uint8_t file[MOST_BYTES];
    struct source from = {0};
    from.file = file;
    from.n = take_file(&rest, file);
    try_header(file, from.n);
    print_file(make, &from);
}

/* togrouped HEX */
static void answer_to_grouped(struct text rest)
{
    print_converted(to_grouped, rest);
}

/* toplain HEX */
static void answer_to_plain(struct text rest)
{
    print_converted(to_plain, rest);
}

/* holds HEX X Y Z */
static void answer_holds(struct text rest)
{
    static uint8_t file[MOST_BYTES];
    size_t bytes = take_file(&rest, file);
    int32_t x = take_whole(&rest), y = take_whole(&rest), z = take_whole(&rest);
    try_header(file, bytes);
    int64_t held = htm_holds(file, bytes, x, y, z);
    must(held <= 1, "the point test answers 1 or 0");
    if (!print_refusal(held))
        print(held ? "yes" : "no");
}

static void print_ranges(char letter, const uint64_t *pairs, uint64_t count)
{
    for (uint64_t i = 0; i < count; i++) {
        print("|%c ", letter);
        print_name(pairs[2 * i]);
        print(" ");
        print_name(pairs[2 * i + 1]);
    }
}

/* cover HEX */
static void answer_cover(struct text rest)
{
    static uint8_t file[MOST_BYTES];
    static int32_t rows[ROWS];
    static uint64_t lists[LISTS];
    uint64_t header[HEADER] = {0}, counts[COUNTS];
    size_t bytes = take_file(&rest, file);
    int64_t accepted = htm_read(file, bytes, rows, ROWS, header, HEADER);
    size_t budget = header[2] ? (size_t)header[2] : HTM_DEFAULT_BUDGET;
    try_header(file, bytes);
    int64_t answer = try_cover(file, bytes, budget, lists, counts);
    must(answer == accepted, "reader and cover refuse alike");
    if (print_refusal(answer) || accepted < 0)
        return;
    print("depth %" PRIu64 " outer %" PRIu64 " inner %" PRIu64 " seen %" PRIu64, header[1], counts[0], counts[1], counts[2]);
    print(" full %" PRIu64 " partial %" PRIu64 " swallowed %" PRIu64, counts[3], counts[4], counts[5]);
    print_ranges('o', lists, counts[0]);
    print_ranges('i', lists + 2 * budget, counts[1]);
}

/* ---- the cases */

static struct command {
    const char *word, *call;
    void (*answer)(struct text rest);
    struct tally tally;
} commands[] = {
    {"lookup", "htm_lookup", answer_lookup, {0}},     {"double", "htm_lookup_f64", answer_double, {0}},
    {"single", "htm_lookup_f32", answer_single, {0}}, {"line", "htm_lookup_line", answer_line, {0}},
    {"name", "htm_name", answer_name, {0}},           {"id", "htm_identifier", answer_id, {0}},
    {"corners", "htm_corners", answer_corners, {0}},  {"rows", "htm_read", answer_rows, {0}},
    {"file", "htm_write", answer_file, {0}},          {"grouped", "htm_write_grouped", answer_grouped, {0}},
    {"togrouped", "htm_to_grouped", answer_to_grouped, {0}}, {"toplain", "htm_to_plain", answer_to_plain, {0}},
    {"holds", "htm_holds", answer_holds, {0}},        {"cover", "htm_cover", answer_cover, {0}},
};
#define COMMANDS (sizeof commands / sizeof commands[0])

static bool is(struct text t, const char *word)
{
    return t.n == strlen(word) && memcmp(t.at, word, t.n) == 0;
}

static void compare(struct command *c, struct text rest)
{
    now = &c->tally;
    printed_n = 0;
    c->answer(rest);
    if (printed_n == wanted.n && memcmp(printed, wanted.at, wanted.n) == 0) {
        now->equal++;
        return;
    }
    now->differ++;
    printf("line %zu: the answers differ\n", line_number);
    show("line", line.at, line.n);
    show("wanted", wanted.at, wanted.n);
    show("got", printed, printed_n);
}

static bool take_line(struct text *from, struct text *to)
{
    if (from->n == 0)
        return false;
    const uint8_t *feed = memchr(from->at, '\n', from->n);
    to->at = from->at;
    to->n = feed ? (size_t)(feed - from->at) : from->n;
    size_t used = to->n + (feed ? 1 : 0);
    from->at += used;
    from->n -= used;
    return true;
}

static struct text read_all(const char *path)
{
    static const size_t most = 1 << 26;
    uint8_t *bytes = malloc(most);
    FILE *f = fopen(path, "rb");
    if (!f || !bytes)
        die("cannot read", path);
    size_t n = fread(bytes, 1, most, f);
    if (ferror(f) || n == most)
        die("cannot read all of", path);
    fclose(f);
    return (struct text){bytes, n};
}

/* The tally of a call, in a line. The result is how many differences there are; no case is one. */
static long report_call(const char *call, const struct tally *t)
{
    printf("%-17s %4ld cases equal, %3ld refusals; lent lists: %3ld short by one, %3ld exact; %ld differences\n", call, t->equal, t->refused,
           t->shorter, t->exact, t->differ);
    if (t->equal == 0)
        printf("%s: no case\n", call);
    return t->differ + (t->equal == 0);
}

static long report(long skipped)
{
    long differ = 0;
    for (size_t i = 0; i < COMMANDS; i++)
        differ += report_call(commands[i].call, &commands[i].tally);
    differ += report_call("htm_header", &headers);
    printf("%ld malformed lines skipped, since query answers them with usage\n", skipped);
    return differ;
}

int main(int argc, char **argv)
{
    if (argc != 3)
        die("usage: calls", "STDIN STDOUT");
    struct text lines = read_all(argv[1]), answers = read_all(argv[2]);
    long skipped = 0;
    while (take_line(&lines, &line)) {
        line_number++;
        if (!take_line(&answers, &wanted))
            die("fewer answers than lines in", argv[2]);
        if (is(wanted, "usage")) {
            skipped++;
            continue;
        }
        struct text rest = line, word = take_word(&rest);
        size_t i = 0;
        while (i < COMMANDS && !is(word, commands[i].word))
            i++;
        if (i == COMMANDS)
            die("a command that is not known is answered in", argv[2]);
        compare(&commands[i], rest);
    }
    if (answers.n > 0)
        die("more answers than lines in", argv[2]);
    return report(skipped) ? 1 : 0;
}

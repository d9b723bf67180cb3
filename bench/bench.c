// The benchmark of the proved decoder: its time beside that of the baseline, which is the same search
// written by hand in C (baseline.c). bench/run builds and runs it.
//
// For each shape (q, n, k) it makes a few codes and words from a fixed seed. First both decoders decode
// every word: they must give the same answer and write the same message, leave the message as it was
// where the word is tied, and leave the work memory all zeros. Then both are measured over all these
// words, in turn, and the best of five measurements of at least 0.3 s counts. A line of the table has
// the shape, the microseconds that one decoding takes, and the time of the proved decoder divided by
// that of the baseline. The exit status is 1 if the two decoders differ.
#define _POSIX_C_SOURCE 199309L
#include <stddef.h>
#include <stdint.h>
#include <stdio.h>
#include <stdlib.h>
#include <string.h>
#include <time.h>

#define MAX_PLACES 24
#define CODES 3
#define WRONG_WORDS 4
#define RANDOM_WORDS 2
#define WORDS (WRONG_WORDS + RANDOM_WORDS)
#define MEASUREMENTS 5
#define MIN_SECONDS 0.3
#define TIED 1013
#define UNTOUCHED 0xEE

// Decodes a word `times` times by the code that the rows span, and answers the least cost or TIED.
typedef uint32_t Decoder(uint32_t q, uint32_t n, const uint8_t *rows, size_t rows_len,
                         const uint8_t *word, size_t word_len, uint32_t *work, size_t work_len,
                         uint8_t *message, size_t message_len, uint32_t times);

Decoder baseline_decode; // baseline.c
Decoder bench_decode;    // the proved decoder, in the library of the crate bench

typedef struct {
    uint32_t q, n, k;
} Shape;

static const Shape shapes[] = {{2, 24, 12}, {3, 24, 17}, {4, 24, 18}, {16, 24, 21}, {2, 8, 4}};

typedef struct {
    uint8_t rows[MAX_PLACES * MAX_PLACES];
    uint8_t words[WORDS][MAX_PLACES];
} Code;

// The codes of one shape with their words, and the work memory that the decoders are lent.
typedef struct {
    Shape shape;
    Code codes[CODES];
    uint32_t *work;
    size_t work_len;
} Suite;

// ---- Codes and words.

static uint64_t seed = 1;

// A pseudo-random number below `bound`.
static uint32_t random_below(uint32_t bound)
{
    seed = seed * 6364136223846793005u + 1442695040888963407u;
    return (uint32_t)(seed >> 33) % bound;
}

// Makes rows in systematic form: k of the n places carry one row each, with 1 in that row and 0 in the
// others, and the other places have random symbols.
static void make_rows(Shape s, uint8_t *rows)
{
    uint32_t carried = 0;
    for (uint32_t p = 0; p < s.n; p++) {
        int carries = random_below(s.n - p) < s.k - carried;
        for (uint32_t i = 0; i < s.k; i++)
            rows[i * s.n + p] = (uint8_t)(carries ? i == carried : random_below(s.q));
        if (carries)
            carried++;
    }
}

static uint8_t sum(uint32_t q, uint8_t a, uint8_t b)
{
    return (uint8_t)(q == 3 ? (a + b) % 3 : a ^ b);
}

// Makes a codeword: the sum of k rows taken at random, of which some may be the same.
static void make_codeword(Shape s, const uint8_t *rows, uint8_t *word)
{
    memset(word, 0, s.n);
    for (uint32_t i = 0; i < s.k; i++) {
        const uint8_t *row = rows + random_below(s.k) * s.n;
        for (uint32_t p = 0; p < s.n; p++)
            word[p] = sum(s.q, word[p], row[p]);
    }
}

// Puts another symbol at a random place.
static void spoil(Shape s, uint8_t *word)
{
    uint32_t p = random_below(s.n);
    word[p] = (uint8_t)((word[p] + 1 + random_below(s.q - 1)) % s.q);
}

// Makes codewords that are spoiled 0, 1, 2 .. times, and random words.
static void make_words(Shape s, Code *code)
{
    for (uint32_t w = 0; w < WRONG_WORDS; w++) {
        make_codeword(s, code->rows, code->words[w]);
        for (uint32_t i = 0; i < w; i++)
            spoil(s, code->words[w]);
    }
    for (uint32_t w = WRONG_WORDS; w < WORDS; w++)
        for (uint32_t p = 0; p < s.n; p++)
            code->words[w][p] = (uint8_t)random_below(s.q);
}

static Suite make_suite(Shape s)
{
    Suite suite = {.shape = s};
    for (int c = 0; c < CODES; c++) {
        make_rows(s, suite.codes[c].rows);
        make_words(s, &suite.codes[c]);
    }
    size_t states = 1;
    for (uint32_t i = 0; i < s.n - s.k; i++)
        states *= s.q;
    suite.work_len = (2 * s.n + 2) * states;
    suite.work = malloc(suite.work_len * sizeof *suite.work);
    if (suite.work == NULL)
        abort();
    return suite;
}

// ---- Both decoders must do the same.

static uint32_t decode(Decoder *decoder, const Suite *suite, const Code *code, const uint8_t *word,
                       uint8_t *message, uint32_t times)
{
    Shape s = suite->shape;
    return decoder(s.q, s.n, code->rows, s.k * s.n, word, s.n, suite->work, suite->work_len, message,
                   s.k, times);
}

// What a decoder did with a word. `tidy` tells whether it left zeros in the whole work memory, and
// left alone what it must not write: the whole message if it is tied, else the bytes after it.
typedef struct {
    uint32_t answer;
    uint8_t message[MAX_PLACES];
    int tidy;
} Outcome;

static int is_filled(const void *memory, size_t len, uint8_t with)
{
    const uint8_t *bytes = memory;
    for (size_t i = 0; i < len; i++)
        if (bytes[i] != with)
            return 0;
    return 1;
}

// Decodes a word once, with a work memory that is full of ones before.
static Outcome try_word(Decoder *decoder, const Suite *suite, const Code *code, const uint8_t *word)
{
    Outcome o;
    size_t work_bytes = suite->work_len * sizeof *suite->work;
    memset(suite->work, 0xFF, work_bytes);
    memset(o.message, UNTOUCHED, MAX_PLACES);
    o.answer = decode(decoder, suite, code, word, o.message, 1);
    size_t written = o.answer == TIED ? 0 : suite->shape.k;
    o.tidy = is_filled(suite->work, work_bytes, 0) &&
             is_filled(o.message + written, MAX_PLACES - written, UNTOUCHED);
    return o;
}

static void print_outcome(const char *name, Shape s, const Outcome *o)
{
    printf("%3u %3u %3u %s: answer %u, message", s.q, s.n, s.k, name, o->answer);
    for (uint32_t i = 0; i < s.k; i++)
        printf(" %u", o->message[i]);
    printf("%s\n", o->tidy ? "" : ", memory left wrong");
}

static int same_on_word(const Suite *suite, const Code *code, const uint8_t *word)
{
    Outcome baseline = try_word(baseline_decode, suite, code, word);
    Outcome proved = try_word(bench_decode, suite, code, word);
    int same = baseline.tidy && proved.tidy && baseline.answer == proved.answer &&
               memcmp(baseline.message, proved.message, MAX_PLACES) == 0;
    if (!same) {
        print_outcome("baseline", suite->shape, &baseline);
        print_outcome("proved", suite->shape, &proved);
    }
    return same;
}

static int same_on_all(const Suite *suite)
{
    int same = 1;
    for (int c = 0; c < CODES; c++)
        for (int w = 0; w < WORDS; w++)
            if (!same_on_word(suite, &suite->codes[c], suite->codes[c].words[w]))
                same = 0;
    return same;
}

// ---- Times.

static double now(void)
{
    struct timespec t;
    clock_gettime(CLOCK_MONOTONIC, &t);
    return (double)t.tv_sec + (double)t.tv_nsec * 1e-9;
}

// The seconds that a decoder takes for all words, each decoded so many times.
static double measure(Decoder *decoder, const Suite *suite, uint32_t times)
{
    uint8_t message[MAX_PLACES];
    double start = now();
    for (int c = 0; c < CODES; c++)
        for (int w = 0; w < WORDS; w++)
            decode(decoder, suite, &suite->codes[c], suite->codes[c].words[w], message, times);
    return now() - start;
}

// How many times make a measurement long enough.
static uint32_t enough_times(Decoder *decoder, const Suite *suite)
{
    uint32_t times = 1;
    while (measure(decoder, suite, times) < MIN_SECONDS)
        times *= 2;
    return times;
}

// The lesser of `best` and a new measurement, in microseconds for one decoding.
static double better(double best, Decoder *decoder, const Suite *suite, uint32_t times)
{
    double time = measure(decoder, suite, times) * 1e6 / (CODES * WORDS) / times;
    return time < best ? time : best;
}

static void print_times(const Suite *suite)
{
    uint32_t baseline_times = enough_times(baseline_decode, suite);
    uint32_t proved_times = enough_times(bench_decode, suite);
    double baseline = 1e12;
    double proved = 1e12;
    for (int i = 0; i < MEASUREMENTS; i++) {
        baseline = better(baseline, baseline_decode, suite, baseline_times);
        proved = better(proved, bench_decode, suite, proved_times);
    }
    Shape s = suite->shape;
    printf("%3u %3u %3u %12.2f %12.2f %8.2f\n", s.q, s.n, s.k, proved, baseline, proved / baseline);
    fflush(stdout);
}

int main(void)
{
    int same = 1;
    printf("  q   n   k    proved us  baseline us    ratio\n");
    for (size_t i = 0; i < sizeof shapes / sizeof *shapes; i++) {
        Suite suite = make_suite(shapes[i]);
        if (same_on_all(&suite))
            print_times(&suite);
        else
            same = 0;
        free(suite.work);
    }
    return same ? 0 : 1;
}

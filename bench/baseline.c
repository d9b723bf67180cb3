// The baseline of the benchmark: the search of crates/trellis written again by hand in C, by the same
// algorithm and in the same work memory. It proves nothing, and checks nothing of what it is given.
// bench.c measures it beside the proved decoder; bench/run builds both.
//
// A code has n <= 24 places and k independent rows of symbols of a field with q = 2, 3, 4 or 16
// symbols, and C = q^(n - k) <= 4096 states. A state is a partial syndrome as a number in base q. For
// each place, from the last to the first, and for each state the search takes the least cost of the
// symbols from there on, and how many words have it: its ways are 0, 1, or 2 for more.
//
// The work memory has (2n + 2) C words. The row of the place i begins at the word 2 C i: C costs, then
// C ways. After the row of the last place comes one more, where only the state 0 is reached.
//
// Each decoding makes the check rows and the steps anew, and leaves zeros in the work memory.
#include <stddef.h>
#include <stdint.h>
#include <string.h>

#define MAX_PLACES 24
#define MAX_SYMBOLS 16
#define MAX_HIGHS 256
#define MAX_LOWS 64
#define TIED 1013

#define INLINE inline __attribute__((always_inline))

// ---- The field, as tables.

typedef struct {
    uint8_t order;
    uint8_t sum[MAX_SYMBOLS][MAX_SYMBOLS];
    uint8_t product[MAX_SYMBOLS][MAX_SYMBOLS];
    uint8_t negative[MAX_SYMBOLS];
    uint8_t inverse[MAX_SYMBOLS];
} Field;

// The product of two polynomials in α over two symbols: bit i is the coefficient of αⁱ. With 4
// symbols α² = α + 1, and with 16 symbols α⁴ = α + 1.
static int polynomial_product(int order, int a, int b)
{
    int product = 0;
    for (; b != 0; b >>= 1) {
        if (b & 1)
            product ^= a;
        a <<= 1;
        if (a & order)
            a ^= order | 3;
    }
    return product;
}

static Field make_field(uint8_t order)
{
    Field f = {.order = order};
    int prime = order < 4;
    for (uint8_t a = 0; a < order; a++) {
        for (uint8_t b = 0; b < order; b++) {
            f.sum[a][b] = (uint8_t)(prime ? (a + b) % order : a ^ b);
            f.product[a][b] = (uint8_t)(prime ? (a * b) % order : polynomial_product(order, a, b));
            if (f.sum[a][b] == 0)
                f.negative[a] = b;
            if (f.product[a][b] == 1)
                f.inverse[a] = b;
        }
    }
    return f;
}

// ---- The generator: k rows of n places, each with 1 at its own information place and 0 at those of
// the other rows; the information places ascend.

typedef struct {
    size_t n, k;
    uint8_t rows[MAX_PLACES][MAX_PLACES];
    size_t places[MAX_PLACES];
} Generator;

static void swap_rows(uint8_t *a, uint8_t *b)
{
    uint8_t kept[MAX_PLACES];
    memcpy(kept, a, MAX_PLACES);
    memcpy(a, b, MAX_PLACES);
    memcpy(b, kept, MAX_PLACES);
}

static void scale_row(const Field *f, uint8_t *row, uint8_t factor)
{
    for (size_t p = 0; p < MAX_PLACES; p++)
        row[p] = f->product[factor][row[p]];
}

static void add_multiple(const Field *f, uint8_t *row, const uint8_t *by, uint8_t factor)
{
    for (size_t p = 0; p < MAX_PLACES; p++)
        row[p] = f->sum[row[p]][f->product[factor][by[p]]];
}

// Makes the row i 1 at the place p, and the other rows 0 there.
static void make_pivot(const Field *f, Generator *g, size_t i, size_t p)
{
    scale_row(f, g->rows[i], f->inverse[g->rows[i][p]]);
    for (size_t h = 0; h < g->k; h++)
        if (h != i)
            add_multiple(f, g->rows[h], g->rows[i], f->negative[g->rows[h][p]]);
}

// Brings the rows into reduced row echelon form, and finds their information places.
static void reduce(const Field *f, Generator *g)
{
    size_t rank = 0;
    for (size_t p = 0; p < g->n && rank < g->k; p++) {
        size_t i = rank;
        while (i < g->k && g->rows[i][p] == 0)
            i++;
        if (i == g->k)
            continue;
        if (i != rank)
            swap_rows(g->rows[rank], g->rows[i]);
        make_pivot(f, g, rank, p);
        g->places[rank] = p;
        rank++;
    }
}

static Generator make_generator(const Field *f, size_t n, const uint8_t *rows, size_t rows_len)
{
    Generator g = {.n = n, .k = rows_len / n};
    for (size_t i = 0; i < g.k; i++)
        memcpy(g.rows[i], rows + i * n, n);
    reduce(f, &g);
    return g;
}

// ---- The trellis: its states, and the steps between them.

// One check row for each place that is no information place, in the order of these places. The
// first check is the most significant digit of a state.
typedef struct {
    uint8_t rows[MAX_PLACES][MAX_PLACES];
    size_t high_digits, low_digits;
    size_t highs, lows, states;
} Trellis;

static void make_check_row(const Field *f, const Generator *g, size_t place, uint8_t *row)
{
    row[place] = 1;
    for (size_t j = 0; j < g->k; j++)
        row[g->places[j]] = f->negative[g->rows[j][place]];
}

static size_t power(size_t base, size_t digits)
{
    size_t power = 1;
    for (size_t d = 0; d < digits; d++)
        power *= base;
    return power;
}

static Trellis make_trellis(const Field *f, const Generator *g)
{
    Trellis t = {0};
    size_t j = 0;
    size_t checks = 0;
    for (size_t p = 0; p < g->n; p++) {
        if (j < g->k && g->places[j] == p)
            j++;
        else
            make_check_row(f, g, p, t.rows[checks++]);
    }
    t.low_digits = checks / 2;
    t.high_digits = checks - t.low_digits;
    t.lows = power(f->order, t.low_digits);
    t.highs = power(f->order, t.high_digits);
    t.states = t.highs * t.lows;
    return t;
}

// Where each symbol x takes each state at one place: the state u * lows + v goes to
// high[x][u] + low[x][v].
typedef struct {
    uint16_t high[MAX_SYMBOLS][MAX_HIGHS];
    uint16_t low[MAX_SYMBOLS][MAX_LOWS];
} Steps;

// From the steps of `count` states to those of the states that have one digit more, in place: the
// last state comes first, so that none is written over before it is used.
static void widen(const Field *f, uint16_t *out, size_t count, uint8_t added, size_t unit)
{
    size_t q = f->order;
    for (size_t u = count; u-- > 0;) {
        size_t base = out[u] * q;
        for (size_t y = 0; y < q; y++)
            out[u * q + y] = (uint16_t)(base + f->sum[y][added] * unit);
    }
}

// Writes where the symbol x takes the states of the digits `first` to `first + digits - 1` at a
// place, each times `unit`.
static void tabulate(const Field *f, const Trellis *t, size_t first, size_t digits, size_t place,
                     uint8_t x, size_t unit, uint16_t *out)
{
    out[0] = 0;
    size_t count = 1;
    for (size_t d = 0; d < digits; d++) {
        widen(f, out, count, f->product[x][t->rows[first + d][place]], unit);
        count *= f->order;
    }
}

static void make_steps(const Field *f, const Trellis *t, size_t place, Steps *steps)
{
    for (uint8_t x = 0; x < f->order; x++) {
        tabulate(f, t, 0, t->high_digits, place, x, t->lows, steps->high[x]);
        tabulate(f, t, t->high_digits, t->low_digits, place, x, 1, steps->low[x]);
    }
}

// Where the symbol x takes one state at a place, digit by digit from the last.
static size_t step(const Field *f, const Trellis *t, size_t place, size_t state, uint8_t x)
{
    size_t unit = 1;
    size_t to = 0;
    for (size_t i = t->high_digits + t->low_digits; i-- > 0;) {
        to += f->sum[state % f->order][f->product[x][t->rows[i][place]]] * unit;
        state /= f->order;
        unit *= f->order;
    }
    return to;
}

// ---- The table of the least costs.

// What a symbol costs at a place of a word of hard decisions.
static uint16_t cost(const uint8_t *word, size_t place, uint8_t symbol)
{
    return word[place] == symbol ? 0 : 1;
}

// Fills the row past the last place: only the state 0 is there.
static void fill_last_row(const Trellis *t, uint32_t *row)
{
    memset(row, 0, 2 * t->states * sizeof *row);
    row[t->states] = 1;
}

// Fills one state of a row by the row after it: the least cost over all symbols, and its ways.
static INLINE void fill_state(size_t order, const Trellis *t, const Steps *steps,
                              const uint32_t *prices, size_t u, size_t v, uint32_t *row)
{
    const uint32_t *costs_after = row + 2 * t->states;
    const uint32_t *ways_after = costs_after + t->states;
    size_t state = u * t->lows + v;
    uint32_t least = 0;
    uint32_t ways = 0;
    for (size_t x = 0; x < order; x++) {
        size_t to = steps->high[x][u] + steps->low[x][v];
        uint32_t more = ways_after[to];
        uint32_t other = prices[x] + costs_after[to];
        if (more == 0)
            continue;
        if (ways == 0 || other < least) {
            least = other;
            ways = more;
        } else if (other == least) {
            ways = 2;
        }
    }
    row[state] = least;
    row[t->states + state] = ways;
}

static INLINE void fill_states(size_t order, const Trellis *t, const Steps *steps,
                               const uint32_t *prices, uint32_t *row)
{
    for (size_t u = 0; u < t->highs; u++)
        for (size_t v = 0; v < t->lows; v++)
            fill_state(order, t, steps, prices, u, v, row);
}

// Fills a row by the row after it. The loop over the symbols is unrolled where the compiler knows that
// they are few, which saves a third to a half of the time.
static void fill_row(const Field *f, const Trellis *t, const Steps *steps, const uint32_t *prices,
                     uint32_t *row)
{
    switch (f->order) {
    case 2:
        fill_states(2, t, steps, prices, row);
        break;
    case 3:
        fill_states(3, t, steps, prices, row);
        break;
    case 4:
        fill_states(4, t, steps, prices, row);
        break;
    default:
        fill_states(f->order, t, steps, prices, row);
    }
}

static void fill_table(const Field *f, const Trellis *t, size_t n, const uint8_t *word,
                       uint32_t *work)
{
    Steps steps;
    uint32_t prices[MAX_SYMBOLS];
    fill_last_row(t, work + n * 2 * t->states);
    for (size_t place = n; place-- > 0;) {
        make_steps(f, t, place, &steps);
        for (uint8_t x = 0; x < f->order; x++)
            prices[x] = cost(word, place, x);
        fill_row(f, t, &steps, prices, work + place * 2 * t->states);
    }
}

// ---- Decoding.

// The largest symbol that has the least cost from a state on.
static uint8_t best_symbol(const Field *f, const Trellis *t, size_t place, size_t state,
                           const uint8_t *word, const uint32_t *row)
{
    const uint32_t *after = row + 2 * t->states;
    for (uint8_t x = (uint8_t)(f->order - 1); x > 0; x--) {
        size_t to = step(f, t, place, state, x);
        if (after[t->states + to] != 0 && cost(word, place, x) + after[to] == row[state])
            return x;
    }
    return 0;
}

// Follows the cheapest word from the first place on, and writes its symbols at the information
// places.
static void trace(const Field *f, const Generator *g, const Trellis *t, const uint8_t *word,
                  const uint32_t *work, uint8_t *message)
{
    size_t state = 0;
    size_t j = 0;
    for (size_t place = 0; place < g->n; place++) {
        uint8_t x = best_symbol(f, t, place, state, word, work + place * 2 * t->states);
        if (j < g->k && g->places[j] == place)
            message[j++] = x;
        state = step(f, t, place, state, x);
    }
}

// The least cost of a codeword, and its message; or TIED, and no message.
static __attribute__((noinline)) uint32_t decode(const Field *f, const Generator *g,
                                                 const uint8_t *word, uint32_t *work,
                                                 size_t work_len, uint8_t *message)
{
    Trellis t = make_trellis(f, g);
    fill_table(f, &t, g->n, word, work);
    uint32_t answer = TIED;
    if (work[t.states] == 1) {
        answer = work[0];
        trace(f, g, &t, word, work, message);
    }
    memset(work, 0, work_len * sizeof *work);
    return answer;
}

// Takes every answer, so that no decoding can be left out.
static volatile uint32_t sink;

// Decodes the word `times` times by the code that the rows span, which stand end to end, and gives
// the last answer: the least cost, or 1013 if more than one codeword has it. The message is written
// unless it is tied. All sizes are to fit: word_len = n, message_len = k, work_len >= (2n + 2) C.
uint32_t baseline_decode(uint32_t q, uint32_t n, const uint8_t *rows, size_t rows_len,
                         const uint8_t *word, size_t word_len, uint32_t *work, size_t work_len,
                         uint8_t *message, size_t message_len, uint32_t times)
{
    (void)word_len;
    (void)message_len;
    Field f = make_field((uint8_t)q);
    Generator g = make_generator(&f, n, rows, rows_len);
    uint32_t answer = 0;
    for (uint32_t i = 0; i < times; i++) {
        answer = decode(&f, &g, word, work, work_len, message);
        sink ^= answer;
    }
    return answer;
}

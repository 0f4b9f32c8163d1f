/* A quick stand-in for the library under test, to try the comparison with.
 *
 * It works otherwise than the reference: the walk along the chain marks the
 * records met in a table, G is carried along from move to move, the amount of a
 * move comes from a formula, a text is read byte by byte, and what stays in a
 * pool is found from the last item to the first. So a run without a mutation
 * also checks the reference. MUTATION (0 is none) makes one thing wrong; the
 * comparison has to find each. The list is in mutations.txt. */

#include "lookahead.h"
#include <stdlib.h>
#include <string.h>

#ifndef MUTATION
#define MUTATION 0
#endif
#define WRONG(k) (MUTATION == (k))

enum { MOST = 256, LOWEST = -127, HIGHEST = 127, RAISE = 127 };

typedef struct {
    int d, kernel, n, y[MOST];
    size_t record[MOST + 1]; /* mutations 135 and 136 can meet one record twice */
    int64_t S, c, second, t;
    uint32_t budget;
    const int8_t *x[MOST];
    int64_t a[MOST], G[MOST], lower, upper;
    int at_lower, at_upper;
} Problem;

static uint64_t field(const uint8_t *p, int width) {
    uint64_t v = 0;
    while (width-- > 0) v = v << 8 | p[width];
    return v;
}

static size_t first_record(const uint8_t *f) { return field(f + 2, 2); }
static const uint8_t *record(const uint8_t *f, size_t r) { return f + 32 + 20 * (r - 1); }

/* A refusal without a record, or none: 0. */
static lookahead_answer refused(uint8_t number) { return (lookahead_answer){number, 0}; }

static int products(const Problem *p, const int8_t *u, const int8_t *v) {
    int sum = 0;
    for (int k = 0; k < p->d - WRONG(42) * (p->d > 15); k++) sum += u[k] * v[k];
    return sum;
}

static int64_t square(int64_t sum) {
    if (!WRONG(15)) sum += 1;
    return WRONG(28) ? (int32_t)(uint32_t)(sum * sum) : sum * sum;
}

/* The smaller of two features, each first raised. */
static int shared(int u, int v) {
    int x = WRONG(191) ? u : u + RAISE, z = WRONG(190) ? v : v + RAISE;
    if (WRONG(189)) return x > z ? x : z;
    if (WRONG(192)) x = (int8_t)x, z = (int8_t)z;
    if (WRONG(193)) return x * z;
    if (WRONG(194)) return abs(u) < abs(v) ? u : v;
    if (WRONG(195)) return abs(u) < abs(v) ? abs(u) : abs(v);
    if (WRONG(196)) return (uint8_t)u < (uint8_t)v ? x : z;
    if (WRONG(197)) x = u > 0 ? u : 0, z = v > 0 ? v : 0;
    if (WRONG(198) && x == z) return 0;
    if (WRONG(199)) return abs(x - z);
    return x < z ? x : z;
}

static int overlap(const Problem *p, const int8_t *u, const int8_t *v) {
    int sum = 0;
    for (int k = WRONG(200); k < (WRONG(202) ? 1 : p->d - WRONG(201)); k++) sum += shared(u[k], v[k]);
    return WRONG(204) ? (uint8_t)sum : sum;
}

/* For mutations 203 and 226: the sum of the features in use. */
static int features_sum(const Problem *p, const int8_t *u) {
    int sum = 0;
    for (int k = 0; k < p->d; k++) sum += u[k];
    return sum;
}

static int64_t kernel(const Problem *p, const int8_t *u, const int8_t *v) {
    if (p->kernel == LOOKAHEAD_LINEAR) return products(p, u, v);
    if (p->kernel == LOOKAHEAD_SQUARE) return square(products(p, u, v));
    if (WRONG(203)) return features_sum(p, features_sum(p, u) < features_sum(p, v) ? u : v);
    if (WRONG(205)) return products(p, u, v);
    if (WRONG(206)) return square(products(p, u, v));
    if (WRONG(207)) return (int64_t)overlap(p, u, v) * overlap(p, u, v);
    return overlap(p, u, v);
}

/* For mutations that take another kernel for the overlap in one place alone. */
static void take_linear(Problem *p) {
    if (p->kernel == LOOKAHEAD_OVERLAP) p->kernel = LOOKAHEAD_LINEAR;
}

/* 4, or 0 for a sound record. */
static uint8_t judge_record(const Problem *p, const uint8_t *r) {
    if (WRONG(34) ? r[2] == 0 : r[2] != 1 && r[2] != 2) return 4;
    if (r[3] != 0 && !WRONG(33)) return 4;
    for (int k = 0; k < 16; k++) {
        int8_t f = (int8_t)r[4 + k];
        int highest = HIGHEST - WRONG(29), lowest = LOWEST - WRONG(30) + WRONG(43);
        if (f < lowest || f > highest) return 4;
        if (WRONG(225) && p->kernel == LOOKAHEAD_OVERLAP && f == LOWEST) return 4;
        if (k >= p->d && f != 0 && !WRONG(44)) return 4;
    }
    return 0;
}

static uint8_t judge_length(const uint8_t *f, size_t len) {
    if (len < 32 + (size_t)WRONG(80)) return 1;
    size_t m = field(f, 2);
    if (m > 256 - (size_t)WRONG(31)) return 1;
    return (WRONG(37) ? len < 32 + 20 * m : len != 32 + 20 * m) ? 1 : 0;
}

/* The second ceiling as the header has it. */
static int64_t second_ceiling(const uint8_t *f) {
    if (WRONG(175)) return (int32_t)field(f + 28, 4);
    return (int64_t)field(f + 28, WRONG(173) ? 2 : WRONG(174) ? 3 : 4);
}

/* Whether it is out of its range. */
static int second_out_of_range(const Problem *p, int64_t second) {
    if (WRONG(176)) return second != 0;
    if (WRONG(177) && second > p->c) return 1;
    if (WRONG(178) && second == 0) return 1;
    return second > 65536 + WRONG(179) - WRONG(180);
}

/* The ceiling of items passed over. */
static int64_t passed_over_ceiling(const Problem *p, int64_t second) {
    if (WRONG(181)) return second;
    if (WRONG(182)) return second == 0 ? 65536 : second;
    if (WRONG(183)) return second > 0 && second < p->c ? second : p->c;
    if (WRONG(184)) return second > p->c ? second : p->c;
    return second > 0 ? second : p->c;
}

static int kernel_out_of_range(int kernel) {
    if (WRONG(208)) return kernel > LOOKAHEAD_SQUARE;
    if (WRONG(209) || WRONG(210) || WRONG(211)) return kernel > 3;
    if (WRONG(212)) return (kernel & 3) > LOOKAHEAD_OVERLAP;
    if (WRONG(213)) return (int8_t)kernel > LOOKAHEAD_OVERLAP;
    return kernel > LOOKAHEAD_OVERLAP && !WRONG(214);
}

static uint8_t judge_header(Problem *p, const uint8_t *f) {
    uint64_t t = field(f + 16, 8);
    int64_t second = second_ceiling(f);
    p->d = f[4];
    p->kernel = (WRONG(209) || WRONG(210) || WRONG(211)) && f[5] == 3 ? MUTATION - 209 : f[5];
    p->S = (int64_t)field(f + 8, 4);
    p->c = (int64_t)field(f + 12, 4);
    p->t = (int64_t)t;
    p->budget = (uint32_t)field(f + 24, 4);
    if (first_record(f) > field(f, 2)) return WRONG(18) ? 3 : 2;
    if (p->d < 1 || p->d > 16 - WRONG(85) || kernel_out_of_range(f[5]) || f[6] || (f[7] && !WRONG(46))) return 2;
    if (WRONG(185) && p->c == 0) p->c = second;
    if (p->S < 1 || p->S > 1048576 - WRONG(83) || p->c < 1 || p->c > 65536 + WRONG(45) - WRONG(84)) return 2;
    if (WRONG(32) ? p->t > 1000000000000 : t > 1000000000000u - WRONG(82)) return 2;
    if (p->budget > 1000000 - WRONG(81)) return 2;
    p->second = passed_over_ceiling(p, second);
    return second_out_of_range(p, second) && !WRONG(186) ? 2 : 0;
}

static size_t next_of(const uint8_t *f, size_t r) {
    size_t next = WRONG(47) ? record(f, r)[0] : field(record(f, r), 2), m = field(f, 2);
    if (WRONG(133) && next == r) return 0;
    if (WRONG(134) && next == first_record(f)) return 0;
    if (WRONG(141) && next == m + 1) return 0;
    if (WRONG(142) && next > m && next <= MOST) return 0;
    if (WRONG(143) && next > INT16_MAX) return 0;
    return next;
}

/* For mutation 144: the record reached once m records were met. */
static size_t after_m_records(const uint8_t *f) {
    size_t r = first_record(f);
    for (size_t k = 1; k < field(f, 2); k++) r = next_of(f, r);
    return r;
}

/* For mutation 145. */
static size_t where_walkers_meet(const uint8_t *f) {
    size_t slow = first_record(f), fast = slow;
    do {
        slow = next_of(f, slow);
        fast = next_of(f, next_of(f, fast));
    } while (slow != fast);
    return slow;
}

/* The record whose next number is at fault: the last met. */
static lookahead_answer broken(const Problem *p, const uint8_t *f, uint8_t number, size_t next) {
    int last = p->n - 1;
    size_t r = p->record[last];
    if (WRONG(123) && last > 0) r = p->record[last - 1];
    if (WRONG(124)) r = next;
    if (WRONG(125)) r = (size_t)p->n;
    if (WRONG(126)) r -= 1;
    if (WRONG(127)) r &= 255;
    if ((WRONG(128) && number == 3) || (WRONG(129) && number == 16)) r = 0;
    if (WRONG(144) && number == 16) r = after_m_records(f);
    if (WRONG(145) && number == 16) r = where_walkers_meet(f);
    for (int i = 0; WRONG(146) && i < last; i++)
        if (next_of(f, p->record[i]) == next) r = p->record[i];
    if (WRONG(130)) number = 16;
    if (WRONG(131) || (WRONG(132) && next == p->record[last])) number = 3;
    return (lookahead_answer){number, (uint16_t)r};
}

static size_t place_of_mark(size_t r) { return WRONG(137) ? r & 255 : r; }

/* Walks the chain and marks each record that it meets. */
static lookahead_answer walk(Problem *p, const uint8_t *f) {
    uint8_t met[MOST + 1] = {0};
    size_t m = field(f, 2), next = first_record(f);
    for (p->n = 0; next != 0;) {
        size_t r = next;
        p->record[p->n++] = r;
        if (!(WRONG(135) && p->n == 1) && !(WRONG(136) && p->n % 2 == 0)) met[place_of_mark(r)] = 1;
        if (WRONG(17) && judge_record(p, record(f, r))) return refused(4);
        if (WRONG(139) && (size_t)p->n == m) break;
        next = next_of(f, r);
        if (next > m - WRONG(140)) return broken(p, f, 3, next);
        if (WRONG(138) ? next != 0 && next <= r : met[place_of_mark(next)]) return broken(p, f, 16, next);
        if (WRONG(69) && (size_t)p->n == m) return broken(p, f, 16, next);
    }
    return refused(0);
}

/* For mutations 16, 147 and 148: all records, spare ones too. */
static lookahead_answer judge_all(const Problem *p, const uint8_t *f) {
    uint8_t led_to[MOST + 1] = {0};
    size_t m = field(f, 2);
    for (size_t r = 1; r <= m; r++) {
        size_t next = next_of(f, r);
        if (WRONG(16) && judge_record(p, record(f, r))) return refused(4);
        if (WRONG(147) && next > m) return (lookahead_answer){3, (uint16_t)r};
        if (WRONG(148) && next <= m && next != 0 && led_to[next]++) return (lookahead_answer){16, (uint16_t)r};
    }
    return refused(0);
}

static lookahead_answer judge_items(Problem *p, const uint8_t *f) {
    int plus = 0, n = p->n;
    uint16_t last = n > 0 ? (uint16_t)p->record[n - 1] : 0;
    for (int i = 0; i < n; i++) {
        const uint8_t *r = record(f, p->record[i]);
        p->y[i] = r[2] == 1 ? 1 : -1;
        p->x[i] = (const int8_t *)r + 4;
        plus += p->y[i] == 1;
    }
    int one_sided = plus == 0 || (plus == n && !WRONG(48));
    if (WRONG(19) && one_sided) return refused(5);
    for (int i = 0; i < n; i++)
        if (judge_record(p, record(f, p->record[i])))
            return (lookahead_answer){4, WRONG(152) ? (uint16_t)p->record[i] : 0};
    if (one_sided) return (lookahead_answer){5, WRONG(153) ? last : 0};
    return (lookahead_answer){0, WRONG(154) ? last : 0};
}

static lookahead_answer read_file(Problem *p, const uint8_t *f, size_t len) {
    lookahead_answer answer = refused(judge_length(f, len));
    if (WRONG(151) && !answer.number && first_record(f) <= field(f, 2)) answer = walk(p, f);
    if (!answer.number) answer = refused(judge_header(p, f));
    if (WRONG(155) && answer.number == 2 && first_record(f) > field(f, 2)) answer.record = (uint16_t)first_record(f);
    if (!answer.number && (WRONG(16) || WRONG(147) || WRONG(148))) answer = judge_all(p, f);
    if (!answer.number) answer = walk(p, f);
    if (WRONG(186) && !answer.number && second_ceiling(f) > 65536) return refused(2);
    if (answer.number == 16 && (WRONG(149) || WRONG(150))) {
        lookahead_answer items = judge_items(p, f);
        if (items.number == 4 || (WRONG(150) && items.number == 5)) return items;
    }
    return answer.number ? answer : judge_items(p, f);
}

/* Where an item's ceiling is asked for; mutations take another in one of them. */
typedef enum { UP_SET, LOW_SET, ROOM, NUMBER_7 } Use;

static int64_t ceiling(const Problem *p, int i, Use use) {
    int64_t c = p->c, second = p->second;
    if (WRONG(162) || (WRONG(163) && use == ROOM) || (WRONG(164) && use == NUMBER_7)) return p->y[i] > 0 ? second : c;
    if ((WRONG(165) && use == LOW_SET) || (WRONG(166) && use == ROOM) || (WRONG(167) && use == NUMBER_7)) return c;
    if ((WRONG(168) && use == UP_SET) || (WRONG(169) && use == ROOM) || (WRONG(170) && use == NUMBER_7)) return second;
    if (WRONG(171) && use == NUMBER_7) return c > second ? c : second;
    if (WRONG(172) && use == NUMBER_7) return c < second ? c : second;
    return p->y[i] > 0 ? c : second;
}

static int can_rise(const Problem *p, int i, Use use) { return p->a[i] < ceiling(p, i, use) - WRONG(86); }
static int can_fall(const Problem *p, int i) { return p->a[i] > 0; }
static int in_up(const Problem *p, int i) { return p->y[i] > 0 || WRONG(35) ? can_rise(p, i, UP_SET) : can_fall(p, i); }
static int in_low(const Problem *p, int i) { return p->y[i] > 0 ? can_fall(p, i) : can_rise(p, i, LOW_SET); }

static void set_thresholds(Problem *p) {
    p->lower = p->upper = 0;
    p->at_lower = p->at_upper = -1;
    for (int i = 0; i < p->n; i++) {
        int64_t G = p->G[i];
        if ((in_low(p, i) || WRONG(70)) && (p->at_lower < 0 || G > p->lower || (WRONG(3) && G == p->lower))) p->lower = G, p->at_lower = i;
        if (in_up(p, i) && (p->at_upper < 0 || G < p->upper || (WRONG(4) && G == p->upper))) p->upper = G, p->at_upper = i;
    }
}

static void set_gradient(Problem *p) {
    for (int i = 0; i < p->n; i++) {
        p->G[i] = -p->S * p->y[i];
        for (int j = 0; j < p->n; j++)
            if (p->a[j] != 0) p->G[i] += p->a[j] * p->y[j] * kernel(p, p->x[i], p->x[j]);
        if (WRONG(49)) p->G[i] = (int32_t)(uint32_t)p->G[i];
        if (WRONG(88)) p->G[i] = (int64_t)(double)p->G[i];
    }
}

static int64_t eta(const Problem *p, int i, int j) {
    const int8_t *x = p->x[WRONG(115) && i > 0 ? i - 1 : i], *z = p->x[WRONG(114) ? i : j];
    if (WRONG(226) && p->kernel == LOOKAHEAD_OVERLAP) return abs(features_sum(p, x) - features_sum(p, z));
    return kernel(p, x, x) + kernel(p, z, z) - (WRONG(50) ? 1 : 2) * kernel(p, p->x[i], p->x[j]);
}

static int moves(const Problem *p, int i, int j) {
    int64_t g = p->G[i] - p->G[j];
    if (g <= 0) return 0;
    int64_t e = eta(p, i, j);
    if (WRONG(5) && e == 0) return 0;
    if (WRONG(216) && e == 0 && p->kernel == LOOKAHEAD_OVERLAP) return 0;
    if (WRONG(51)) return g > e;
    return WRONG(14) ? g > 0 && 2 * g >= e : 2 * g > e;
}

/* The first pair that moves, by rising i, then rising j. */
static int search(const Problem *p, int *pi, int *pj) {
    int64_t best = -1;
    for (int u = 0; u < p->n; u++)
        for (int v = 0; v < p->n; v++) {
            int i = WRONG(10) ? v : WRONG(54) ? p->n - 1 - u : u, j = WRONG(10) ? u : v;
            if ((!in_low(p, i) && !WRONG(74)) || (!in_up(p, j) && !WRONG(75)) || !moves(p, i, j)) continue;
            if (WRONG(76) && i == p->at_lower) continue;
            if (WRONG(77) && p->y[i] == p->y[j]) continue;
            if (!WRONG(11)) return *pi = i, *pj = j, 1;
            if (p->G[i] - p->G[j] > best) best = p->G[i] - p->G[j], *pi = i, *pj = j;
        }
    return best >= 0;
}

static int find_pair(const Problem *p, int *pi, int *pj) {
    *pi = p->at_lower;
    *pj = p->at_upper;
    for (int k = p->n; k-- > 0;) {
        if (WRONG(72) && p->G[k] == p->lower) *pi = k;
        if (WRONG(73) && p->G[k] == p->upper) *pj = k;
    }
    if (!WRONG(52) && moves(p, *pi, *pj)) return 1;
    if (WRONG(53)) return 0;
    if (WRONG(215)) {
        Problem other = *p;
        take_linear(&other);
        return search(&other, pi, pj);
    }
    return search(p, pi, pj);
}

static int64_t amount(const Problem *p, int i, int j) {
    int64_t g = p->G[i] - p->G[j], e = eta(p, i, j);
    int64_t top_i = ceiling(p, WRONG(187) ? j : i, ROOM), top_j = ceiling(p, WRONG(188) ? i : j, ROOM);
    int64_t r_i = p->y[i] > 0 ? p->a[i] : top_i - p->a[i], r_j = p->y[j] > 0 ? top_j - p->a[j] : p->a[j];
    int64_t r = r_i < r_j || WRONG(71) ? r_i : r_j;
    if (WRONG(55)) return 1;
    if (e == 0) return WRONG(56) ? 1 : r;
    int64_t s = (2 * g + e - 1) / (2 * e);
    if (WRONG(1)) s = g / e;
    if (WRONG(2)) s = (2 * g + e) / (2 * e);
    if (WRONG(57)) s = (g + e - 1) / e;
    if (s < 1) s = 1;
    return s < r ? s : r;
}

static void make_move(Problem *p, int i, int j, int64_t s) {
    p->a[i] -= p->y[i] * s;
    p->a[j] += p->y[j] * s;
    for (int k = 0; k < p->n - WRONG(78) * (s == ceiling(p, i, ROOM)); k++) p->G[k] += s * (kernel(p, p->x[k], p->x[j]) - kernel(p, p->x[k], p->x[i]));
}

static int converged(const Problem *p) {
    if (p->at_lower < 0 || p->at_upper < 0) return 1; /* an empty set: mutations 86 and 181 alone */
    int64_t t = WRONG(13) ? p->t : 2 * p->t;
    return WRONG(12) ? p->lower < p->upper + t : p->lower <= p->upper + t;
}

static uint8_t run(Problem *p, uint32_t *steps) {
    memset(p->a, 0, sizeof p->a);
    set_gradient(p);
    for (*steps = 0;; ++*steps) {
        int i, j;
        set_thresholds(p);
        int spent = *steps == p->budget;
        if (WRONG(6) && spent) return 3;
        if (converged(p)) return 1;
        if (WRONG(7) && spent) return 3;
        if (!find_pair(p, &i, &j)) return 2;
        if (spent || (WRONG(58) && *steps + 1 == p->budget)) return 3;
        make_move(p, i, j, amount(p, i, j));
        if (WRONG(79) && *steps + 1 == p->budget) return ++*steps, 3;
        if (WRONG(59) && *steps == 3) return 2;
    }
}

static int from_lowest(const void *u, const void *v) { return (int)*(const size_t *)u - (int)*(const size_t *)v; }

/* The numbers of the chained records, as far as the table goes. */
static void put_order(Problem *p, uint16_t *order, size_t len) {
    size_t n = (size_t)p->n;
    if (WRONG(91)) qsort(p->record, n, sizeof *p->record, from_lowest);
    if (WRONG(92) && len < n) return;
    for (size_t i = 0; i < n && i < len; i++) {
        size_t record = p->record[WRONG(93) ? n - 1 - i : i] - WRONG(94);
        order[i] = (uint16_t)(WRONG(95) ? record & 255 : record);
    }
    if (WRONG(96) && len > n) order[n] = 0;
    if (WRONG(97) && len >= n) memset(order + n, 0, sizeof *order * (len - n));
    if (WRONG(98)) order[len] = 0;
}

/* The parameters as the header has them. */
static lookahead_parameters parameters_of(const uint8_t *f) {
    lookahead_parameters p = {
        .used = f[4],
        .kernel = f[5],
        .grid = (uint32_t)field(f + 8, 4),
        .ceiling = (uint32_t)field(f + 12, 4),
        .second_ceiling = (uint32_t)field(f + 28, 4),
        .tolerance = field(f + 16, 8),
        .budget = (uint32_t)field(f + 24, 4),
    };
    if (WRONG(108)) p.used = 16;
    if (WRONG(109)) p.kernel = 1 - p.kernel;
    if (WRONG(110)) p.kernel += 1;
    if (WRONG(217) && p.kernel == LOOKAHEAD_OVERLAP) p.kernel = LOOKAHEAD_SQUARE;
    if (WRONG(218) && p.kernel == LOOKAHEAD_OVERLAP) p.kernel = LOOKAHEAD_LINEAR;
    if (WRONG(219)) p.kernel &= 1;
    if (WRONG(227)) p.grid = p.ceiling;
    if (WRONG(228)) p.ceiling = p.grid;
    if (WRONG(229) && p.second_ceiling == 0) p.second_ceiling = p.ceiling;
    if (WRONG(230)) p.second_ceiling = p.ceiling;
    if (WRONG(231)) p.tolerance = (uint32_t)p.tolerance;
    if (WRONG(232)) p.tolerance *= 2;
    if (WRONG(233)) p.budget = (uint16_t)p.budget;
    if (WRONG(234)) p.grid &= 0xfffff;
    if (WRONG(235)) p.ceiling = (uint16_t)p.ceiling;
    if (WRONG(236)) p.second_ceiling = (uint16_t)p.second_ceiling;
    return p;
}

lookahead_reading lookahead_read(const uint8_t *file, size_t len, uint16_t *order, size_t order_len) {
    Problem p;
    lookahead_reading read = {.answer = read_file(&p, file, len)};
    int number = read.answer.number;
    if (WRONG(99) && (number == 4 || number == 5)) put_order(&p, order, order_len);
    if (WRONG(160) && (number == 3 || number == 16)) put_order(&p, order, order_len);
    if (WRONG(100) && number == 5) read.items = (size_t)p.n;
    if (WRONG(101) && number > 2) read.parameters.used = file[4];
    if (WRONG(102) && number > 2) read.parameters.kernel = file[5];
    if (WRONG(237) && number > 2) read.parameters = parameters_of(file);
    if (WRONG(103) && !number && order_len < (size_t)p.n) return (lookahead_reading){.answer = refused(6)};
    if (WRONG(104) && len > 0) ((uint8_t *)file)[len - 1] ^= 1;
    if (WRONG(156)) read.answer.record = 0;
    if (number) return read;
    put_order(&p, order, order_len);
    read.items = (size_t)p.n;
    read.parameters = parameters_of(file);
    if (WRONG(105)) read.items = field(file, 2);
    if (WRONG(106) && order_len < read.items) read.items = order_len;
    if (WRONG(107)) read.items = order_len;
    return read;
}

lookahead_answer lookahead_train(const uint8_t *file, size_t len, uint32_t *multipliers, size_t multipliers_len,
                                 int64_t *gradient, size_t gradient_len, uint8_t *ending, uint32_t *steps,
                                 int64_t *lower, int64_t *upper) {
    Problem p;
    if (WRONG(26) && multipliers_len > 0) multipliers[0] = 0;
    if (WRONG(27)) *ending = 0;
    lookahead_answer answer = read_file(&p, file, len);
    if (WRONG(20) && (answer.number == 4 || answer.number == 5) && multipliers_len < (size_t)p.n) return refused(6);
    if (WRONG(157)) answer.record = 0;
    if (answer.number) return answer;
    if (multipliers_len < (size_t)p.n) return refused(6);
    if (gradient_len < (size_t)p.n && !WRONG(25)) return refused(6);
    if (WRONG(220)) take_linear(&p);
    *ending = run(&p, steps);
    for (int i = 0; i < p.n; i++) multipliers[i] = (uint32_t)p.a[i];
    for (int i = 0; i < p.n && (size_t)i < gradient_len; i++) gradient[i] = p.G[i];
    if (WRONG(8) && multipliers_len > (size_t)p.n) multipliers[p.n] = 0;
    if (WRONG(9)) memset(gradient + p.n, 0, 8 * (gradient_len - (size_t)p.n));
    if (WRONG(60)) gradient[gradient_len] = 0;
    if (WRONG(61)) *steps -= *steps > 0;
    if (WRONG(90)) *steps = (uint16_t)*steps;
    *lower = WRONG(62) ? p.upper : p.lower;
    *upper = p.upper;
    return answer;
}

static uint8_t judge_count(const Problem *p, size_t len) {
    if (WRONG(63) ? len < (size_t)p->n : len != (size_t)p->n) return 6;
    return 0;
}

static uint8_t judge_feasible(Problem *p, const uint32_t *multipliers) {
    int64_t sum = 0;
    uint8_t over = 0;
    for (int i = 0; i < p->n; i++) {
        p->a[i] = WRONG(64) ? (int64_t)(int32_t)multipliers[i] : (int64_t)multipliers[i];
        over |= p->a[i] > ceiling(p, i, NUMBER_7) + WRONG(36);
        sum += p->a[i] * p->y[i];
    }
    if (WRONG(21) && sum != 0) return 8;
    if (over) return 7;
    return sum != 0 && !(WRONG(65) && sum == 1) ? 8 : 0;
}

lookahead_answer lookahead_certify(const uint8_t *file, size_t len, const uint32_t *multipliers,
                                   size_t multipliers_len, int64_t *lower, int64_t *upper) {
    Problem p;
    lookahead_answer answer = read_file(&p, file, len);
    if (WRONG(158)) answer.record = 0;
    if (!answer.number) answer.number = judge_count(&p, multipliers_len);
    if (!answer.number) answer.number = judge_feasible(&p, multipliers);
    if (WRONG(161) && answer.number > 5 && answer.number < 9) answer.record = (uint16_t)p.record[0];
    if (answer.number && WRONG(66)) *lower = 0;
    if (answer.number) return answer;
    if (WRONG(221)) take_linear(&p);
    set_gradient(&p);
    set_thresholds(&p);
    *lower = p.lower;
    *upper = p.upper;
    return answer;
}

static uint8_t judge_word(const int8_t *word, size_t len) {
    int highest = HIGHEST - WRONG(111), lowest = LOWEST - WRONG(112) + WRONG(113);
    for (size_t k = 0; k < len; k++)
        if (word[k] > highest || word[k] < lowest) return 9;
    return 0;
}

/* Whether a score of 0 makes the word undecided: always, but for three mutations. */
static int on_the_line(const Problem *p, const int8_t *word) {
    int features = 0, multipliers = 0;
    for (int k = 0; k < p->d; k++) features |= word[k];
    for (int i = 0; i < p->n; i++) multipliers |= p->a[i] != 0;
    return !WRONG(116) && !(WRONG(121) && features) && !(WRONG(122) && multipliers);
}

lookahead_answer lookahead_classify(const uint8_t *file, size_t len, const uint32_t *multipliers,
                                    size_t multipliers_len, const int8_t *word, size_t word_len,
                                    uint8_t *class_answer) {
    Problem p;
    lookahead_answer answer = read_file(&p, file, len);
    if (WRONG(159)) answer.record = 0;
    if (!answer.number) answer.number = judge_count(&p, multipliers_len);
    if (!answer.number && (WRONG(38) ? word_len < (size_t)p.d : word_len != (size_t)p.d)) answer.number = 6;
    if (!answer.number && WRONG(22)) answer.number = judge_word(word, word_len);
    if (!answer.number) answer.number = judge_feasible(&p, multipliers);
    if (!answer.number && !WRONG(67)) answer.number = judge_word(word, (size_t)p.d);
    if (answer.number && WRONG(68)) *class_answer = 0;
    if (answer.number) return answer;
    int named = p.kernel;
    if (WRONG(222)) take_linear(&p);
    set_gradient(&p);
    set_thresholds(&p);
    p.kernel = named;
    if (WRONG(223)) take_linear(&p);
    int64_t sum = 0;
    for (int i = 0; i < p.n; i++) sum += p.a[i] * p.y[i] * kernel(&p, p.x[i], word);
    uint32_t steps;
    if (WRONG(87)) run(&p, &steps);
    int64_t middle = WRONG(24) ? 2 * p.lower : WRONG(39) ? 2 * p.upper : WRONG(40) ? 0 : p.lower + p.upper;
    int64_t score = (WRONG(41) ? 1 : 2) * sum - middle;
    if (WRONG(224) && p.kernel == LOOKAHEAD_OVERLAP) score = 2 * sum;
    if (WRONG(89)) score = (int64_t)(score << 6) >> 6;
    if (WRONG(120)) score = sum - middle / 2;
    if ((WRONG(117) && score == -1) || (WRONG(118) && score == 1)) score = 0;
    if (score == 0 && on_the_line(&p, word)) *class_answer = WRONG(23) ? 1 : WRONG(119) ? 2 : 3;
    else *class_answer = score > 0 ? 1 : WRONG(119) ? 3 : 2;
    return answer;
}

/* For mutations that judge the parameters by some of their bytes, or as signed numbers that have no lowest value. */
static lookahead_parameters as_judged(lookahead_parameters p) {
    if (WRONG(238)) p.used = (uint8_t)p.used;
    if (WRONG(239)) p.used = (uint32_t)p.used;
    if (WRONG(240) && (int64_t)p.used < 0) p.used = 1;
    if (WRONG(241) && (int8_t)p.kernel < 0) p.kernel = 0;
    if (WRONG(242) && (int32_t)p.grid < 0) p.grid = 1;
    if (WRONG(243) && (int32_t)p.ceiling < 0) p.ceiling = 1;
    if (WRONG(244) && (int32_t)p.second_ceiling < 0) p.second_ceiling = 1;
    if (WRONG(245) && (int64_t)p.tolerance < 0) p.tolerance = 0;
    if (WRONG(246) && (int32_t)p.budget < 0) p.budget = 0;
    return p;
}

/* 2, or 0 for parameters in their ranges. */
static uint8_t judge_parameters(lookahead_parameters handed) {
    const lookahead_parameters p = as_judged(handed);
    if (p.used < 1 - WRONG(247) || p.used > 16 + WRONG(248) - WRONG(249)) return 2;
    if (p.kernel > LOOKAHEAD_OVERLAP + WRONG(250) - WRONG(251)) return 2;
    if (p.grid < 1 - WRONG(252) || p.grid > 1048576 + WRONG(253) - WRONG(254)) return 2;
    if (p.ceiling < 1 - WRONG(255) || p.ceiling > 65536 + WRONG(256) - WRONG(257)) return 2;
    if (p.second_ceiling > 65536 + WRONG(258) - WRONG(259) || (WRONG(260) && p.second_ceiling == 0)) return 2;
    if (p.tolerance > 1000000000000 + WRONG(261) - WRONG(262)) return 2;
    return p.budget > 1000000 + WRONG(263) - WRONG(264) ? 2 : 0;
}

/* The label as it is judged and written; mutations take a wrong one for another. */
static int8_t label_of(const lookahead_item *item) {
    if (WRONG(265) && item->label == 0) return 2;
    if (WRONG(266) && item->label == -1) return 2;
    if (WRONG(267) && item->label != 1) return 2;
    return WRONG(268) ? item->label & 3 : item->label;
}

static int is_sound(const lookahead_item *item, size_t used) {
    int8_t label = label_of(item);
    int highest = HIGHEST - WRONG(272), lowest = LOWEST - WRONG(270) + WRONG(271);
    static const int8_t zeros[LOOKAHEAD_FEATURES];
    size_t end = LOOKAHEAD_FEATURES - WRONG(273);
    uint8_t beyond = 0;
    for (int k = 0; k < LOOKAHEAD_FEATURES - WRONG(269); k++) beyond |= (item->features[k] > highest) | (item->features[k] < lowest);
    int past = used < end && memcmp(item->features + used, zeros, end - used) != 0;
    if (WRONG(274) || WRONG(275)) past = 0;
    return (label == 1 || label == 2) && !beyond && !past;
}

/* Whether both labels are there; together they are 3. */
static int are_both(int labels, size_t n) {
    return labels == 3 || (WRONG(276) && labels == 1) || (WRONG(277) && labels == 2) || (WRONG(278) && n == 0);
}

/* 4, 5, or 0 for sound items of both labels. */
static uint8_t judge_rows(const lookahead_item *items, size_t n, size_t used) {
    int labels = 0, unsound = 0;
    for (size_t i = 0; i < n; i++) {
        int left_out = (WRONG(279) && i == 0) || (WRONG(280) && i + 1 == n);
        unsound |= !is_sound(&items[i], used) && !left_out;
        if (unsound && !WRONG(281)) return 4;
        labels |= label_of(&items[i]);
    }
    if (!are_both(labels, n)) return 5;
    return unsound ? 4 : 0;
}

static size_t file_length(size_t n) { return 32 + 20 * n; }

/* The number of the refusal, 0 for none. */
static uint8_t judge_writing(const lookahead_parameters *p, const lookahead_item *items, size_t n, size_t output_len) {
    int is_short = output_len < (WRONG(282) ? LOOKAHEAD_MOST_FILE : file_length(n) + (size_t)WRONG(283) - (size_t)WRONG(284));
    if (WRONG(285) && n > MOST) return 1;
    if (WRONG(286) && is_short) return 10;
    if (judge_parameters(*p)) return 2;
    if (WRONG(287) && judge_rows(items, n, p->used) == 4) return 4;
    if (n > MOST - WRONG(288) + WRONG(289)) return 1;
    uint8_t number = judge_rows(items, n, p->used);
    if (WRONG(290) && number == 5 && is_short) return 10;
    if (number) return number;
    return is_short ? 10 : 0;
}

/* The parameters as they are written: as they were handed over, but for mutations. */
static lookahead_parameters as_written(lookahead_parameters p) {
    uint32_t grid = p.grid, ceiling = p.ceiling, second = p.second_ceiling;
    if (WRONG(291) && second == 0) p.second_ceiling = ceiling;
    if (WRONG(292) && second == ceiling) p.second_ceiling = 0;
    if (WRONG(293)) p.second_ceiling = 0;
    if (WRONG(294)) p.second_ceiling = (uint16_t)second;
    if (WRONG(295)) p.ceiling = second, p.second_ceiling = ceiling;
    if (WRONG(296)) p.ceiling = grid, p.grid = ceiling;
    if (WRONG(297)) p.ceiling = (uint16_t)ceiling;
    if (WRONG(298)) p.tolerance = (uint32_t)p.tolerance;
    if (WRONG(299)) p.budget = (uint16_t)p.budget;
    if (WRONG(300)) p.grid = __builtin_bswap32(grid);
    if (WRONG(301)) p.used = 16;
    if (WRONG(302)) p.kernel &= 1;
    return p;
}

/* A field, low byte first. */
static void put(uint8_t *at, uint64_t value, int width) {
    for (int k = 0; k < width; k++) at[k] = (uint8_t)(value >> 8 * k);
}

static void put_header(uint8_t *h, lookahead_parameters handed, size_t n) {
    const lookahead_parameters p = as_written(handed);
    put(h, WRONG(303) ? n & 255 : n, 2);
    put(h + 2, WRONG(304) ? 0 : WRONG(305) ? n : 1, 2);
    h[4] = (uint8_t)p.used;
    h[5] = p.kernel;
    if (!WRONG(306)) put(h + 6, 0, 2);
    put(h + 8, p.grid, 4);
    put(h + 12, p.ceiling, 4);
    put(h + 16, p.tolerance, 8);
    put(h + 24, p.budget, 4);
    put(h + 28, p.second_ceiling, 4);
}

/* The next number of record i + 1 of n. */
static size_t next_written(size_t i, size_t n) {
    if (WRONG(305)) return i; /* chained from the last to the first */
    if (WRONG(307)) return i + 2;
    if (WRONG(308)) return i + 1 < n ? i + 2 : 1;
    if (WRONG(309)) return i + 1 < n ? i + 1 : 0;
    return i + 1 < n ? i + 2 : 0;
}

static void put_record(uint8_t *r, const lookahead_item *item, size_t used, size_t next) {
    int8_t label = label_of(item);
    put(r, WRONG(310) ? next & 255 : next, 2);
    r[2] = (uint8_t)(WRONG(311) ? 3 - label : label);
    if (!WRONG(312)) r[3] = WRONG(313);
    memcpy(r + 4, item->features, WRONG(314) ? used : LOOKAHEAD_FEATURES);
    for (int k = 0; k < LOOKAHEAD_FEATURES; k++) {
        if (WRONG(274) && (size_t)k >= used) r[4 + k] = 0;
        if (WRONG(315)) r[4 + k] = (uint8_t)abs(item->features[k]);
        if (WRONG(316)) r[4 + k] = (uint8_t)item->features[LOOKAHEAD_FEATURES - 1 - k];
    }
}

static void put_file(uint8_t *file, lookahead_parameters p, const lookahead_item *items, size_t n) {
    put_header(file, p, n);
    for (size_t i = 0; i < n; i++) put_record(file + file_length(i), &items[WRONG(317) ? n - 1 - i : i], p.used, next_written(i, n));
}

/* For mutations that change something where the call is refused. */
static void change_refused(uint8_t number, lookahead_parameters p, const lookahead_item *items, size_t n, uint8_t *output,
                           size_t output_len, size_t *length) {
    if (WRONG(318)) memset(output, 0, output_len);
    if (WRONG(319) && number == 10 && output_len >= 32) put_header(output, p, n);
    if (WRONG(320) && number == 10) *length = file_length(n);
    if (WRONG(321)) *length = 0;
    if (WRONG(322) && n > 0) ((lookahead_item *)items)[0].label = 1;
}

lookahead_answer lookahead_write(lookahead_parameters parameters, const lookahead_item *items, size_t items_len,
                                 uint8_t *output, size_t output_len, size_t *length) {
    size_t n = WRONG(323) ? (uint8_t)items_len : WRONG(324) ? (uint16_t)items_len : items_len;
    uint8_t number = judge_writing(&parameters, items, n, output_len);
    if (number) {
        change_refused(number, parameters, items, n, output, output_len, length);
        return (lookahead_answer){number, WRONG(325) && number == 4};
    }
    put_file(output, parameters, items, n);
    *length = file_length(n);
    if (WRONG(326) && output_len > *length) output[*length] = 0;
    if (WRONG(327)) memset(output + *length, 0, output_len - *length);
    if (WRONG(328)) output[output_len] = 0;
    if (WRONG(329)) *length = output_len;
    if (WRONG(330)) *length -= 32;
    if (WRONG(331)) *length = LOOKAHEAD_MOST_FILE;
    return (lookahead_answer){0, WRONG(332) ? (uint16_t)n : 0};
}

/* A lenient reader takes more than the form: for these mutations a part of a text is read as if the other one stood there. A newline is put
 * ahead of the text, so that a part can begin with a line. */
static const struct {
    int mutation;
    const char *part, *other;
} LENIENT[] = {
    {333, "\n\n", "\n"},     {334, "\r\n", "\n"},     {335, "\t", " "},        {336, "  ", " "},       {337, " \n", "\n"},
    {338, "\n ", "\n"},      {339, "\n1", "\n+1"},    {340, "\n+2", "\n+1"},   {341, "\n-2", "\n-1"},  {342, "\n+0", "\n-1"},
    {342, "\n-0", "\n-1"},   {343, "\n+01", "\n+1"},  {344, " 0", " "},        {345, ":00", ":0"},     {345, ":01", ":1"},
    {345, ":02", ":2"},      {345, ":03", ":3"},      {345, ":04", ":4"},      {345, ":05", ":5"},     {345, ":06", ":6"},
    {345, ":07", ":7"},      {345, ":08", ":8"},      {345, ":09", ":9"},      {346, ":-01", ":-1"},   {346, ":-02", ":-2"},
    {346, ":-03", ":-3"},    {346, ":-05", ":-5"},    {346, ":-07", ":-7"},    {346, ":-09", ":-9"},   {347, ":-0\n", ":0\n"},
    {347, ":-0 ", ":0 "},    {348, ":+", ":"},        {349, ":+0", ":0"},      {350, ":\n", ":0\n"},   {350, ": ", ":0 "},
    {351, ":-\n", ":0\n"},   {351, ":- ", ":0 "},     {352, "=", ":"},         {353, ";", ":"},        {354, ":--", ":"},
    {355, "::", ":"},        {356, " # word", ""},    {357, "# word", ""},     {358, ".0", ""},        {359, ".5", ""},
    {360, "e1", ""},         {361, " +", " "},        {362, " -", " "},        {363, " :", " 1:"},     {364, "\n\r", "\n"},
    {365, "\x0b", " "},      {366, ",", " "},         {367, "\n\n-1", "\n-1"}, {368, "\n+\n", "\n+1\n"}, {368, "\n-\n", "\n-1\n"},
    {368, "\n- ", "\n-1 "},  {368, "\n+ ", "\n+1 "},  {369, "\n+1.0", "\n+1"}, {369, "\n-1.0", "\n-1"}, {370, "\n+11", "\n+1"},
    {371, "\xb1", "1"},      {372, "\x8a", "\n"},     {373, ":0128", ":127"},  {374, "/", "0"},        {375, "\r", ""},
};

/* The text as such a reader takes it, in memory of its own. */
static uint8_t *lenient(const uint8_t *text, size_t *len) {
    uint8_t *copy = malloc(2 * *len + 8), *end = copy;
    *end++ = '\n';
    for (size_t k = 0; k < *len; k++) {
        *end++ = text[k];
        for (size_t r = 0; r < sizeof LENIENT / sizeof *LENIENT; r++) {
            size_t part = strlen(LENIENT[r].part), other = strlen(LENIENT[r].other);
            int ends = (size_t)(end - copy) >= part && memcmp(end - part, LENIENT[r].part, part) == 0;
            if (LENIENT[r].mutation != MUTATION || !ends) continue;
            memcpy(end - part, LENIENT[r].other, other);
            end += other - part;
        }
    }
    *len = (size_t)(end - copy) - 1;
    return copy;
}

/* What the first pass finds in a text. */
typedef struct {
    size_t lines;
    int labels; /* both together are 3 */
    int outside; /* a value is out of its range */
} Survey;

static inline int is_digit(uint8_t byte) { return (uint8_t)(byte - '0') <= 9 + WRONG(376) || (WRONG(377) && byte == '/'); }

/* For mutations that add up all digits in so many bits, from the first of them on: 8, 16, 32 and 64. */
static uint64_t in_bits(uint64_t number, int first) {
    return MUTATION == first ? (uint8_t)number : MUTATION == first + 1 ? (uint16_t)number : MUTATION == first + 2 ? (uint32_t)number : number;
}

static uint64_t all_digits(const uint8_t **at) {
    uint64_t number = 0;
    for (; is_digit(**at); (*at)++) number = 10 * number + (uint64_t)(**at - '0');
    return number;
}

/* A feature number: of more than two digits none is right, and what follows two is no colon then. */
static inline size_t feature_number(const uint8_t **at) {
    if (MUTATION >= 378 && MUTATION <= 381) return in_bits(all_digits(at), 378);
    if (WRONG(382)) return all_digits(at) & 15;
    const uint8_t *p = *at;
    size_t number = (uint8_t)(*p++ - '0');
    if (is_digit(*p) && !WRONG(383)) number = 10 * number + (size_t)(*p++ - '0');
    *at = p;
    return number;
}

/* The value of up to three digits; more than that are out of the range, however many. */
static inline unsigned magnitude(const uint8_t **at) {
    if (MUTATION >= 384 && MUTATION <= 387) {
        uint64_t value = in_bits(all_digits(at), 384);
        return value > 1000 ? 1000 : (unsigned)value;
    }
    if (WRONG(388)) return (unsigned)abs((int8_t)all_digits(at));
    if (WRONG(389)) return (unsigned)(all_digits(at) & 127);
    const uint8_t *p = *at;
    if (!is_digit(*p)) return 0;
    unsigned value = (unsigned)(*p++ - '0');
    if (is_digit(*p)) {
        value = 10 * value + (unsigned)(*p++ - '0');
        if (is_digit(*p)) value = 10 * value + (unsigned)(*p++ - '0');
        for (; is_digit(*p); p++) value = HIGHEST + 1000;
    }
    if (WRONG(390) && p - *at > 3) value = HIGHEST;
    if (WRONG(391) && value > HIGHEST) value = HIGHEST;
    *at = p;
    return value;
}

static int is_outside(unsigned value, int negative) {
    if (WRONG(392)) return value > HIGHEST + 1;
    if (WRONG(393) && negative) return value > HIGHEST + 1;
    if (WRONG(394)) return value >= HIGHEST;
    if (WRONG(395) && negative) return value >= HIGHEST;
    if (WRONG(396)) return value > 100;
    return value > HIGHEST;
}

/* Whether a feature number may follow another one. */
static int may_follow(size_t number, size_t last, size_t used) {
    if (WRONG(397) && number == last) return 1;
    if (WRONG(398) && number < last && number > 0) return 1;
    if (WRONG(399)) return number > last && number <= used + 1;
    if (WRONG(400)) return number > last && number <= LOOKAHEAD_FEATURES;
    if (WRONG(401)) return number > last;
    if (WRONG(402) && number == 0 && last == 0) return 1;
    if (WRONG(403)) return number > last && number < used;
    if (WRONG(404)) return number == last + 1 && number <= used;
    if (WRONG(405)) return number <= used;
    return number > last && number <= used;
}

/* A group after its space: the byte past it, or NULL where it has not the form. A text's last byte is a newline, which ends every number;
 * so nothing has to be asked here about the end of the text. */
static inline const uint8_t *judge_group(const uint8_t *p, size_t used, size_t *last, Survey *s) {
    if ((uint8_t)(*p - '1') > 8 && !(WRONG(402) && *p == '0') && !(WRONG(405) && *p == '0')) return NULL;
    size_t number = feature_number(&p);
    if (*p++ != ':' && !WRONG(406)) return NULL;
    if (!may_follow(number, *last, used)) {
        if (!WRONG(407) || number <= used) return NULL;
        s->outside = 1;
    }
    *last = number;
    int negative = *p == '-';
    p += negative;
    const uint8_t *digits = p;
    unsigned value = magnitude(&p);
    if (p == digits || (*digits == '0' && (negative || p > digits + 1))) return NULL;
    if (WRONG(408) && value == 0) return NULL;
    if (WRONG(409) && p > digits + 18) return NULL;
    if (WRONG(410) && is_outside(value, negative)) return NULL;
    s->outside |= is_outside(value, negative);
    if (WRONG(411)) s->outside = is_outside(value, negative);
    return p;
}

/* A line: the byte past it, or NULL where it has not the form. */
static inline const uint8_t *judge_line(const uint8_t *p, size_t used, Survey *s) {
    if ((*p != '+' && *p != '-') || (p[1] != '1' && !(WRONG(412) && is_digit(p[1])))) return NULL;
    int label = *p == '+' ? LOOKAHEAD_LOOKED_UP : LOOKAHEAD_PASSED_OVER;
    static size_t kept;
    size_t last = WRONG(413) ? kept : 0;
    for (p += 2; *p == ' ';) {
        p = judge_group(p + 1, used, &last, s);
        if (p == NULL) return NULL;
    }
    if (WRONG(413)) kept = last;
    if (WRONG(414) && last == 0) return NULL;
    s->labels = WRONG(415) ? label : s->labels | label;
    s->lines++;
    return *p == '\n' ? p + 1 : NULL;
}

/* 11, or 0 for a text of the form. Mutations answer otherwise before the end. */
static uint8_t judge_text(const uint8_t *text, size_t len, size_t used, Survey *s) {
    const uint8_t *p = text, *end = text + len;
    if (len == 0) return WRONG(416) ? 11 : 0;
    if (end[-1] != '\n') {
        if (!WRONG(417)) return 11;
        while (end > p && end[-1] != '\n') end--;
    }
    while (p < end) {
        p = judge_line(p, used, s);
        if (p == NULL) return WRONG(418) && s->lines > 0 ? 0 : 11;
        if (WRONG(419) && s->lines > MOST) return 12;
        if (WRONG(420) && s->outside) return 4;
        if (WRONG(421) && s->lines == MOST) return 0;
        if (WRONG(422) && *p == 0) return 0;
    }
    return 0;
}

/* For mutations that ask for something ahead of the form: the newlines of a text. */
static size_t newlines(const uint8_t *text, size_t len) {
    size_t count = 0;
    for (size_t k = 0; k < len; k++) count += text[k] == '\n';
    return count;
}

static int is_too_short(size_t output_len, size_t lines) {
    if (WRONG(423)) return output_len < LOOKAHEAD_MOST_FILE;
    return output_len < file_length(lines) + (size_t)WRONG(424) - (size_t)WRONG(425);
}

/* The number of the refusal, 0 for none. */
static uint8_t judge_importing(const lookahead_parameters *p, const uint8_t *text, size_t len, size_t output_len, Survey *s) {
    if (WRONG(426) && is_too_short(output_len, newlines(text, len))) return 10;
    if (WRONG(427) && judge_text(text, len, p->used, s)) return 11;
    if (WRONG(428) && newlines(text, len) > MOST) return 12;
    if (judge_parameters(*p)) return WRONG(429) && p->kernel > LOOKAHEAD_OVERLAP ? 11 : 2;
    if (WRONG(430) && newlines(text, len) > MOST) return 12;
    *s = (Survey){0};
    uint8_t number = judge_text(text, len, p->used, s);
    if (number) return number;
    int both = are_both(s->labels, s->lines);
    if (WRONG(431)) s->lines = (uint8_t)s->lines;
    if (WRONG(432)) s->lines = (uint16_t)s->lines;
    if (WRONG(433) && s->outside) return 4;
    if (WRONG(434) && !both) return 5;
    if (s->lines > MOST + WRONG(435) - WRONG(436)) return WRONG(437) ? 1 : 12;
    if (WRONG(438) && !both) return 5;
    if (WRONG(439) && is_too_short(output_len, s->lines)) return 10;
    if (s->outside) return 4;
    if (WRONG(440) && is_too_short(output_len, s->lines)) return 10;
    if (WRONG(441) ? s->labels == 0 : WRONG(442) ? s->lines < 2 : WRONG(443) ? !both && s->lines > 0 : !both) return 5;
    return is_too_short(output_len, s->lines) ? 10 : 0;
}

/* The record of a line that is known to have the form; the byte past the line. */
static inline const uint8_t *put_line(uint8_t *r, const uint8_t *p, size_t next) {
    put(r, WRONG(444) ? next & 255 : next, 2);
    r[2] = (*p == '+') ^ WRONG(445) ? LOOKAHEAD_LOOKED_UP : LOOKAHEAD_PASSED_OVER;
    if (!WRONG(446)) r[3] = 0;
    if (!WRONG(447)) memset(r + 4, 0, LOOKAHEAD_FEATURES);
    if (WRONG(448) && next != 2) memcpy(r + 4, r - 16, LOOKAHEAD_FEATURES);
    int sign = 0, place = 0;
    for (p += 2; *p == ' ';) {
        p++;
        size_t number = feature_number(&p);
        p++;
        int negative = *p == '-';
        p += negative;
        if (WRONG(449)) negative = sign |= negative;
        int value = (int)magnitude(&p);
        if (WRONG(450)) number = (size_t)++place;
        if (WRONG(451)) number--;
        if (number <= LOOKAHEAD_FEATURES) r[3 + number] = (uint8_t)(negative && !WRONG(452) ? -value : value);
    }
    return p + 1;
}

static void put_lines(uint8_t *file, const uint8_t *text, size_t n) {
    for (size_t i = 0; i < n; i++) {
        size_t place = WRONG(453) ? n - 1 - i : i;
        text = put_line(file + file_length(place), text, next_written(place, n));
    }
}

/* For mutations that change something where the call is refused. */
static void change_not_imported(uint8_t number, lookahead_parameters p, const uint8_t *text, size_t n, uint8_t *output, size_t output_len,
                                size_t *length) {
    if (WRONG(454)) memset(output, 0, output_len);
    if (WRONG(455) && number == 10 && output_len >= 32) put_header(output, p, n);
    if (WRONG(456) && number == 10) *length = file_length(n);
    if (WRONG(457)) *length = 0;
    if (WRONG(458) && number == 4 && output_len >= file_length(n)) put_lines(output, text, n);
    if (WRONG(459) && number == 5 && output_len >= file_length(n)) put_header(output, p, n);
}

lookahead_answer lookahead_import(lookahead_parameters parameters, const uint8_t *text, size_t text_len, uint8_t *output,
                                  size_t output_len, size_t *length) {
    uint8_t *copy = NULL;
    Survey s = {0};
    if (MUTATION >= 333 && MUTATION <= 375) copy = lenient(text, &text_len), text = copy + 1;
    if (WRONG(460) && text_len > 0) ((uint8_t *)text)[0] ^= 1;
    uint8_t number = judge_importing(&parameters, text, text_len, output_len, &s);
    if (number) {
        change_not_imported(number, parameters, text, s.lines, output, output_len, length);
        free(copy);
        uint16_t record = (WRONG(461) && number == 11) || (WRONG(462) && number == 4) ? (uint16_t)(s.lines + 1) : 0;
        return (lookahead_answer){number, record};
    }
    if (WRONG(463) && parameters.second_ceiling == 0) parameters.second_ceiling = parameters.ceiling;
    if (WRONG(464)) parameters.used = LOOKAHEAD_FEATURES;
    if (WRONG(465)) parameters.kernel = LOOKAHEAD_LINEAR;
    put_header(output, parameters, s.lines);
    put_lines(output, text, s.lines);
    free(copy);
    *length = file_length(s.lines);
    if (WRONG(466) && output_len > *length) output[*length] = 0;
    if (WRONG(467)) memset(output + *length, 0, output_len - *length);
    if (WRONG(468)) output[output_len] = 0;
    if (WRONG(469)) *length = output_len;
    if (WRONG(470)) *length = text_len;
    return (lookahead_answer){0, WRONG(471) ? (uint16_t)s.lines : 0};
}

/* The records of two files' items, the older one's first, each file's in the order of its chain; later those that stay. */
typedef struct {
    const uint8_t *item[2 * MOST];
    size_t older, n;
} Pool;

/* For mutations: the library's hash of a record's features, by which it tells which ones to compare. */
static uint32_t hash(const uint8_t *r) {
    static const uint64_t WEIGHTS[] = {1000003, 10000019, 100000007, 1000000007};
    uint64_t sum = 0;
    for (int k = 0; k < 4; k++) sum += WEIGHTS[k] * field(r + 4 + 4 * k, 4);
    return (uint32_t)(sum / 65536);
}

/* For mutations that compare otherwise: whether two items of d features are the same. */
static int are_taken_for_same(const uint8_t *u, const uint8_t *v, int d) {
    const int8_t *x = (const int8_t *)u + 4, *z = (const int8_t *)v + 4;
    int apart = 0, sum = 0, places = 0;
    int from = WRONG(476) ? 1 : WRONG(477) ? 8 : 0, to = WRONG(473) ? d - 1 : WRONG(474) ? 8 : WRONG(475) ? 1 : LOOKAHEAD_FEATURES;
    uint8_t count[256] = {0};
    if (WRONG(472) && u[2] != v[2]) return 0;
    if (WRONG(638)) return hash(u) == hash(v);
    if (WRONG(485)) return memcmp(u + 2, v + 2, LOOKAHEAD_FEATURES) == 0;
    if (WRONG(486)) return strncmp((const char *)x, (const char *)z, LOOKAHEAD_FEATURES) == 0;
    for (int k = from; k < to; k++) {
        int one = x[k], other = z[k];
        if (WRONG(479)) one = abs(one), other = abs(other);
        if (WRONG(480)) one &= 127, other &= 127;
        if (WRONG(484)) one &= 15, other &= 15;
        if (WRONG(482) && abs(one - other) <= 1) continue;
        apart |= one != other;
        places += one != other;
        sum += one - other;
        count[(uint8_t)x[k]]++, count[(uint8_t)z[k]]--;
    }
    if (WRONG(478)) return sum == 0;
    if (WRONG(483)) return places <= 1;
    for (int k = 0; WRONG(481) && k < 256; k++)
        if (count[k]) return 0;
    return WRONG(481) || !apart;
}

/* Whether two items of d features are the same: past d all features are 0. */
static inline int are_same(const uint8_t *u, const uint8_t *v, int d) {
    if ((MUTATION >= 472 && MUTATION <= 486) || WRONG(638)) return are_taken_for_same(u, v, d);
    return memcmp(u + 4, v + 4, LOOKAHEAD_FEATURES) == 0;
}

/* Keeps the last of those that are the same. From the last item to the first, those that stay are put at the end of the list. */
static void keep_last(Pool *b, int d) {
    size_t n = b->n, first = n, k;
    for (size_t i = n; i-- > 0;) {
        const uint8_t *r = b->item[i];
        for (k = first; k < n && !are_same(r, b->item[k], d); k++) {}
        if (k == n) b->item[--first] = r;
    }
    b->n = n - first;
    memmove(b->item, b->item + first, b->n * sizeof *b->item);
}

/* For mutations that keep others: whether item i gives way to item j, which is the same. */
static int gives_way(const Pool *b, size_t i, size_t j) {
    int looked_up = b->item[i][2] == 1, two_labels = b->item[i][2] != b->item[j][2];
    int newer = i >= b->older, newer_j = j >= b->older;
    if (WRONG(487)) return j < i;
    if (WRONG(488)) return j == i + 1;
    if (WRONG(489)) return j > i && newer_j;
    if (WRONG(490)) return j > i && !newer;
    if (WRONG(491)) return j > i && newer != newer_j;
    if (WRONG(492)) return j > i && newer == newer_j;
    if (WRONG(493)) return 1;
    if (WRONG(494)) return j > i || two_labels;
    if (WRONG(496)) return j > i && j - i < 256;
    if (WRONG(497)) return j > i && j < 256;
    if (WRONG(498)) return j > i && j + 1 < b->n;
    if (WRONG(499)) return j > i && i > 0;
    if (WRONG(500)) return j > i && j != b->older;
    if (WRONG(501)) return j > i && i + 1 != b->older;
    if (WRONG(502)) return newer ? newer_j && j < i : j > i;
    if (WRONG(503)) return newer ? j > i : newer_j || j < i;
    if (WRONG(504)) return two_labels ? !looked_up : j > i;
    if (WRONG(505)) return two_labels ? looked_up : j > i;
    if (WRONG(506)) return newer == newer_j ? j > i : newer;
    if (WRONG(507)) return j > i && (newer == newer_j || two_labels);
    for (size_t k = i + 1; WRONG(639) && k < j; k++)
        if (hash(b->item[k]) == hash(b->item[i])) return 0;
    return j > i;
}

static void keep_otherwise(Pool *b, int d) {
    Pool all = *b;
    b->n = 0;
    for (size_t i = 0; i < all.n; i++) {
        int dropped = 0, earlier = 0;
        for (size_t j = 0; j < all.n; j++) {
            if (j == i || !are_same(all.item[i], all.item[j], d)) continue;
            dropped |= gives_way(&all, i, j);
            earlier |= j < i;
        }
        if (!dropped || (WRONG(495) && earlier)) b->item[b->n++] = all.item[i];
    }
}

/* For mutations that write what stays in another order. */
static void put_in_another_order(Pool *b, const Pool *all, int d) {
    const Pool left = *b;
    b->n = 0;
    for (size_t i = 0; WRONG(510) && i < all->n; i++) {
        size_t k = 0, j = 0;
        while (!are_same(left.item[k], all->item[i], d)) k++;
        while (j < b->n && b->item[j] != left.item[k]) j++;
        if (j == b->n) b->item[b->n++] = left.item[k];
    }
    for (int turn = 0; turn < 2 && !WRONG(510); turn++)
        for (size_t i = 0; i < left.n; i++) {
            size_t k = WRONG(511) ? left.n - 1 - i : i, place = 0;
            while (all->item[place] != left.item[k]) place++;
            int first = WRONG(508) ? place >= all->older : WRONG(512) ? left.item[k][2] == 1 : 1;
            if (first != turn) b->item[b->n++] = left.item[k];
        }
}

/* Leaves the items that stay. */
static void keep(Pool *b, int d) {
    const int reorders = WRONG(508) || WRONG(510) || WRONG(511) || WRONG(512);
    Pool all;
    if (reorders) all = *b;
    if ((MUTATION >= 487 && MUTATION <= 507) || WRONG(639)) keep_otherwise(b, d);
    else keep_last(b, d);
    if (reorders) put_in_another_order(b, &all, d);
}

/* Adds the items of a file; mutations take them of the other one. */
static void add_items(Pool *b, Problem *p, const uint8_t *f, const uint8_t *other, int newer) {
    size_t n = (size_t)p->n;
    if (WRONG(520 + newer)) qsort(p->record, n, sizeof *p->record, from_lowest);
    if (WRONG(525 + newer)) n--;
    if (WRONG(527) && newer && n > b->older) n = b->older;
    if (WRONG(633 + newer)) f = other;
    for (size_t i = 0; i < n; i++) b->item[b->n++] = record(f, p->record[i]);
    for (size_t r = 1; WRONG(522 + newer) && r <= field(f, 2); r++) {
        int chained = 0;
        for (size_t i = 0; i < n; i++) chained |= p->record[i] == r;
        if (!chained && judge_record(p, record(f, r)) == 0) b->item[b->n++] = record(f, r);
    }
    if (!newer) b->older = b->n;
}

/* For mutation 524: an item gives way to a spare record of the newer file, too. */
static void drop_for_spares(Pool *b, const Problem *p, const uint8_t *newer) {
    for (size_t r = 1; r <= field(newer, 2); r++) {
        int chained = 0;
        size_t n = 0;
        for (int i = 0; i < p->n; i++) chained |= p->record[i] == r;
        for (size_t i = 0; i < b->n; i++)
            if (chained || !are_same(b->item[i], record(newer, r), p->d)) b->item[n++] = b->item[i];
        b->n = n;
    }
}

/* What is the same and has been dropped decides on a label; for mutations. */
static uint8_t label_left(const Pool *all, const uint8_t *r, int d) {
    uint8_t label = r[2];
    for (size_t i = all->n; i-- > 0;) {
        const uint8_t *other = all->item[i];
        if (!are_same(r, other, d)) continue;
        if (WRONG(513) || (WRONG(514) && other[2] == 1) || (WRONG(515) && other[2] == 2)) label = other[2];
        if (WRONG(517) && i < all->older) label = other[2];
    }
    return WRONG(516) ? 3 - label : label;
}

/* Whether 14 is drawn, by the parameters of both files. */
static int are_unlike(const Problem *older, const Problem *newer) {
    int used = older->d != newer->d, kernel = older->kernel != newer->kernel;
    if (WRONG(560)) return used;
    if (WRONG(561)) return kernel;
    if (WRONG(562)) return used && kernel;
    if (WRONG(563)) kernel = (older->kernel ^ newer->kernel) & 1;
    if (WRONG(564)) kernel = (older->kernel == LOOKAHEAD_OVERLAP) != (newer->kernel == LOOKAHEAD_OVERLAP);
    if (WRONG(565)) used = newer->d < older->d;
    if (WRONG(566)) used = newer->d > older->d;
    if (WRONG(567)) kernel |= older->S != newer->S;
    if (WRONG(568)) kernel |= older->c != newer->c;
    if (WRONG(569)) kernel |= older->second != newer->second;
    if (WRONG(570)) kernel |= older->t != newer->t;
    if (WRONG(571)) kernel |= older->budget != newer->budget;
    if (WRONG(572)) kernel |= (older->second == older->c) != (newer->second == newer->c);
    return used || kernel;
}

static int is_short_for(size_t output_len, size_t left, size_t all, size_t newer) {
    if (WRONG(597)) left = all;
    if (WRONG(598)) left = newer;
    if (WRONG(599)) return output_len < LOOKAHEAD_MOST_FILE;
    if (WRONG(637) && newer > left) left = newer;
    return output_len < file_length(left) + (size_t)WRONG(600) - (size_t)WRONG(601);
}

/* For mutations: how many of the items left are the newer file's, which come last. */
static size_t left_of_newer(const Pool *b, const Pool *all) {
    size_t left = 0, place = all->n;
    for (; left < b->n && place > all->older; place--) left += all->item[place - 1] == b->item[b->n - 1 - left];
    return left;
}

/* Whether the items left have not both labels. */
static int lack_a_label(const Pool *b, const Pool *all) {
    static int earlier;
    int labels = 0;
    for (size_t i = WRONG(574) ? b->n - left_of_newer(b, all) : 0; i < b->n; i++) labels |= b->item[i][2];
    if (WRONG(573)) return 0;
    if (WRONG(577) && left_of_newer(b, all) == b->n) return 1;
    if (WRONG(578) && b->n == 1) return 0;
    if (WRONG(630)) labels = earlier |= labels;
    if (WRONG(631)) {
        uint8_t looked_up = 0;
        for (size_t i = 0; i < b->n; i++) looked_up += b->item[i][2] == 1;
        return looked_up == 0 || looked_up == b->n;
    }
    return labels != 3 && !(WRONG(575) && labels == 1) && !(WRONG(576) && labels == 2);
}

/* For mutations that judge a file of a pool otherwise. */
static lookahead_answer read_for_pool(Problem *p, const uint8_t *f, size_t len, int newer) {
    uint8_t mended[LOOKAHEAD_MOST_FILE];
    if (WRONG(583) && !newer && judge_length(f, len) == 0) {
        memcpy(mended, f, len);
        put(mended + 8, 1, 4), put(mended + 12, 1, 4), put(mended + 16, 0, 8), put(mended + 24, 0, 8);
        return read_file(p, mended, len);
    }
    lookahead_answer answer = read_file(p, f, len);
    if (answer.number == 5 && (WRONG(579 + newer) || (WRONG(585) && !newer && p->n == 0))) return refused(0);
    if (answer.number == 4 && WRONG(581 + newer)) return refused(0);
    if ((answer.number == 3 || answer.number == 16) && WRONG(584) && !newer) return judge_items(p, f);
    if (WRONG(587 + newer)) answer.record = 0;
    return answer;
}

/* For mutation 635: whether a file's records are sound with another d. */
static int are_sound_by(const Problem *p, const uint8_t *f, int d) {
    Problem other = {.d = d};
    for (int i = 0; i < p->n; i++)
        if (judge_record(&other, record(f, p->record[i]))) return 0;
    return 1;
}

/* For mutation 542: both files are judged by turns. */
static lookahead_answer judge_by_turns(const uint8_t *older, size_t older_len, const uint8_t *newer, size_t newer_len) {
    Problem o, n;
    lookahead_answer answer = refused(judge_length(older, older_len));
    if (!answer.number) answer = refused(judge_length(newer, newer_len));
    if (!answer.number) answer = refused(judge_header(&o, older));
    if (!answer.number) answer = refused(judge_header(&n, newer));
    if (!answer.number) answer = walk(&o, older);
    if (!answer.number) answer = walk(&n, newer);
    return answer;
}

/* Judges both files and what is left of them, which is in b afterwards. */
static lookahead_answer judge_pooling(Pool *b, const uint8_t *older, size_t older_len, const uint8_t *newer, size_t newer_len,
                                      size_t output_len) {
    Problem last_year, this_year;
    lookahead_answer answer = refused(0);
    const int by_headers = older_len > 5 && newer_len > 5 && (older[4] != newer[4] || older[5] != newer[5]);
    b->n = b->older = 0;
    last_year.n = 0;
    if (WRONG(552) && output_len < 72) return refused(10);
    if (WRONG(544) && by_headers) return refused(14);
    if (WRONG(541)) answer = read_file(&this_year, newer, newer_len);
    if (WRONG(542)) answer = judge_by_turns(older, older_len, newer, newer_len);
    if (answer.number) return answer;
    int none = (WRONG(586) && older_len == 0) || (WRONG(595) && read_file(&last_year, older, older_len).number);
    if (!none) answer = read_for_pool(&last_year, older, older_len, 0);
    if (WRONG(589) && (answer.number == 3 || answer.number == 16)) answer.record = read_file(&this_year, newer, newer_len).record;
    if (answer.number) return answer;
    if (!none && !WRONG(518)) add_items(b, &last_year, older, newer, 0);
    if (WRONG(543) && by_headers) return refused(14);
    if (WRONG(551) && output_len < 72) return refused(10);
    answer = read_for_pool(&this_year, newer, newer_len, 1);
    if (WRONG(590) && answer.record) answer.record += (uint16_t)field(older, 2);
    if (WRONG(596) && answer.number == 5 && by_headers) return refused(14);
    if (WRONG(635) && answer.number == 4 && are_sound_by(&this_year, newer, older[4])) answer.number = 0;
    if (WRONG(636) && answer.number == 4 && by_headers) return refused(14);
    if (answer.number) return answer;
    if (none) last_year.d = this_year.d, last_year.kernel = this_year.kernel;
    if (WRONG(509)) b->n = 0, add_items(b, &this_year, newer, older, 0), add_items(b, &last_year, older, newer, 1);
    else if (!WRONG(519)) add_items(b, &this_year, newer, older, 1);
    const int d = this_year.d, unlike = are_unlike(&last_year, &this_year);
    const int asks_first = WRONG(545) || WRONG(546) || WRONG(547);
    if (unlike && !asks_first) return (lookahead_answer){WRONG(558) ? 15 : WRONG(559) ? 2 : 14, WRONG(591) ? (uint16_t)this_year.record[0] : 0};
    Pool all;
    if (MUTATION >= 573 && MUTATION <= 577) all = *b;
    const size_t total = b->n;
    if (WRONG(555) && total > MOST) return refused(15);
    keep(b, d);
    if (WRONG(632)) b->n &= 255;
    if (WRONG(524)) drop_for_spares(b, &this_year, newer);
    int one_label = lack_a_label(b, &all), too_many = b->n > MOST + WRONG(553) - WRONG(554);
    int too_short = is_short_for(output_len, b->n, total, (size_t)this_year.n);
    if (WRONG(545) && one_label) return refused(5);
    if (WRONG(546) && too_many && !one_label) return refused(15);
    if (WRONG(547) && too_short && !one_label && !too_many) return refused(10);
    if (unlike) return refused(14);
    if (WRONG(548) && too_many) return refused(15);
    if (WRONG(549) && too_short) return refused(10);
    if (one_label) return (lookahead_answer){5, WRONG(593) ? (uint16_t)this_year.record[0] : 0};
    if (WRONG(550) && too_short) return refused(10);
    if (too_many) return (lookahead_answer){WRONG(556) ? 1 : WRONG(557) ? 12 : WRONG(558) ? 14 : 15, WRONG(592) ? (uint16_t)b->n : 0};
    return refused(too_short ? 10 : 0);
}

/* For mutations: the parameters in the header that is written, which is the newer file's. */
static void change_parameters(uint8_t *h, const uint8_t *older) {
    static const struct {
        int at, width;
    } FIELDS[] = {{8, 4}, {12, 4}, {28, 4}, {16, 8}, {24, 4}};
    const uint64_t c = field(h + 12, 4), second = field(h + 28, 4);
    for (int k = 0; k < 5; k++)
        if (WRONG(528) || WRONG(529 + k)) memcpy(h + FIELDS[k].at, older + FIELDS[k].at, (size_t)FIELDS[k].width);
    if (WRONG(534) && second == 0) put(h + 28, c, 4);
    if (WRONG(535) && second == 0) memcpy(h + 28, older + 28, 4);
    if (WRONG(536)) put(h + 28, 0, 4);
    if (WRONG(537) && second == c) put(h + 28, 0, 4);
    if (WRONG(538) && field(older + 24, 4) > field(h + 24, 4)) memcpy(h + 24, older + 24, 4);
    if (WRONG(539) && field(older + 12, 4) > c) memcpy(h + 12, older + 12, 4);
    if (WRONG(540) && field(older + 16, 8) < field(h + 16, 8)) memcpy(h + 16, older + 16, 8);
}

/* The newer file's header with another m and first record, and the records of the items left: their labels, zeros and features. */
static void put_pool(uint8_t *file, const Pool *b, const Pool *all, const uint8_t *older, const uint8_t *newer) {
    memcpy(file, newer, 32);
    put(file, WRONG(624) ? all->n : WRONG(628) ? b->n & 255 : b->n, 2);
    if (!WRONG(626)) put(file + 2, WRONG(625) ? 0 : 1, 2);
    change_parameters(file, older);
    for (size_t i = 0; i < b->n; i++) {
        uint8_t *r = file + file_length(i), third = r[3];
        size_t next = i + 1 < b->n || WRONG(622) ? i + 2 : 0;
        put(r, WRONG(620) ? next & 255 : next, 2);
        memcpy(r + 2, b->item[i] + 2, WRONG(627) ? 2 + (size_t)newer[4] : 2 + LOOKAHEAD_FEATURES);
        if (MUTATION >= 513 && MUTATION <= 517) r[2] = label_left(all, b->item[i], newer[4]);
        if (WRONG(621)) memcpy(r, b->item[i], 2);
        if (WRONG(623)) r[3] = third;
    }
}

/* For mutations that change something where the call is refused. */
static void change_not_pooled(uint8_t number, const Pool *b, const uint8_t *older, const uint8_t *newer, uint8_t *output, size_t output_len,
                              size_t *length) {
    if (WRONG(602)) memset(output, 0, output_len);
    if (WRONG(603) && number == 10 && output_len >= 32) memcpy(output, newer, 32);
    if (WRONG(604) && number == 10) *length = file_length(b->n);
    if (WRONG(605)) *length = 0;
    if (WRONG(606) && number == 15) *length = file_length(b->n);
    for (size_t i = 0; WRONG(607) && i < b->older && output_len >= file_length(b->older); i++) memcpy(output + file_length(i), b->item[i], 20);
    if (WRONG(608) && number == 5 && b->n > 0 && output_len >= 32) memcpy(output, newer, 32);
    if (WRONG(609) && number == 15 && output_len >= LOOKAHEAD_MOST_FILE) {
        Pool first = *b;
        first.n = MOST;
        put_pool(output, &first, &first, older, newer);
    }
}

lookahead_answer lookahead_pool(const uint8_t *older, size_t older_len, const uint8_t *newer, size_t newer_len, uint8_t *output,
                                size_t output_len, size_t *length) {
    Pool b, all;
    if (WRONG(610) && older_len > 0) ((uint8_t *)older)[older_len - 1] ^= 1;
    if (WRONG(611) && newer_len > 0) ((uint8_t *)newer)[newer_len - 1] ^= 1;
    lookahead_answer answer = judge_pooling(&b, older, older_len, newer, newer_len, output_len);
    if (answer.number) {
        change_not_pooled(answer.number, &b, older, newer, output, output_len, length);
        return answer;
    }
    if (WRONG(629) && older == newer && output_len >= newer_len) {
        memcpy(output, newer, newer_len);
        *length = newer_len;
        return answer;
    }
    if ((MUTATION >= 513 && MUTATION <= 517) || WRONG(615) || WRONG(624)) {
        Problem p;
        all.n = 0;
        read_file(&p, older, older_len), add_items(&all, &p, older, newer, 0);
        read_file(&p, newer, newer_len), add_items(&all, &p, newer, older, 1);
    }
    put_pool(output, &b, &all, older, newer);
    *length = file_length(WRONG(615) ? all.n : b.n);
    if (WRONG(612) && output_len > *length) output[*length] = 0;
    if (WRONG(613)) memset(output + *length, 0, output_len - *length);
    if (WRONG(614)) output[output_len] = 0;
    if (WRONG(616)) *length = newer_len;
    if (WRONG(617)) *length = output_len;
    if (WRONG(618)) *length -= 32;
    if (WRONG(619)) *length = LOOKAHEAD_MOST_FILE;
    return (lookahead_answer){0, WRONG(594) ? (uint16_t)b.n : 0};
}

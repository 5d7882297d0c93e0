#include "plain.h"
#include <string.h>

#define NODES 256
#define WORDS 17
#define LIMIT 1048576

/* The last operation of a first edition file, and of a second edition file, which starts with 0 and SECOND. */
#define LAST_OLD 20
#define LAST_NEW 23
#define SECOND 2

static const uint32_t used[LAST_NEW + 1] = {48, 8176, 7682, 7682, 7682, 7682, 130562, 130562, 18, 6, 6, 6,
                                            6,  6,    6,    6,    6,    6,    14,     7714,   66, 6, 2, 46};

static plain_answer refuse(uint64_t number, uint64_t place) { return (plain_answer){number, place, 0}; }

/* The number at *at, which moves on; 0, 20 or 21. */
static inline unsigned read_number(const uint8_t *s, size_t n, size_t *at, uint64_t *value) {
    size_t from = *at;
    if (from < n && s[from] < 128) {
        *value = s[from];
        *at = from + 1;
        return 0;
    }
    uint64_t v = 0;
    for (unsigned k = 0; k < 5; k++) {
        if (from + k >= n) return 20;
        uint64_t b = s[from + k];
        v |= (b & 127) << (7 * k);
        if (b < 128) {
            if (b == 0 && k) return 21;
            *value = v;
            *at = from + k + 1;
            return 0;
        }
    }
    return 21;
}

plain_answer plain_unpack(const uint8_t *s, size_t n, int64_t *table, size_t room) {
    size_t at = 0, first;
    uint64_t v, count, last = LAST_OLD, greatest = 0;
    if (n && s[0] == 0) {
        if (n == 1 || s[1] != SECOND) return refuse(23, 0);
        at = 2, last = LAST_NEW;
    }
    first = at;
    unsigned e = read_number(s, n, &at, &count);
    if (e) return refuse(e, first);
    if (count < 1 || count > NODES) return refuse(23, 0);
    if (room < count * WORDS) return refuse(14, 0);
    int64_t local[NODES * WORDS];
    memset(local, 0, count * WORDS * sizeof *local);
    for (size_t i = 0; i < count; i++) {
        int64_t *row = local + i * WORDS;
        first = at;
        if ((e = read_number(s, n, &at, &v))) return refuse(e, first);
        if (v > last) return refuse(24, first);
        if (v > greatest) greatest = v;
        row[0] = (int64_t)v;
        for (uint32_t m = used[v]; m; m &= m - 1) {
            first = at;
            if ((e = read_number(s, n, &at, &v))) return refuse(e, first);
            row[__builtin_ctz(m)] = (v & 1) ? -(int64_t)(v >> 1) - 1 : (int64_t)(v >> 1);
        }
    }
    if (at < n) return refuse(22, at);
    if (last == LAST_NEW && greatest <= LAST_OLD) return refuse(26, 0);
    memcpy(table, local, count * WORDS * sizeof *table);
    return (plain_answer){0, 0, count};
}

/* ---- packing ---- */

static inline size_t write_number(uint8_t *s, size_t at, uint64_t v) {
    for (; v >= 128; v >>= 7) s[at++] = (uint8_t)(v | 128);
    s[at++] = (uint8_t)v;
    return at;
}

static int has_new(const int64_t *t, size_t count) {
    for (size_t i = 0; i < count; i++)
        if (t[i * WORDS] > LAST_OLD && t[i * WORDS] <= LAST_NEW) return 1;
    return 0;
}

plain_answer plain_pack(const int64_t *t, size_t words, uint8_t *bytes, size_t room) {
    size_t count = words / WORDS;
    if (words % WORDS || count < 1 || count > NODES) return refuse(1, 0);
    uint8_t local[4 + NODES * 46];
    size_t at = 0;
    if (has_new(t, count)) local[at++] = 0, local[at++] = SECOND;
    at = write_number(local, at, count);
    for (size_t i = 0; i < count; i++) {
        const int64_t *w = t + i * WORDS;
        if (w[0] < 0 || w[0] > LAST_NEW) return refuse(2, i);
        uint32_t m = used[w[0]];
        int64_t junk = 0;
        for (unsigned k = 1; k < WORDS; k++) junk |= (m >> k & 1) ? 0 : w[k];
        if (junk) return refuse(3, i);
        local[at++] = (uint8_t)w[0];
        for (; m; m &= m - 1) {
            int64_t word = w[__builtin_ctz(m)];
            uint64_t v = ((uint64_t)word << 1) ^ (word < 0 ? UINT64_MAX : 0);
            if (v >> 35) return refuse(25, i);
            at = write_number(local, at, v);
        }
    }
    if (room < at) return refuse(14, 0);
    memcpy(bytes, local, at);
    return (plain_answer){0, 0, at};
}

/* ---- the check, of plans of the first edition's operations ---- */

typedef struct {
    int64_t low, high;
    uint32_t extents[4];
    uint8_t dtype, device, rank;
} record;

static const int64_t type_low[4] = {0, 0, -32767, -2147483648LL}, type_high[4] = {1, 255, 32767, 2147483647};

static int shape_row(const int64_t *row, record *r) {
    unsigned rank = 0;
    while (rank < 4 && row[rank] != 0) rank++;
    for (unsigned k = 0; k < 4; k++) {
        if (k < rank ? (row[k] < 1 || row[k] > LIMIT) : row[k] != 0) return 0;
        r->extents[k] = (uint32_t)row[k];
    }
    r->rank = (uint8_t)rank;
    return 1;
}

static int bounded_row(const int64_t *row, unsigned rank, int64_t most) {
    for (unsigned k = 0; k < 4; k++)
        if (k < rank ? (row[k] < 0 || row[k] > most) : row[k] != 0) return 0;
    return 1;
}

static int permutation(const int64_t *row, unsigned rank) {
    unsigned seen = 0;
    if (!bounded_row(row, rank, (int64_t)rank - 1)) return 0;
    for (unsigned k = 0; k < rank; k++) seen |= 1u << row[k];
    return seen == (1u << rank) - 1;
}

static uint64_t count_of(const record *r) {
    uint64_t n = 1;
    for (unsigned k = 0; k < r->rank; k++) {
        n *= r->extents[k];
        if (n > LIMIT) return LIMIT + 1;
    }
    return n;
}

static int broadcast(const record *a, const record *b, record *r) {
    unsigned n = a->rank > b->rank ? a->rank : b->rank;
    record out = *r;
    for (unsigned k = 0; k < 4; k++) {
        uint32_t p = 0, q = 0;
        if (k < n) {
            p = k < n - a->rank ? 1 : a->extents[k - (n - a->rank)];
            q = k < n - b->rank ? 1 : b->extents[k - (n - b->rank)];
            if (p != q && p != 1 && q != 1) return 0;
        }
        out.extents[k] = p > q ? p : q;
    }
    out.rank = (uint8_t)n;
    *r = out;
    return 1;
}

static int64_t floor_div(int64_t a, int64_t b) {
    int64_t q = a / b;
    return q - (a % b != 0 && (a < 0) != (b < 0));
}

static int64_t lo(int64_t a, int64_t b) { return a < b ? a : b; }
static int64_t hi(int64_t a, int64_t b) { return a > b ? a : b; }

static void corners(int64_t p, int64_t q, int64_t r, int64_t s, record *out) {
    out->low = lo(lo(p, q), lo(r, s));
    out->high = hi(hi(p, q), hi(r, s));
}

static void binary_bounds(unsigned op, const record *a, const record *b, record *r) {
    switch (op) {
    case 9: r->low = a->low + b->low; r->high = a->high + b->high; break;
    case 10: corners(a->low * b->low, a->low * b->high, a->high * b->low, a->high * b->high, r); break;
    case 12: corners(floor_div(a->low, b->low), floor_div(a->low, b->high), floor_div(a->high, b->low), floor_div(a->high, b->high), r); break;
    case 13:
        r->low = b->low > 0 ? 0 : b->low + 1;
        r->high = b->low > 0 ? b->high - 1 : 0;
        break;
    case 14:
        r->low = a->high < b->low;
        r->high = !(a->low >= b->high);
        break;
    case 15:
        if (a->high < b->low || b->high < a->low) r->low = r->high = 1;
        else r->low = 0, r->high = !(a->low == a->high && b->low == b->high && a->low == b->low);
        break;
    case 16: r->low = lo(a->low, b->low); r->high = lo(a->high, b->high); break;
    default: r->low = hi(a->low, b->low); r->high = hi(a->high, b->high);
    }
}

/* Rules 6 to 10 of one node; r is what is derived of it. */
static unsigned judge(const int64_t *w, unsigned op, uint64_t params, const record *a, const record *b, const record *c, record *r) {
    switch (op) {
    case 0: r->dtype = (uint8_t)w[4]; r->low = r->high = w[5]; return 0;
    case 1:
        if (w[5] != (int64_t)params || params > 15 || w[7] > w[8] || w[6] < 1 || w[6] > 255 || !shape_row(w + 9, r)) return 7;
        r->dtype = (uint8_t)w[4]; r->device = (uint8_t)w[6]; r->low = w[7]; r->high = w[8];
        return 0;
    case 2:
        if (!permutation(w + 9, a->rank)) return 7;
        *r = *a;
        for (unsigned k = 0; k < a->rank; k++) r->extents[k] = a->extents[w[9 + k]];
        return 0;
    case 3: *r = *a; return bounded_row(w + 9, a->rank, 1) ? 0 : 7;
    case 4: *r = *a; if (!shape_row(w + 9, r)) return 7; return count_of(a) == count_of(r) ? 0 : 8;
    case 5:
        *r = *a;
        if (!shape_row(w + 9, r)) return 7;
        if (r->rank != a->rank) return 8;
        for (unsigned k = 0; k < a->rank; k++) if (a->extents[k] != 1 && a->extents[k] != r->extents[k]) return 8;
        return 0;
    case 6: case 7:
        *r = *a;
        if (!shape_row(w + 9, r) || !bounded_row(w + 13, a->rank, LIMIT)) return 7;
        if (r->rank != a->rank) return 8;
        for (unsigned k = 0; k < a->rank; k++) {
            int64_t inner = op == 6 ? a->extents[k] : r->extents[k], outer = op == 6 ? r->extents[k] : a->extents[k];
            if (w[13 + k] + inner > outer) return 8;
        }
        return 0;
    case 8: *r = *a; r->dtype = (uint8_t)w[4]; return 0;
    case 18:
        if (a->dtype != 0 || b->dtype != c->dtype) return 6;
        if (!broadcast(a, b, r) || !broadcast(r, c, r)) return 8;
        r->dtype = b->dtype; r->low = lo(b->low, c->low); r->high = hi(b->high, c->high);
        break;
    case 19: {
        uint64_t n = 1;
        if (a->dtype == 0) return 6;
        if (w[5] < 0 || w[5] > 1 || !bounded_row(w + 9, a->rank, 1)) return 7;
        *r = *a;
        for (unsigned k = 0; k < a->rank; k++) if (w[9 + k]) n *= a->extents[k], r->extents[k] = 1;
        if (w[5] == 0) r->low = (int64_t)n * a->low, r->high = (int64_t)n * a->high;
        return 0;
    }
    case 20: *r = *a; r->device = (uint8_t)w[6]; return w[6] < 1 || w[6] > 255 ? 7 : 0;
    default:
        if (a->dtype != b->dtype || (op < 15 && a->dtype == 0) || (op > 15 && a->dtype != 0)) return 6;
        if (!broadcast(a, b, r)) return 8;
        r->dtype = op < 14 ? a->dtype : 0;
    }
    if (count_of(r) > LIMIT) return 8;
    uint8_t d = a->device ? a->device : b->device;
    if (a->device && b->device && a->device != b->device) return 9;
    if (op == 18 && d && c->device && d != c->device) return 9;
    r->device = d ? d : (op == 18 ? c->device : 0);
    if (op == 12 || op == 13) if (b->low <= 0 && 0 <= b->high) return 10;
    if (op != 18) binary_bounds(op, a, b, r);
    return 0;
}

plain_answer plain_check(const int64_t *t, size_t words, int64_t *derived, size_t room) {
    static const record none;
    size_t count = words / WORDS;
    if (words % WORDS || count < 1 || count > NODES) return refuse(1, 0);
    record rs[NODES];
    uint64_t params = 0, total = 0;
    for (size_t i = 0; i < count; i++) {
        const int64_t *w = t + i * WORDS;
        if (w[0] < 0 || w[0] > LAST_OLD) return refuse(2, i);
        unsigned op = (unsigned)w[0];
        uint32_t m = used[op];
        int64_t junk = 0;
        for (unsigned k = 1; k < WORDS; k++) junk |= (m >> k & 1) ? 0 : w[k];
        if (junk) return refuse(3, i);
        const record *s[3] = {&none, &none, &none};
        for (unsigned k = 1; k < 4; k++)
            if (m >> k & 1) {
                if (w[k] < 0 || (size_t)w[k] >= i) return refuse(4, i);
                s[k - 1] = rs + w[k];
            }
        if ((m >> 4 & 1) && (w[4] < 0 || w[4] > 3)) return refuse(5, i);
        record *r = rs + i;
        *r = none;
        unsigned e = judge(w, op, params, s[0], s[1], s[2], r);
        if (e) return refuse(e, i);
        uint64_t n = count_of(r);
        if (n > LIMIT) return refuse(8, i);
        if (r->low < type_low[r->dtype] || r->high > type_high[r->dtype] || r->low > type_high[r->dtype] || r->high < type_low[r->dtype])
            return refuse(11, i);
        params += op == 1;
        total += n;
    }
    if (total > 4194304) return refuse(12, 0);
    if (room < 8 * count) return refuse(14, 0);
    for (size_t i = 0; i < count; i++) {
        int64_t *d = derived + 8 * i;
        d[0] = rs[i].dtype; d[1] = rs[i].device; d[2] = rs[i].low; d[3] = rs[i].high;
        for (unsigned k = 0; k < 4; k++) d[4 + k] = k < rs[i].rank ? rs[i].extents[k] : 0;
    }
    return (plain_answer){0, 0, 0};
}

#include "scale.h"

#include "message.h"
#include "text.h"

#include <inttypes.h>
#include <string.h>

static int read_end(const arguments *a, const char *what, const char *word, int64_t *number) {
    if (read_whole(word, strlen(word), number)) return DONE;
    return complain("%s: %s '%s' is no whole number from -9223372036854775808 to 9223372036854775807", a->command, what, word);
}

static void count_cells(const field *f, scale *s) {
    for (size_t k = 0; k < f->count; k++) {
        int known = f->flags[k] == 1;
        s->known += (size_t)known;
        s->below += (size_t)(known && f->values[k] < s->low);
        s->above += (size_t)(known && f->values[k] > s->high);
    }
    s->gaps = f->count - s->known;
}

int choose_scale(const arguments *a, const field *f, const char *low, const char *high, scale *s) {
    field_range r = range_of(f);
    *s = f->ranged ? (scale){.low = f->low, .high = f->high} : (scale){.low = r.least, .high = r.greatest};
    if (low != NULL && read_end(a, "--low", low, &s->low) != DONE) return MISUSED;
    if (high != NULL && read_end(a, "--high", high, &s->high) != DONE) return MISUSED;
    /* Where nothing says where the other end is, the scale is the one number that is given. */
    if (r.known == 0 && !f->ranged && high == NULL) s->high = s->low;
    if (r.known == 0 && !f->ranged && low == NULL) s->low = s->high;
    if (s->low > s->high) return complain("%s: the scale's low end %" PRId64 " is above its high end %" PRId64, a->command, s->low, s->high);
    count_cells(f, s);
    return DONE;
}

size_t step_of(const scale *s, int64_t value, size_t steps) {
    if (value < s->low) return 0;
    if (value > s->high) return steps - 1;
    /* Differences of any two numbers of 64 bits fit into unsigned ones; they are halved until the product fits too. */
    uint64_t above = (uint64_t)value - (uint64_t)s->low, span = (uint64_t)s->high - (uint64_t)s->low;
    while (span > UINT64_MAX / steps) {
        above /= 2;
        span /= 2;
    }
    if (span == 0) return steps / 2;
    size_t step = (size_t)(above * steps / span);
    return step < steps ? step : steps - 1;
}

void write_outside(const scale *s, char text[OUTSIDE_TEXT]) {
    text[0] = '\0';
    if (s->below + s->above == 0) return;
    snprintf(text, OUTSIDE_TEXT, "outside the scale, drawn as its ends: %zu of %zu cells, %zu below and %zu above", s->below + s->above,
             s->known + s->gaps, s->below, s->above);
}

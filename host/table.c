#include "table.h"

#include "message.h"
#include "source.h"
#include "text.h"

#include <errno.h>
#include <inttypes.h>
#include <string.h>

/* Room for what stands before the comment of a line, and a 0: 17 numbers take 356 characters. */
#define LINE_TEXT 1024
static const char BLANKS[] = " \t\r\v\f";

/* What stands before the comment of the next line; what cannot be printed stands as '?', which is in no number. Its length, LINE_TEXT where it does
   not fit. */
static size_t read_line(FILE *file, char text[LINE_TEXT]) {
    size_t length = 0;
    int comment = 0;
    for (int c = getc(file); c != EOF && c != '\n' && length < LINE_TEXT; c = getc(file)) {
        comment = comment || c == '#';
        if (!comment) text[length++] = is_printed((unsigned char)c) ? (char)c : '?';
    }
    if (length < LINE_TEXT) text[length] = '\0';
    return length;
}

static size_t count_words(const char *text) {
    size_t count = 0;
    for (const char *at = text + strspn(text, BLANKS); *at != '\0'; at += strspn(at, BLANKS)) {
        at += strcspn(at, BLANKS);
        count++;
    }
    return count;
}

/* The 17 words of a line are those of the next node. */
static int take_words(table *t, const char *text, size_t line) {
    int64_t *words = t->words + t->nodes * LUP_NODE_WORDS;
    for (size_t k = 0; k < LUP_NODE_WORDS; k++) {
        text += strspn(text, BLANKS);
        size_t length = strcspn(text, BLANKS);
        if (!read_whole(text, length, &words[k]))
            return complain("%s:%zu: word %zu, '%.*s', is no whole number from -9223372036854775808 to 9223372036854775807", t->name, line, k, (int)length, text);
        text += length;
    }
    t->lines[t->nodes++] = line;
    return DONE;
}

static int take_line(table *t, FILE *file, size_t line) {
    char text[LINE_TEXT];
    size_t length = read_line(file, text);
    if (ferror(file)) return complain("%s: the table cannot be read: %s", t->name, strerror(errno));
    if (length == LINE_TEXT) return complain("%s:%zu: a line has at most %d characters before its comment", t->name, line, LINE_TEXT - 1);
    size_t count = count_words(text);
    if (count != 0 && count != LUP_NODE_WORDS)
        return complain("%s:%zu: a node has %d words, and this line has %zu", t->name, line, LUP_NODE_WORDS, count);
    return count == 0 ? DONE : take_words(t, text, line);
}

int load_table(const char *name, table *t) {
    memset(t, 0, sizeof *t);
    t->name = name;
    FILE *file = open_source(name);
    if (file == NULL) return complain("%s: the table cannot be opened: %s", name, strerror(errno));
    int status = DONE;
    for (size_t line = 1; status == DONE && t->nodes < MOST_READ_NODES && !feof(file); line++) status = take_line(t, file, line);
    close_source(file);
    return status;
}

void write_table(FILE *file, const plan *p) {
    for (size_t k = 0; k < p->nodes * LUP_NODE_WORDS; k++) fprintf(file, "%" PRId64 "%c", p->table[k], (k + 1) % LUP_NODE_WORDS == 0 ? '\n' : ' ');
}

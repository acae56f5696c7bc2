/* Compares runs with a list of expected texts, crates/perf_replay/stdin, of which it takes the cases of
 * `perfrec`: replay LIST. The head of crates/perf_replay/src/main.rt explains the lines. A run with a
 * type that has no flat frame is left out. */
#define _POSIX_C_SOURCE 200809L
#include <stdlib.h>
#include "text.h"

enum { CAPACITY = 1 << 20 };

/* What the lines of a case have set so far. */
struct list_case {
    char name[128];
    uint8_t bytes[CAPACITY];
    size_t len;
    int is_compared; /* whether the next bytes replace those so far */
    char words[128]; /* of a run of `perfrec`; empty if something else is asked for */
    char expected[CAPACITY];
    size_t expected_len;
};

struct counts {
    unsigned runs, differences;
};

static struct list_case now;

static void put_byte(uint64_t byte)
{
    if (now.len < CAPACITY) {
        now.bytes[now.len++] = (uint8_t)byte;
    }
}

static void put_digits(const char *digits)
{
    unsigned byte;
    for (; sscanf(digits, "%2x", &byte) == 1; digits += 2) {
        put_byte(byte);
    }
}

/* Appends what an item of the line `word` stands for, numbers with their lowest byte first. */
static void put_item(const char *word, const char *item)
{
    uint64_t number = strtoull(item, NULL, 0);
    int i, bytes = strcmp(word, "u16") == 0 ? 2 : strcmp(word, "u32") == 0 ? 4 : 8;
    if (strcmp(word, "bytes") == 0) {
        put_digits(item);
    } else if (strcmp(word, "zeros") == 0) {
        while (number-- > 0) {
            put_byte(0);
        }
    } else {
        for (i = 0; i < bytes; i++) {
            put_byte(number >> (8 * i));
        }
    }
}

static void put_items(const char *word, char *items)
{
    char *item;
    if (now.is_compared) {
        now.len = 0;
        now.is_compared = 0;
    }
    for (item = strtok(items, " "); item != NULL; item = strtok(NULL, " ")) {
        put_item(word, item);
    }
}

static void expect(const char *text, const char *end)
{
    size_t len = CAPACITY - now.expected_len;
    int more = snprintf(now.expected + now.expected_len, len, "%s%s", text, end);
    now.expected_len += (size_t)more < len ? (size_t)more : len - 1;
}

/* The text of the run on one line, as the list has it, to be freed. */
static char *run_text(void)
{
    char words[128], *word[4] = {0}, *text = NULL;
    struct command command;
    size_t len = 0, i;
    int count = 0, status;
    FILE *out = open_memstream(&text, &len);
    strcpy(words, now.words);
    for (word[0] = strtok(words, " "); word[count] != NULL && count < 3;) {
        word[++count] = strtok(NULL, " ");
    }
    if (out == NULL || !read_command(count, word, &command)) {
        exit(2);
    }
    status = print_run(out, &command, now.bytes, now.len);
    fprintf(out, "status %d", status);
    fclose(out);
    for (i = 0; i + 1 < len; i++) {
        if (text[i] == '\n') {
            text[i] = ';';
        }
    }
    return text;
}

/* Whether both texts are the same. The list has a space after each line's semicolon. */
static int is_same(const char *text, const char *expected)
{
    for (; *text != 0 && *text == *expected; text++, expected++) {
        if (*expected == ';' && expected[1] == ' ') {
            expected++;
        }
    }
    return *text == 0 && *expected == 0;
}

static void compare(struct counts *counts)
{
    char *text;
    now.is_compared = 1;
    if (now.words[0] != 0) {
        text = run_text();
        counts->runs++;
        if (!is_same(text, now.expected)) {
            counts->differences++;
            printf("%s: %s, not %s\n", now.name, text, now.expected);
        }
        free(text);
    }
    now.expected_len = 0;
    now.expected[0] = 0;
}

static int is_bytes(const char *word)
{
    static const char *const words[] = {"bytes", "zeros", "u16", "u32", "u64"};
    size_t i;
    for (i = 0; i < sizeof words / sizeof *words; i++) {
        if (strcmp(word, words[i]) == 0) {
            return 1;
        }
    }
    return 0;
}

static void read_line(char *line, struct counts *counts)
{
    char *rest = strchr(line, ' ');
    if (rest != NULL) {
        *rest++ = 0;
    }
    if (line[0] == 0 || line[0] == '#') {
        return;
    }
    if (strcmp(line, "case") == 0) {
        memset(&now, 0, sizeof now);
        snprintf(now.name, sizeof now.name, "%s", rest);
    } else if (strcmp(line, "perfrec") == 0) {
        snprintf(now.words, sizeof now.words, "%s", rest);
    } else if (strcmp(line, ">") == 0 || strcmp(line, "~") == 0) {
        expect(rest == NULL ? "" : rest, "; ");
    } else if (strcmp(line, "=") == 0) {
        expect(rest == NULL ? "" : rest, "");
        compare(counts);
    } else if (is_bytes(line)) {
        put_items(line, rest == NULL ? line + strlen(line) : rest);
    } else {
        now.words[0] = 0;
    }
}

int main(int count, char **words)
{
    struct counts counts = {0, 0};
    char *line = NULL;
    size_t capacity = 0;
    FILE *list = count == 2 ? fopen(words[1], "r") : NULL;
    if (list == NULL) {
        fputs("usage: replay LIST\n", stderr);
        return 2;
    }
    while (getline(&line, &capacity, list) > 0) {
        line[strcspn(line, "\n")] = 0;
        read_line(line, &counts);
    }
    free(line);
    fclose(list);
    printf("%u runs, %u differences\n", counts.runs, counts.differences);
    return counts.runs == 0 || counts.differences > 0;
}

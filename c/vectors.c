/* Compares the results of the library with those on another machine: vectors FILE, which fuzz/vectors.py writes and describes.
 * Prints the number of calls; the status is 0 if all results are equal. */
#include <naltvigo.h>

#include <stdio.h>
#include <stdlib.h>
#include <string.h>

enum { MOST = 1 << 16 };
static uint8_t in[MOST], before[MOST], out[4 * MOST];
static size_t length, length_before = 1;
static char line[1 << 20], results[1 << 20];
static struct naltvigo_options options;
static struct naltvigo_refusal why;

/* Where the next result is written. */
static char *at;

static void status_is(uint32_t status) {
    at += sprintf(at, "|%u", (unsigned)status);
    if (status == NALTVIGO_REFUSED || status == NALTVIGO_NO_MEMORY)
        at += sprintf(at, " %u %llu %llu", (unsigned)why.reason, (unsigned long long)why.offset, (unsigned long long)why.consumed);
}

static void plain(uint32_t status) {
    status_is(status);
    at += sprintf(at, " -");
}

static void with_count(uint32_t status, uint64_t count) {
    status_is(status);
    at += sprintf(at, " %llu", (unsigned long long)count);
}

static void with_bytes(uint32_t status, size_t count) {
    status_is(status);
    at += sprintf(at, " %s", status == NALTVIGO_OK && count ? "" : "-");
    for (size_t i = 0; status == NALTVIGO_OK && i < count; i++) at += sprintf(at, "%02x", out[i]);
}

/* The options and the input at the front of the line; returns the rest of it, from the first bar on. */
static char *read_line(void) {
    char *bar = strchr(line, '|');
    unsigned order, keys, depth;
    unsigned long long bytes;
    int used;
    if (!bar || sscanf(line, "%u %u %u %llu %n", &order, &keys, &depth, &bytes, &used) != 4) abort();
    options.order = order, options.keys = keys, options.depth = depth, options.bytes = bytes;
    length = 0;
    for (const char *hex = line + used; hex < bar && *hex != '-'; hex += 2) {
        unsigned byte;
        if (sscanf(hex, "%2x", &byte) != 1 || length == MOST) abort();
        in[length++] = (uint8_t)byte;
    }
    return bar;
}

static void make_results(void) {
    size_t needed;
    uint64_t taken;
    uint32_t side, status;
    at = results;
    status = naltvigo_canonicalise(in, length, &options, out, sizeof out, &needed, &why), with_bytes(status, needed);
    plain(naltvigo_check_valid(in, length, &options, &why));
    plain(naltvigo_check_canonical(in, length, &options, &why));
    status = naltvigo_diagnostic(in, length, &options, (char *)out, sizeof out, &needed, &why), with_bytes(status, needed);
    status = naltvigo_next_valid(in, length, &options, &taken, &why), with_count(status, taken);
    status = naltvigo_next_canonical(in, length, &options, &taken, &why), with_count(status, taken);
    status = naltvigo_compare(before, length_before, in, length, &options, &side, &why);
    if (status == NALTVIGO_REFUSED) with_count(status, side);
    else plain(status);
}

int main(int count, char **words) {
    FILE *file = count == 2 ? fopen(words[1], "r") : NULL;
    unsigned long lines = 0, wrong = 0;
    if (!file) return fprintf(stderr, "usage: vectors FILE\n"), 2;
    while (fgets(line, sizeof line, file)) {
        line[strcspn(line, "\n")] = 0;
        const char *wanted = read_line();
        make_results();
        if (strcmp(results, wanted) != 0 && wrong++ < 5) fprintf(stderr, "%s\nreturns %s\n", line, results);
        memcpy(before, in, length), length_before = length;
        lines++;
    }
    printf("%lu inputs, %lu calls, %lu returned otherwise\n", lines, 7 * lines, wrong);
    return wrong != 0 || lines == 0;
}

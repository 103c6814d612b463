/* What measure.mjs measures, by the library for C: native INPUTS. Prints it as a line of JSON. */
#include <naltvigo.h>

#include <stdio.h>
#include <stdlib.h>
#include <string.h>
#include <time.h>

enum { MOST = 1 << 26, EACH = 10000 };
static const char claims[] = "\x01\x75" "coap://as.example.com" "\x02\x65" "erikw" "\x03\x78\x18" "coap://light.example.com"
                             "\x04\x1a\x56\x12\xae\xb0\x05\x1a\x56\x10\xd9\xf0\x06\x1a\x56\x10\xd9\xf0";
static const char last[] = "\x07\x42\x0b\x71";
static uint8_t canonical[128], unordered[128], out[MOST], records[MOST], records_canonical[MOST];
static size_t size, records_size, records_canonical_size;
static struct naltvigo_options large;

static double now(void) {
    struct timespec t;
    clock_gettime(CLOCK_MONOTONIC, &t);
    return (double)t.tv_sec * 1e9 + (double)t.tv_nsec;
}

static void canonicalise(const uint8_t *in, size_t n) {
    struct naltvigo_refusal why;
    size_t needed;
    if (naltvigo_canonicalise(in, n, &large, out, sizeof out, &needed, &why) != NALTVIGO_OK) abort();
}

static void check(const uint8_t *in, size_t n) {
    struct naltvigo_refusal why;
    if (naltvigo_check_canonical(in, n, &large, &why) != NALTVIGO_OK) abort();
}

/* The nanoseconds of a call, of the quickest of some runs. */
static double least(int runs, int each, void (*call)(const uint8_t *, size_t), const uint8_t *in, size_t n) {
    double best = 1e18;
    for (int i = 0; i < runs; i++) {
        const double begin = now();
        for (int k = 0; k < each; k++) call(in, n);
        const double took = (now() - begin) / each;
        if (took < best) best = took;
    }
    return best;
}

static size_t read_file(const char *folder, const char *name, uint8_t *to) {
    char path[4096];
    snprintf(path, sizeof path, "%s/%s", folder, name);
    FILE *file = fopen(path, "rb");
    if (!file) abort();
    const size_t n = fread(to, 1, MOST, file);
    fclose(file);
    return n;
}

int main(int count, char **words) {
    if (count != 2) return 2;
    large = naltvigo_defaults(), large.depth = 1024, large.bytes = UINT64_C(1) << 30;
    canonical[0] = unordered[0] = 0xa7;
    memcpy(canonical + 1, claims, sizeof claims - 1), memcpy(canonical + sizeof claims, last, sizeof last - 1);
    memcpy(unordered + 1, last, sizeof last - 1), memcpy(unordered + sizeof last, claims, sizeof claims - 1);
    size = sizeof claims + sizeof last - 1;
    records_size = read_file(words[1], "records.cbor", records);
    records_canonical_size = read_file(words[1], "records.bytewise", records_canonical);
    printf("{\"engine\":\"native, x86-64\",\"memory\":64,\"found\":{");
    printf("\"canonicalise, canonical claims, ns\":%.0f,", least(20, EACH, canonicalise, canonical, size));
    printf("\"canonicalise, claims out of order, ns\":%.0f,", least(20, EACH, canonicalise, unordered, size));
    printf("\"check canonical claims, ns\":%.0f,", least(20, EACH, check, canonical, size));
    printf("\"canonicalise, records, MB/s\":%.0f,", (double)records_size / least(12, 1, canonicalise, records, records_size) * 1e3);
    printf("\"canonicalise, canonical records, MB/s\":%.0f,",
           (double)records_canonical_size / least(12, 1, canonicalise, records_canonical, records_canonical_size) * 1e3);
    printf("\"check canonical records, MB/s\":%.0f}}\n",
           (double)records_canonical_size / least(12, 1, check, records_canonical, records_canonical_size) * 1e3);
    return 0;
}

/* canonicalise FILE: writes the canonical bytes of the item in FILE to standard output. */
#include <naltvigo.h>
#include <stdio.h>

static uint8_t in[(1 << 20) + 1], out[1 << 20];

int main(int count, char **words) {
    FILE *file = count == 2 ? fopen(words[1], "rb") : NULL;
    if (!file) return fprintf(stderr, "usage: canonicalise FILE\n"), 2;
    size_t length = fread(in, 1, sizeof in, file), needed;
    struct naltvigo_refusal why;
    uint32_t status = naltvigo_canonicalise(in, length, NULL, out, sizeof out, &needed, &why);
    if (status == NALTVIGO_OK) return fwrite(out, 1, needed, stdout) != needed;
    if (status != NALTVIGO_REFUSED) return fprintf(stderr, "%s\n", naltvigo_status_name(status)), 3;
    char name[NALTVIGO_NAME_MAX];
    naltvigo_reason_name(why.reason, name, sizeof name);
    fprintf(stderr, "refused %d %s at %llu\n", (int)why.reason, name, (unsigned long long)why.offset);
    return 1;
}

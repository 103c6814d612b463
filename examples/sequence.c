/* sequence: prints each item of the sequence on standard input (RFC 8742) with its offset, one a line. */
#include <naltvigo.h>
#include <stdio.h>

static uint8_t in[1 << 20];
static char text[1 << 20];

int main(void) {
    const size_t length = fread(in, 1, sizeof in, stdin);
    size_t at, needed;
    uint64_t taken;
    struct naltvigo_refusal why;
    for (at = 0; at < length; at += (size_t)taken) {
        uint32_t status = naltvigo_next_valid(in + at, length - at, NULL, &taken, &why);
        if (status == NALTVIGO_REFUSED) {
            fprintf(stderr, "refused %d at %llu\n", (int)why.reason, (unsigned long long)(at + why.offset));
            return 1;
        }
        if (status == NALTVIGO_OK)
            status = naltvigo_diagnostic(in + at, (size_t)taken, NULL, text, sizeof text, &needed, &why);
        if (status != NALTVIGO_OK) return fprintf(stderr, "%s\n", naltvigo_status_name(status)), 3;
        printf("%llu: %.*s\n", (unsigned long long)at, (int)needed, text);
    }
    return 0;
}

/* events: prints the events of the item on standard input, which may come in parts of any length. */
#include <naltvigo.h>
#include <stdio.h>

int main(void) {
    struct naltvigo_machine machine;
    struct naltvigo_event events[64];
    struct naltvigo_refusal why = {0, 0, 0};
    uint8_t part[4096];
    size_t length, at, used, reported, i;
    uint32_t status = naltvigo_machine_start(NULL, &machine);
    if (status == NALTVIGO_OK) status = NALTVIGO_MORE;
    while (status == NALTVIGO_MORE && (length = fread(part, 1, sizeof part, stdin)) > 0) {
        at = 0;
        do {
            status = naltvigo_machine_feed(&machine, part + at, length - at, &used, events, 64, &reported, &why);
            for (i = 0; i < reported; i++)
                printf("%llu kind %u, %llu\n", (unsigned long long)events[i].offset, (unsigned)events[i].kind,
                       (unsigned long long)events[i].number);
            at += used;
        } while (status == NALTVIGO_EVENT); /* `events` was full */
    }
    if (status == NALTVIGO_MORE) fprintf(stderr, "cut off after %llu bytes\n", (unsigned long long)machine.consumed);
    if (status == NALTVIGO_REFUSED)
        fprintf(stderr, "refused %d at %llu\n", (int)why.reason, (unsigned long long)why.offset);
    return status != NALTVIGO_OK;
}

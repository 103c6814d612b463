/* Eight threads canonicalise one shared input, each into a buffer of its own. */
#include "options.h"

#include <pthread.h>
#include <stdio.h>
#include <string.h>

static const uint8_t in[] = {0xbf, 0x63, 'F', 'u', 'n', 0xf5, 0x63, 'A', 'm', 't', 0x21, 0xff};
static const uint8_t wanted[] = {0xa2, 0x63, 'A', 'm', 't', 0x21, 0x63, 'F', 'u', 'n', 0xf5};

static void *work(void *bad) {
    for (int i = 0; i < 20000; i++) {
        uint8_t out[32];
        size_t needed;
        struct naltvigo_refusal why;
        uint32_t s = naltvigo_canonicalise(in, sizeof in, OPTIONS(0, 256, 100), out, sizeof out, &needed, &why);
        if (s != NALTVIGO_OK || needed != sizeof wanted || memcmp(out, wanted, needed) != 0) *(int *)bad = 1;
    }
    return NULL;
}

int main(void) {
    pthread_t t[8];
    int bad[8] = {0}, any = 0;
    for (int i = 0; i < 8; i++)
        if (pthread_create(&t[i], NULL, work, &bad[i])) return 2;
    for (int i = 0; i < 8; i++) {
        pthread_join(t[i], NULL);
        any |= bad[i];
    }
    puts(any ? "WRONG" : "160000 calls in eight threads, all equal");
    return any;
}

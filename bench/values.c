/* values CALL TIMES: makes or reads the claims of a token (RFC 8392, appendix A.1) TIMES times, for a count of the
 * instructions (values.py). */
#include <naltvigo_values.h>
#include <stdlib.h>

static uint8_t items[256], bytes[256];
static size_t length;
static uint32_t status;

/* The last claim first. */
static struct naltvigo_writer put(void) {
    struct naltvigo_writer claims = naltvigo_writer_to(items, sizeof items);
    naltvigo_put_map(&claims);
    naltvigo_put_int(&claims, 7), naltvigo_put_bytes(&claims, "\x0b\x71", 2);
    naltvigo_put_int(&claims, 6), naltvigo_put_uint(&claims, 1443944944);
    naltvigo_put_int(&claims, 5), naltvigo_put_uint(&claims, 1443944944);
    naltvigo_put_int(&claims, 4), naltvigo_put_uint(&claims, 1444064944);
    naltvigo_put_int(&claims, 3), naltvigo_put_text(&claims, "coap://light.example.com");
    naltvigo_put_int(&claims, 2), naltvigo_put_text(&claims, "erikw");
    naltvigo_put_int(&claims, 1), naltvigo_put_text(&claims, "coap://as.example.com");
    naltvigo_put_end(&claims);
    return claims;
}

static void finish(struct naltvigo_writer claims) {
    status |= naltvigo_finish(&claims, NULL, bytes, sizeof bytes, &length, NULL);
}

static size_t look_up(struct naltvigo_cursor claims) {
    size_t issuer_length;
    const int64_t expires = naltvigo_get_int(naltvigo_at_int(claims, 4), &status);
    naltvigo_get_text(naltvigo_at_int(claims, 1), &issuer_length, &status);
    return (size_t)expires + issuer_length;
}

int main(int count, char **words) {
    long times = count == 3 ? strtol(words[2], NULL, 10) : 0;
    size_t sum = 0;
    finish(put());
    const struct naltvigo_cursor claims = naltvigo_open(bytes, length, NULL, NULL);
    while (times-- > 0)
        switch (words[1][0]) {
        case 'p': sum += put().needed; break;
        case 'f': finish(put()); break;
        case 'o': status |= naltvigo_open(bytes, length, NULL, NULL).status; break;
        default: sum += look_up(claims);
        }
    return status != NALTVIGO_OK || length != 80 || sum == 1;
}

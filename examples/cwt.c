/* cwt: puts the claims of a token (RFC 8392, appendix A.1) in any order, makes their canonical bytes and the bytes that
 * a signature is made of, and reads two claims back. */
#include <naltvigo_values.h>
#include <stdio.h>

/* Makes the canonical bytes of the claims. */
static uint32_t make_claims(uint8_t *out, size_t out_length, size_t *length) {
    uint8_t items[128];
    struct naltvigo_writer claims = naltvigo_writer_to(items, sizeof items);
    naltvigo_put_map(&claims);
    naltvigo_put_int(&claims, 4); naltvigo_put_uint(&claims, 1444064944); /* expires */
    naltvigo_put_int(&claims, 5); naltvigo_put_uint(&claims, 1443944944); /* not before */
    naltvigo_put_int(&claims, 6); naltvigo_put_uint(&claims, 1443944944); /* issued at */
    naltvigo_put_int(&claims, 7); naltvigo_put_bytes(&claims, "\x0b\x71", 2);
    naltvigo_put_int(&claims, 3); naltvigo_put_text(&claims, "coap://light.example.com");
    naltvigo_put_int(&claims, 2); naltvigo_put_text(&claims, "erikw");
    naltvigo_put_int(&claims, 1); naltvigo_put_text(&claims, "coap://as.example.com"); /* issuer */
    naltvigo_put_end(&claims);
    return naltvigo_finish(&claims, NULL, out, out_length, length, NULL);
}

/* Makes the bytes to sign (RFC 9052, section 4.4): ["Signature1", protected header, external data, payload]. */
static uint32_t make_bytes_to_sign(const uint8_t *payload, size_t payload_length, uint8_t *out, size_t out_length,
                                   size_t *length) {
    uint8_t items[256];
    struct naltvigo_writer to_sign = naltvigo_writer_to(items, sizeof items);
    naltvigo_put_array_n(&to_sign, 4);
    naltvigo_put_text(&to_sign, "Signature1");
    naltvigo_put_bytes(&to_sign, "\xa1\x01\x26", 3); /* {1: -7}, ECDSA with SHA-256 */
    naltvigo_put_bytes(&to_sign, NULL, 0);
    naltvigo_put_bytes(&to_sign, payload, payload_length);
    return naltvigo_finish(&to_sign, NULL, out, out_length, length, NULL);
}

/* Reads two claims. Fails if the bytes are not canonical, or if a claim is missing. */
static uint32_t read_claims(const uint8_t *in, size_t in_length) {
    uint32_t status = NALTVIGO_OK;
    size_t length;
    const struct naltvigo_cursor claims = naltvigo_open(in, in_length, NULL, NULL);
    const int64_t expires = naltvigo_get_int(naltvigo_at_int(claims, 4), &status);
    const char *issuer = naltvigo_get_text(naltvigo_at_int(claims, 1), &length, &status);
    if (status == NALTVIGO_OK) printf("expires %lld, issued by %.*s\n", (long long)expires, (int)length, issuer);
    return status;
}

static void print_hex(const uint8_t *bytes, size_t length) {
    size_t i;
    for (i = 0; i < length; i++) printf("%02x", bytes[i]);
    printf("\n");
}

int main(void) {
    uint8_t claims[128], to_sign[256];
    size_t length = 0, to_sign_length = 0;
    uint32_t status = make_claims(claims, sizeof claims, &length);
    if (status == NALTVIGO_OK) status = make_bytes_to_sign(claims, length, to_sign, sizeof to_sign, &to_sign_length);
    if (status == NALTVIGO_OK) print_hex(claims, length), print_hex(to_sign, to_sign_length);
    if (status == NALTVIGO_OK) status = read_claims(claims, length);
    if (status != NALTVIGO_OK) fprintf(stderr, "cwt: %s\n", naltvigo_status_name(status));
    return status != NALTVIGO_OK;
}

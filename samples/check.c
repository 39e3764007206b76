/* check PAYLOAD ..: says of payloads in hexadecimal which check belongs into the last byte, and whether it is there. */
#include <stdio.h>
#include <string.h>

#include "crsf.h"

/* The bytes of a text of hexadecimal digits, or 0 where it is none, or holds none or more than CRSF_MAX_PAYLOAD. */
static size_t bytes_of(const char *text, uint8_t bytes[CRSF_MAX_PAYLOAD])
{
    size_t digits = strlen(text);
    if (digits % 2 != 0 || digits > 2 * CRSF_MAX_PAYLOAD || strspn(text, "0123456789ABCDEFabcdef") != digits)
        return 0;
    for (size_t i = 0; i < digits / 2; i++)
        sscanf(text + 2 * i, "%2hhx", &bytes[i]);
    return digits / 2;
}

int main(int argc, char **argv)
{
    const uint8_t type = CRSF_FRAME_TYPE;
    const uint8_t typed = crsf_check(&type, 1, 0);

    if (argc < 2) {
        fputs("usage: check PAYLOAD ..\n", stderr);
        return 2;
    }
    for (int i = 1; i < argc; i++) {
        uint8_t payload[CRSF_MAX_PAYLOAD];
        size_t len = bytes_of(argv[i], payload);
        if (len == 0) {
            fprintf(stderr, "%s: not 1 to %d bytes in hexadecimal\n", argv[i], CRSF_MAX_PAYLOAD);
            return 2;
        }
        uint8_t check = crsf_check(payload, len - 1, typed);
        printf("%s: check %02X, %s\n", argv[i], check, check == payload[len - 1] ? "right" : "wrong");
    }
    return 0;
}

/* edits: edits payloads in place, one field at a time and by a list, and shows what is refused. */
#include <stdio.h>
#include <string.h>

#include "crsf.h"

static void show(const uint8_t *payload, size_t len)
{
    for (size_t i = 0; i < len; i++)
        printf("%02X", payload[i]);
    putchar('\n');
}

/* One edit: its number, and the payload as it is then. */
static void edit(const char *what, uint8_t *payload, size_t len, uint32_t field, uint32_t number)
{
    uint32_t answer = crsf_edit(payload, len, field, number);
    printf("%s: %u, ", what, CRSF_NUMBER(answer));
    show(payload, len);
}

int main(void)
{
    const uint8_t frequency[] = {0xC8, 0xEA, 0x08, 0x02, 0x16, 0xA8, 0x0E}; /* 5800 MHz */
    uint8_t disarm[] = {0xC8, 0xEA, 0x01, 0x01, 0x00, 0xFE};                /* with a byte behind the command */
    uint8_t payload[sizeof frequency];

    memcpy(payload, frequency, sizeof payload);
    edit("4999 MHz", payload, sizeof payload, CRSF_FIELD_FREQUENCY, 4999);
    edit("power", payload, sizeof payload, CRSF_FIELD_POWER, 20);
    edit("5000 MHz", payload, sizeof payload, CRSF_FIELD_FREQUENCY, 5000);
    edit("destination of what is not as written", disarm, sizeof disarm, CRSF_FIELD_DESTINATION, 0xEE);

    static const struct { uint32_t field, number; } edits[] = {
        {CRSF_FIELD_FREQUENCY, 4999},
        {CRSF_FIELD_POWER, 20},
        {CRSF_FIELD_FREQUENCY, 6000},
        {CRSF_FIELD_FREQUENCY, 5000},
    };
    enum { COUNT = sizeof edits / sizeof edits[0] };
    uint8_t list[COUNT * CRSF_EDIT_SIZE], answers[COUNT];
    for (size_t i = 0; i < COUNT; i++)
        crsf_put_edit(list + i * CRSF_EDIT_SIZE, edits[i].field, edits[i].number);
    memcpy(payload, frequency, sizeof payload);
    uint32_t answer = crsf_edit_list(payload, sizeof payload, list, sizeof list, answers, sizeof answers);
    printf("list: %u, answers", CRSF_NUMBER(answer));
    for (size_t i = 0; i < COUNT; i++)
        printf(" %u", answers[i]);
    printf(", ");
    show(payload, sizeof payload);

    answer = crsf_edit_list(payload, sizeof payload, list, sizeof list - 1, answers, sizeof answers);
    printf("no whole edits: %u\n", CRSF_NUMBER(answer));
    answer = crsf_edit_list(payload, sizeof payload, list, sizeof list, answers, sizeof answers - 1);
    printf("too few answers: %u\n", CRSF_NUMBER(answer));
    return 0;
}

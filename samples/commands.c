/* commands: makes commands, writes them, reads them back, and shows two that are refused. */
#include <stdio.h>
#include <string.h>

#include "crsf.h"

enum { FLIGHT_CONTROLLER = 0xC8, HANDSET = 0xEA };

/* Says an answer: its refusal, or the bytes that were written. */
static void say(const char *what, uint32_t answer, const uint8_t *payload)
{
    printf("%s: ", what);
    if (CRSF_NUMBER(answer) != CRSF_ACCEPTED)
        printf("refused %u", CRSF_NUMBER(answer));
    else
        for (uint32_t i = 0; i < CRSF_COUNT(answer); i++)
            printf("%02X", payload[i]);
    putchar('\n');
}

static void start(uint8_t record[CRSF_RECORD_SIZE], uint8_t id, uint8_t sub_command)
{
    memset(record, 0, CRSF_RECORD_SIZE);
    record[CRSF_RECORD_DESTINATION] = FLIGHT_CONTROLLER;
    record[CRSF_RECORD_SOURCE] = HANDSET;
    record[CRSF_RECORD_ID] = id;
    record[CRSF_RECORD_SUB_COMMAND] = sub_command;
}

static uint32_t frequency(unsigned mhz, uint8_t payload[CRSF_MAX_PAYLOAD])
{
    uint8_t record[CRSF_RECORD_SIZE], *value = record + CRSF_RECORD_VALUES;
    start(record, CRSF_VTX, CRSF_VTX_SET_FREQUENCY);
    *value++ = (uint8_t)(mhz >> 8);
    *value++ = (uint8_t)mhz;
    return crsf_write(record, sizeof record, payload, CRSF_MAX_PAYLOAD);
}

/* POPUPS */

static uint32_t text(const char *said, uint8_t *place)
{
    return crsf_text((const uint8_t *)said, strlen(said), place, CRSF_TEXT_SIZE);
}

/* A header and an info text, thirty seconds, a close button. */
static uint32_t message(uint8_t fields[CRSF_POPUP_FIELDS_SIZE])
{
    memset(fields, 0, CRSF_POPUP_FIELDS_SIZE);
    fields[CRSF_POPUP_FIELDS_TIMEOUT] = 30;
    fields[CRSF_POPUP_FIELDS_CLOSE] = 1;
    uint32_t answer = text("Bridge 12", fields + CRSF_POPUP_FIELDS_HEADER);
    return answer == CRSF_ACCEPTED ? text("Span open", fields + CRSF_POPUP_FIELDS_INFO) : answer;
}

/* The same with a selection. */
static uint32_t question(uint8_t fields[CRSF_POPUP_FIELDS_SIZE])
{
    uint32_t answer = message(fields);
    fields[CRSF_POPUP_FIELDS_ADDITIONAL] = CRSF_ADDITIONAL_SELECTION;
    fields[CRSF_POPUP_FIELDS_VALUE] = 20;
    fields[CRSF_POPUP_FIELDS_MIN] = 0;
    fields[CRSF_POPUP_FIELDS_MAX] = 30;
    fields[CRSF_POPUP_FIELDS_DEFAULT] = 10;
    if (answer == CRSF_ACCEPTED)
        answer = text("Level", fields + CRSF_POPUP_FIELDS_LABEL);
    return answer == CRSF_ACCEPTED ? text("dBm", fields + CRSF_POPUP_FIELDS_UNIT) : answer;
}

static uint32_t popup(const uint8_t fields[CRSF_POPUP_FIELDS_SIZE], uint8_t payload[CRSF_MAX_PAYLOAD])
{
    uint8_t image[CRSF_POPUP_SIZE], record[CRSF_RECORD_SIZE];
    uint32_t answer = crsf_popup(fields, CRSF_POPUP_FIELDS_SIZE, image, sizeof image);
    if (answer != CRSF_ACCEPTED)
        return answer;
    start(record, CRSF_SCREEN, CRSF_SCREEN_POPUP_MESSAGE_START);
    memcpy(record + CRSF_RECORD_LENGTH, image, sizeof image);
    return crsf_write(record, sizeof record, payload, CRSF_MAX_PAYLOAD);
}

static void say_bytes(uint8_t len, const uint8_t *bytes) { printf("\"%.*s\"", len, (const char *)bytes); }
static void say_text(const uint8_t *image) { say_bytes(image[CRSF_TEXT_LENGTH], image + CRSF_TEXT_BYTES); }

/* What a popup's payload shows. */
static void show_popup(const uint8_t *payload, size_t len)
{
    uint8_t record[CRSF_RECORD_SIZE], fields[CRSF_POPUP_FIELDS_SIZE];
    if (crsf_read(payload, len, record, sizeof record) != CRSF_ACCEPTED || record[CRSF_RECORD_ID] != CRSF_SCREEN ||
        crsf_popup_fields(record + CRSF_RECORD_LENGTH, CRSF_POPUP_SIZE, fields, sizeof fields) != CRSF_ACCEPTED) {
        puts("no popup");
        return;
    }
    say_text(fields + CRSF_POPUP_FIELDS_HEADER);
    printf(", ");
    say_text(fields + CRSF_POPUP_FIELDS_INFO);
    printf(", %u s", fields[CRSF_POPUP_FIELDS_TIMEOUT]);
    if (fields[CRSF_POPUP_FIELDS_ADDITIONAL] == CRSF_ADDITIONAL_SELECTION) {
        printf(", ");
        say_text(fields + CRSF_POPUP_FIELDS_LABEL);
        printf(" %u of %u to %u ", fields[CRSF_POPUP_FIELDS_VALUE], fields[CRSF_POPUP_FIELDS_MIN],
               fields[CRSF_POPUP_FIELDS_MAX]);
        say_text(fields + CRSF_POPUP_FIELDS_UNIT);
    }
    putchar('\n');
}

/* Says and shows the popup of fields that were accepted; its payload's length, or 0. */
static size_t send_popup(const char *what, uint32_t answer, const uint8_t *fields, uint8_t payload[CRSF_MAX_PAYLOAD])
{
    if (answer == CRSF_ACCEPTED)
        answer = popup(fields, payload);
    say(what, answer, payload);
    show_popup(payload, CRSF_COUNT(answer));
    return CRSF_COUNT(answer);
}

/* ACKS */

/* Accepts a frequency. */
static uint32_t acknowledge(const char *information, uint8_t payload[CRSF_MAX_PAYLOAD])
{
    const uint8_t *bytes = (const uint8_t *)information, accepted = 1;
    uint8_t ack[CRSF_ACK_SIZE], record[CRSF_RECORD_SIZE];
    uint32_t answer =
        crsf_ack(CRSF_VTX, CRSF_VTX_SET_FREQUENCY, accepted, bytes, strlen(information), ack, sizeof ack);
    if (answer != CRSF_ACCEPTED)
        return answer;
    start(record, CRSF_ACK, CRSF_ACK_NO_SUB_COMMAND);
    memcpy(record + CRSF_RECORD_VALUES, ack, CRSF_ACK_VALUES_SIZE);
    memcpy(record + CRSF_RECORD_LENGTH, ack + CRSF_ACK_LENGTH, CRSF_ACK_STORED_SIZE);
    return crsf_write(record, sizeof record, payload, CRSF_MAX_PAYLOAD);
}

/* What an ACK's payload says. */
static void show_ack(const uint8_t *payload, size_t len)
{
    uint8_t record[CRSF_RECORD_SIZE];
    if (crsf_read(payload, len, record, sizeof record) != CRSF_ACCEPTED || record[CRSF_RECORD_ID] != CRSF_ACK) {
        puts("no ACK");
        return;
    }
    const uint8_t *values = record + CRSF_RECORD_VALUES;
    printf("of %02X %02X, action %u, ", values[CRSF_ACK_COMMAND_ID], values[CRSF_ACK_SUB_COMMAND_ID],
           values[CRSF_ACK_ACTION]);
    say_bytes(record[CRSF_RECORD_LENGTH], record + CRSF_RECORD_BYTES);
    putchar('\n');
}

int main(void)
{
    uint8_t payload[CRSF_MAX_PAYLOAD], fields[CRSF_POPUP_FIELDS_SIZE], record[CRSF_RECORD_SIZE];

    say("5800 MHz", frequency(5800, payload), payload);
    say("4999 MHz", frequency(4999, payload), payload);

    size_t len = send_popup("popup", message(fields), fields, payload);
    if (len > 0) {
        payload[len - 1] ^= 1; /* the check */
        say("popup, damaged", crsf_read(payload, len, record, sizeof record), payload);
    }
    send_popup("popup with a selection", question(fields), fields, payload);

    uint32_t answer = acknowledge("frequency set", payload);
    say("ACK", answer, payload);
    show_ack(payload, CRSF_COUNT(answer));
    return 0;
}

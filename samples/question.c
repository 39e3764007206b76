/* question: a page that asks a pilot by popups: answered in time, answered late, cancelled, and what is refused. */
#include <stdio.h>
#include <string.h>

#include "crsf.h"

enum { BOX = 0xC8, HANDSET = 0xEA, CANCEL = 0, PROCESS = 1 };

/* What a call on the question tells the page. */
static const char *words(uint32_t answer)
{
    static const char *const told[] = {
        [CRSF_OPENED] = "asked",
        [CRSF_PROCESSED] = "processed",
        [CRSF_CANCELLED] = "cancelled",
        [CRSF_EXPIRED] = "expired, ask again",
    };
    switch (CRSF_NUMBER(answer)) {
    case CRSF_ACCEPTED: return told[CRSF_COUNT(answer)];
    case CRSF_INVALID_PAYLOAD: return "not for the question";
    case CRSF_CLOCK_BACK: return "refused, the clock was set back";
    case CRSF_STILL_OPEN: return "refused, the last popup can still be answered";
    case CRSF_NO_QUESTION: return "refused, nothing is asked";
    case CRSF_OUTSIDE_SELECTION: return "refused, not from min to max";
    default: return "refused";
    }
}

static void say(uint32_t second, const char *what, uint32_t answer)
{
    printf("second %u, %s: %s\n", (unsigned)second, what, words(answer));
}

/* The popup "Lamp, power?" of a number from 5 to 30, which can be answered for twenty seconds. */
static uint32_t make_popup(uint8_t popup[CRSF_POPUP_SIZE])
{
    static const struct { size_t place; const char *said; } texts[] = {
        {CRSF_POPUP_FIELDS_HEADER, "Lamp"},
        {CRSF_POPUP_FIELDS_INFO, "Power?"},
        {CRSF_POPUP_FIELDS_LABEL, "Power"},
        {CRSF_POPUP_FIELDS_UNIT, "dBm"},
    };
    uint8_t fields[CRSF_POPUP_FIELDS_SIZE] = {0};
    for (size_t i = 0; i < sizeof texts / sizeof texts[0]; i++) {
        const uint8_t *said = (const uint8_t *)texts[i].said;
        uint32_t answer = crsf_text(said, strlen(texts[i].said), fields + texts[i].place, CRSF_TEXT_SIZE);
        if (answer != CRSF_ACCEPTED)
            return answer;
    }
    fields[CRSF_POPUP_FIELDS_TIMEOUT] = 20;
    fields[CRSF_POPUP_FIELDS_ADDITIONAL] = CRSF_ADDITIONAL_SELECTION;
    fields[CRSF_POPUP_FIELDS_VALUE] = fields[CRSF_POPUP_FIELDS_DEFAULT] = 10;
    fields[CRSF_POPUP_FIELDS_MIN] = 5;
    fields[CRSF_POPUP_FIELDS_MAX] = 30;
    return crsf_popup(fields, sizeof fields, popup, CRSF_POPUP_SIZE);
}

/* A popup is sent where the question takes it. */
static void ask(uint8_t question[CRSF_QUESTION_SIZE], uint32_t second)
{
    uint8_t popup[CRSF_POPUP_SIZE], payload[CRSF_MAX_PAYLOAD];
    uint8_t record[CRSF_RECORD_SIZE] = {HANDSET, BOX, CRSF_SCREEN, CRSF_SCREEN_POPUP_MESSAGE_START};
    uint32_t answer = make_popup(popup);
    if (answer == CRSF_ACCEPTED)
        answer = crsf_question_ask(question, CRSF_QUESTION_SIZE, second, popup, sizeof popup);
    say(second, "a popup", answer);
    if (answer != CRSF_ACCEPTED)
        return;
    memcpy(record + CRSF_RECORD_LENGTH, popup, sizeof popup);
    answer = crsf_write(record, sizeof record, payload, sizeof payload);
    for (uint32_t i = 0; i < CRSF_COUNT(answer); i++)
        printf("%02X", payload[i]);
    putchar('\n');
}

/* Whatever comes from the handset is read, and handed to the question. */
static void receive(uint8_t question[CRSF_QUESTION_SIZE], uint32_t second, const char *what, const uint8_t *payload,
                    size_t len)
{
    uint8_t record[CRSF_RECORD_SIZE];
    uint32_t answer = crsf_read(payload, len, record, sizeof record);
    if (answer != CRSF_ACCEPTED) {
        printf("second %u, %s: not read\n", (unsigned)second, what);
        return;
    }
    say(second, what, crsf_question_command(question, CRSF_QUESTION_SIZE, second, record, sizeof record));
}

int main(void)
{
    static const uint8_t power_25[] = {BOX, HANDSET, CRSF_SCREEN, CRSF_SCREEN_SELECTION_RETURN_VALUE, 25, PROCESS, 0xC6};
    static const uint8_t power_31[] = {BOX, HANDSET, CRSF_SCREEN, CRSF_SCREEN_SELECTION_RETURN_VALUE, 31, PROCESS, 0x48};
    static const uint8_t buttons[] = {BOX, HANDSET, CRSF_OSD, CRSF_OSD_SEND_BUTTONS, 0x80, 0xF2};
    uint8_t question[CRSF_QUESTION_SIZE] = {0};

    receive(question, 90, "25 comes back", power_25, sizeof power_25);
    ask(question, 100);
    ask(question, 110);
    receive(question, 112, "buttons come", buttons, sizeof buttons);
    receive(question, 115, "31 comes back", power_31, sizeof power_31);
    receive(question, 120, "25 comes back", power_25, sizeof power_25); /* in time: twenty seconds, and no more */
    receive(question, 121, "25 comes back", power_25, sizeof power_25);

    ask(question, 200);
    receive(question, 221, "25 comes back", power_25, sizeof power_25); /* late */
    ask(question, 220);

    ask(question, 300);
    ask(question, 321); /* the popup before it has expired */
    say(325, "the page is left", crsf_question_return(question, sizeof question, 325, 0, CANCEL));
    return 0;
}

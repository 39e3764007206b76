/* Slices to call the functions of crsf.h with, drawn from a seed: valid ones, and ones near them. */
#include <stdbool.h>
#include <stdio.h>
#include <stdlib.h>
#include <string.h>

#include "crsf.h"

enum { LONGEST = 300, LONGEST_BLOCK = 520, KINDS = 30 };

/* What a slice holds. Those of the second row are not const: they are changed in place, room is written from its front. */
enum content {
    BYTES, FIELDS, POPUP_IMAGE, RECORD, CALLING, PAYLOAD, EDITS, BLOCK,
    PAYLOAD_IN_PLACE, REPLAY_IN_PLACE, QUESTION_IN_PLACE, ROOM
};

static uint32_t longest_of(enum content content) { return content == BLOCK ? LONGEST_BLOCK : LONGEST; }

/* NUMBERS AND BYTES */

static uint64_t state; /* the seed, at first */
static uint64_t next(void) /* splitmix64 */
{
    uint64_t z = state += 0x9E3779B97F4A7C15u;
    z = (z ^ z >> 30) * 0xBF58476D1CE4E5B9u;
    z = (z ^ z >> 27) * 0x94D049BB133111EBu;
    return z ^ z >> 31;
}
static uint32_t below(uint32_t n) { return (uint32_t)(next() % n); }

/* The ends of the range come often. */
static uint32_t within(uint32_t low, uint32_t high)
{
    const uint32_t which = below(4);
    return which == 0 ? low : which == 1 ? high : low + below(high - low + 1);
}

static uint8_t *put(uint8_t *at, int width, uint32_t number)
{
    while (width-- > 0)
        *at++ = (uint8_t)(number >> 8 * width);
    return at;
}

static uint32_t number_at(const uint8_t *at, int width)
{
    uint32_t number = 0;
    while (width-- > 0)
        number = number << 8 | *at++;
    return number;
}

static void put_any(uint8_t bytes[LONGEST_BLOCK + 8], size_t len)
{
    for (size_t i = 0; i < len; i += 8) {
        const uint64_t eight = next();
        memcpy(bytes + i, &eight, 8);
    }
}

static uint32_t put_nonzero(uint8_t *bytes, uint32_t len)
{
    for (uint32_t i = 0; i < len; i++)
        put(bytes + i, 1, within(1, 255));
    return len;
}

/* 01's division of one byte, bit by bit: 0xBA, highest bit first, no final change. */
static uint8_t divided_byte(uint8_t remainder)
{
    for (int bit = 0; bit < 8; bit++)
        remainder = (uint8_t)(remainder << 1 ^ (remainder & 0x80 ? 0xBA : 0));
    return remainder;
}

static uint8_t divided(uint8_t remainder, const uint8_t *bytes, size_t len)
{
    static uint8_t known[256]; /* once: blocks are long */
    for (int i = 1; known[255] == 0 && i < 256; i++)
        known[i] = divided_byte((uint8_t)i);
    for (size_t i = 0; i < len; i++)
        remainder = known[remainder ^ bytes[i]];
    return remainder;
}

/* "The message is byte 0x32, then all payload bytes but the last." */
static uint8_t check_of(const uint8_t *payload, size_t len)
{
    const uint8_t type = 0x32;
    return divided(divided(0, &type, 1), payload, len - 1);
}

/* TEXTS, POPUPS, RECORDS */

/* 01's sheets. Values: b a byte; 1, 3 and F a number up to that; f a frequency; c a colour. */
static const struct kind {
    uint8_t id, sub_command;
    const char *values;
} kinds[KINDS] = {
    {0x01, 0x01, ""},    {0x01, 0x02, ""},      {0x05, 0x01, "b"},  {0x08, 0x02, "f"}, {0x08, 0x04, "13F"},  {0x08, 0x05, ""},
    {0x08, 0x06, "b"},   {0x08, 0x08, "b"},     {0x09, 0x01, ""},   {0x09, 0x02, "c"}, {0x09, 0x03, "bbcc"}, {0x09, 0x04, "bbcc"},
    {0x09, 0x05, "bbc"}, {0x0A, 0x70, "bbbbb"}, {0x0A, 0x71, "b1"}, {0x10, 0x01, ""},  {0x10, 0x02, ""},     {0x10, 0x03, ""},
    {0x10, 0x05, "b"},   {0x10, 0x06, ""},      {0x10, 0x07, "b"},  {0x10, 0x0A, ""},  {0x10, 0x0B, ""},     {0x10, 0x0C, ""},
    {0x10, 0x0D, ""},    {0x20, 0x01, "bbb"},   {0x20, 0x02, "b"},  {0x22, 0x01, ""},  {0x22, 0x02, "b1"},   {0xFF, 0x00, "bb1"},
};

static uint8_t *put_value(uint8_t *at, char what)
{
    switch (what) {
    case '1': return put(at, 1, within(0, 1));
    case '3': return put(at, 1, within(0, 3));
    case 'F': return put(at, 1, within(0, 15));
    case 'f': return put(at, 2, within(5000, 6000));
    case 'c': return put(put(put(at, 2, within(0, 359)), 1, within(0, 100)), 1, within(0, 100));
    default: return put(at, 1, within(0, 255));
    }
}

static void put_text(uint8_t *image, uint32_t longest) { image[0] = (uint8_t)put_nonzero(image + 1, within(0, longest)); }

/* Texts that are made, one by one; the popup may still have no room, or lack an item that another needs. */
static void put_fields(uint8_t *image, uint32_t most)
{
    static const uint8_t texts[] = {CRSF_POPUP_FIELDS_HEADER, CRSF_POPUP_FIELDS_INFO, CRSF_POPUP_FIELDS_LABEL,
                                    CRSF_POPUP_FIELDS_UNIT, CRSF_POPUP_FIELDS_POSSIBLE_VALUES};
    const uint32_t longest = within(0, most);
    memset(image, 0, CRSF_POPUP_FIELDS_SIZE);
    for (size_t i = 0; i < sizeof texts; i++)
        put_text(image + texts[i], longest);
    put(image + CRSF_POPUP_FIELDS_TIMEOUT, 1, within(0, 255));
    put(image + CRSF_POPUP_FIELDS_CLOSE, 1, within(0, 1));
    put(image + CRSF_POPUP_FIELDS_ADDITIONAL, 1, within(CRSF_ADDITIONAL_ABSENT, CRSF_ADDITIONAL_SELECTION));
    put(image + CRSF_POPUP_FIELDS_VALUE, 4, (uint32_t)next()); /* and min, max, default */
    put(image + CRSF_POPUP_FIELDS_HAS_POSSIBLE_VALUES, 1, within(0, 1));
}

/* Of the first fields drawn that make one; their texts have so many bytes at the most. */
static void put_popup(uint8_t *image, uint32_t most)
{
    uint8_t fields[CRSF_POPUP_FIELDS_SIZE];
    for (int tries = 0; tries < 1000; tries++) {
        put_fields(fields, most);
        if (crsf_popup(fields, sizeof fields, image, CRSF_POPUP_SIZE) == CRSF_ACCEPTED)
            return;
    }
    fputs("crsf_popup makes no popup\n", stderr), exit(1);
}

static void put_record_of(uint8_t *image, const struct kind *kind)
{
    memset(image, 0, CRSF_RECORD_SIZE);
    uint8_t *at = put(image, 4, (uint32_t)next() << 16 | (uint32_t)kind->id << 8 | kind->sub_command);
    for (const char *value = kind->values; *value != '\0'; value++)
        at = put_value(at, *value);
    if (kind->id == CRSF_ACK)
        put_text(image + CRSF_RECORD_LENGTH, CRSF_MAX_INFORMATION);
    if (kind->id == CRSF_SCREEN && kind->sub_command == CRSF_SCREEN_POPUP_MESSAGE_START)
        put_popup(image + CRSF_RECORD_LENGTH, CRSF_MAX_TEXT);
}

/* Each kind in its turn. */
static void put_record(uint8_t *image)
{
    static unsigned turns;
    put_record_of(image, &kinds[turns++ % KINDS]);
}

/* PAYLOADS AND EDITS */

/* Written from a record; one in sixteen then gets the id of a family left behind. */
static size_t put_payload(uint8_t *payload)
{
    uint8_t record[CRSF_RECORD_SIZE];
    put_record(record);
    const uint32_t answer = crsf_write(record, sizeof record, payload, CRSF_MAX_PAYLOAD);
    if (CRSF_NUMBER(answer) != CRSF_ACCEPTED)
        fprintf(stderr, "crsf_write refuses a valid record: %u\n", CRSF_NUMBER(answer)), exit(1);
    if (below(16) == 0)
        payload[2] = below(2) == 0 ? 0x03 : 0x13;
    return CRSF_COUNT(answer);
}

/* Mostly one of the payload's own family: 01 numbers those of a family within ten. */
static uint32_t field(uint8_t id)
{
    static const uint8_t first[256] = {[CRSF_OSD] = 10,       [CRSF_VTX] = 20,          [CRSF_LED] = 30,    [CRSF_GENERAL] = 40,
                                       [CRSF_CROSSFIRE] = 50, [CRSF_FLOW_CONTROL] = 60, [CRSF_SCREEN] = 70, [CRSF_ACK] = 80};
    switch (below(8)) {
    case 0: return (uint32_t)next();
    case 1: return below(101);
    case 2: return within(CRSF_FIELD_DESTINATION, CRSF_FIELD_SOURCE);
    default: return first[id] + below(8);
    }
}

static uint32_t number(void)
{
    static const uint32_t ends[] = {0,   1,   2,    3,    4,    15,   16,    100,   101,       255, 256,
                                    359, 360, 4999, 5000, 6000, 6001, 65535, 65536, UINT32_MAX};
    return below(2) == 0 ? (uint32_t)next() >> below(32) : ends[below(sizeof ends / sizeof ends[0])];
}

static size_t put_edits(uint8_t *edits, uint8_t id)
{
    const size_t len = CRSF_EDIT_SIZE * below(LONGEST / CRSF_EDIT_SIZE + 1);
    for (size_t i = 0; i < len; i += CRSF_EDIT_SIZE) {
        const uint32_t which = field(id);
        crsf_put_edit(edits + i, which, number());
    }
    return len;
}

/* BLOCKS AND REPLAYS */

/* "In the last byte a check of the other 511 by the command polynomial, without the 0x32 in front." */
static void close_block(uint8_t *block) { block[CRSF_BLOCK_SIZE - 1] = divided(0, block, CRSF_BLOCK_SIZE - 1); }

/* A payload, one in eight of them cut, or any bytes; of most the check is right. */
static size_t put_logged(uint8_t *payload)
{
    size_t len = below(8) > 0 ? put_payload(payload) : put_nonzero(payload, within(CRSF_MIN_PAYLOAD, CRSF_MAX_PAYLOAD));
    if (below(8) == 0)
        len = within(CRSF_MIN_PAYLOAD, (uint32_t)len);
    if (below(8) > 0)
        payload[len - 1] = check_of(payload, len);
    return len;
}

/* The record at a place; where it has no room, nothing. Returns the place behind it. */
static size_t put_logged_at(uint8_t *block, size_t place)
{
    uint8_t payload[CRSF_MAX_PAYLOAD];
    const size_t len = put_logged(payload);
    if (place + 1 + len > CRSF_BLOCK_RECORDS + CRSF_MAX_USED)
        return place;
    block[place] = (uint8_t)len;
    memcpy(block + place + 1, payload, len);
    return place + 1 + len;
}

/* Up to four records; in one of sixteen, as many as fit. */
static void put_block(uint8_t *block)
{
    size_t end = CRSF_BLOCK_RECORDS, last = 0;
    memset(block, 0, CRSF_BLOCK_SIZE);
    put(block + CRSF_BLOCK_NUMBER, 4, within(0, UINT32_MAX - 1) + below(2));
    for (uint32_t left = below(16) == 0 ? 101 : below(5); left > 0 && end != last; left--) {
        last = end;
        end = put_logged_at(block, end);
    }
    put(block + CRSF_BLOCK_USED, 2, (uint32_t)(end - CRSF_BLOCK_RECORDS));
    close_block(block);
}

/* Of one of the first records of a block, or near it. */
static uint32_t place_in(const uint8_t *block)
{
    const uint32_t end = CRSF_BLOCK_RECORDS + number_at(block + CRSF_BLOCK_USED, 2);
    uint32_t place = CRSF_BLOCK_RECORDS;
    for (uint32_t steps = below(8); steps > 0 && place + 1 + block[place] < end && end < CRSF_BLOCK_SIZE; steps--)
        place += 1 + block[place];
    return below(8) == 0 ? within(0, CRSF_BLOCK_SIZE) : place;
}

/* New, between two blocks, or in the middle of this one; its number is that before the block's, or near it, or any. */
static void put_replay(uint8_t *replay, const uint8_t *block)
{
    const uint32_t which = below(8);
    memset(replay, 0, CRSF_REPLAY_SIZE);
    if (which == 0)
        return;
    replay[CRSF_REPLAY_STARTED] = 1;
    put(replay + CRSF_REPLAY_BLOCK, 4, which == 1 ? (uint32_t)next() : number_at(block + CRSF_BLOCK_NUMBER, 4) - below(4) + 1);
    if (which > 3)
        put(replay + CRSF_REPLAY_PLACE, 2, place_in(block));
}

/* QUESTIONS */

typedef uint8_t popup_fields[CRSF_POPUP_FIELDS_SIZE];

/* What a popup shows; where it is not made false, and zeros. */
static bool inspect(const uint8_t *popup, popup_fields fields)
{
    memset(fields, 0, CRSF_POPUP_FIELDS_SIZE);
    return crsf_popup_fields(popup, CRSF_POPUP_SIZE, fields, CRSF_POPUP_FIELDS_SIZE) == CRSF_ACCEPTED;
}

/* New, closed, or with a popup that was sent at the last second, or up to 300 before: of up to four drawn, the first
 * with a selection. */
static void put_question(uint8_t *question)
{
    const uint32_t which = below(8), last = within(0, UINT32_MAX - 1) + below(2), ago = below(301);
    uint8_t *popup = question + CRSF_QUESTION_POPUP;
    popup_fields fields;
    int tries = 4;
    memset(question, 0, CRSF_QUESTION_SIZE);
    if (which == 0)
        return;
    question[CRSF_QUESTION_STARTED] = 1;
    put(question + CRSF_QUESTION_LAST, 4, last);
    if (which == 1)
        return;
    question[CRSF_QUESTION_OPEN] = 1;
    put(question + CRSF_QUESTION_SENT, 4, which < 5 || ago > last ? last : last - ago);
    do {
        put_popup(popup, below(4) == 0 ? CRSF_MAX_TEXT : 8);
        inspect(popup, fields);
    } while (fields[CRSF_POPUP_FIELDS_ADDITIONAL] != CRSF_ADDITIONAL_SELECTION && --tries > 0);
}

/* Any, or near the last accepted one, the end of the popup's time, or the last of all. */
static uint32_t second_near(const uint8_t *question)
{
    popup_fields fields;
    switch (below(8)) {
    case 0: return (uint32_t)next() >> below(32);
    case 1: return UINT32_MAX - below(2);
    case 2:
    case 3: return number_at(question + CRSF_QUESTION_LAST, 4) - 1 + below(3);
    default: inspect(question + CRSF_QUESTION_POPUP, fields);
    }
    return number_at(question + CRSF_QUESTION_SENT, 4) + fields[CRSF_POPUP_FIELDS_TIMEOUT] - 1 + below(3);
}

/* Any, or near an end of the popup's selection. */
static uint8_t value_near(const uint8_t *question)
{
    popup_fields fields;
    inspect(question + CRSF_QUESTION_POPUP, fields);
    switch (below(3)) {
    case 0: return (uint8_t)next();
    case 1: return (uint8_t)(fields[CRSF_POPUP_FIELDS_MIN] - below(2));
    default: return (uint8_t)(fields[CRSF_POPUP_FIELDS_MAX] + below(2));
    }
}

/* The record of a popup or of a returned value; one in eight is of any kind, and one of a returned value may store what it will. */
static void put_calling(uint8_t *image, const uint8_t *question)
{
    const struct kind *kind = kinds;
    const uint8_t sub_command = below(2) == 0 ? CRSF_SCREEN_POPUP_MESSAGE_START : CRSF_SCREEN_SELECTION_RETURN_VALUE;
    if (below(8) == 0) {
        put_record(image);
        return;
    }
    while (kind->id != CRSF_SCREEN || kind->sub_command != sub_command)
        kind++;
    put_record_of(image, kind);
    if (sub_command == CRSF_SCREEN_SELECTION_RETURN_VALUE) {
        image[CRSF_RECORD_VALUES] = value_near(question);
        put(image + CRSF_RECORD_LENGTH, 4, below(4) == 0 ? (uint32_t)next() : 0);
    }
}

/* ANY OF THEM, AND ONES NEAR IT */

/* Returns the length. Of the slices that are there already, edits go by the first, a payload; a replay by the second, a block; and
 * what calls on a question by the first. */
static size_t put_valid(enum content content, uint8_t *bytes, const uint8_t *first, const uint8_t *second)
{
    switch (content) {
    case FIELDS: return put_fields(bytes, CRSF_MAX_TEXT), CRSF_POPUP_FIELDS_SIZE;
    case POPUP_IMAGE: return put_popup(bytes, CRSF_MAX_TEXT), CRSF_POPUP_SIZE;
    case RECORD: return put_record(bytes), CRSF_RECORD_SIZE;
    case PAYLOAD:
    case PAYLOAD_IN_PLACE: return put_payload(bytes);
    case EDITS: return put_edits(bytes, first[2]);
    case BLOCK: return put_block(bytes), CRSF_BLOCK_SIZE;
    case REPLAY_IN_PLACE: return put_replay(bytes, second), CRSF_REPLAY_SIZE;
    case QUESTION_IN_PLACE: return put_question(bytes), CRSF_QUESTION_SIZE;
    case CALLING: return put_calling(bytes, first), CRSF_RECORD_SIZE;
    default: return put_nonzero(bytes, within(0, 56)); /* a text or information */
    }
}

/* Half stay valid; the others are any bytes, cut, longer, or have a byte changed: anywhere, or from 2 to 7, where records and
 * payloads have their id, sub-command and first values, and blocks their used count and first length, or of the first two, where
 * replays and questions have their flags. Returns the length. */
static size_t damaged(uint8_t bytes[LONGEST_BLOCK + 8], size_t length, uint32_t most)
{
    const uint32_t len = (uint32_t)length;
    switch (below(12)) {
    case 0: return put_any(bytes, most), below(most + 1);
    case 1: return below(len + 1);
    case 2: return len + 8 < most ? len + below(8) : most;
    case 3: return put(bytes + below(len + 1), 1, within(0, 255)), len;
    case 4: return put(bytes + 2 + below(6), 1, within(0, 255)), len;
    case 5: return put(bytes + below(2), 1, within(0, 3)), len;
    default: return len;
    }
}

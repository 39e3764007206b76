/* What a question's functions have to answer and keep, worked out from 02's words; popups are inspected by crsf_popup_fields, and
 * images of records go by 01's sheets (slices.h). */

static bool all_zero(const uint8_t *bytes, size_t len)
{
    while (len > 0 && bytes[len - 1] == 0)
        len--;
    return len == 0;
}

static uint32_t sent_of(const uint8_t *question) { return number_at(question + 2, 4); }
static uint32_t last_of(const uint8_t *question) { return number_at(question + 6, 4); }

/* Not started, all the rest is 0; not open, sent and popup are 0 throughout; open, "a kept popup not made, a kept time later than the
 * last accepted one" are beyond its limits. */
static bool is_question(const uint8_t *question, size_t len)
{
    popup_fields fields;
    if (len != 66 || question[0] > 1 || question[1] > 1)
        return false;
    if (question[0] == 0)
        return all_zero(question, 66);
    if (question[1] == 0)
        return sent_of(question) == 0 && all_zero(question + 10, 56);
    return sent_of(question) <= last_of(question) && inspect(question + 10, fields);
}

/* "If it arrives at most the popup's timeout after it"; the sum has room here. */
static bool in_time(const uint8_t *question, const popup_fields fields, uint32_t second)
{
    return second <= (uint64_t)sent_of(question) + fields[104];
}

/* The question after an accepted call, closed. */
static void close_at(uint8_t *question, uint32_t second)
{
    memset(question, 0, 66);
    question[0] = 1;
    put(question + 6, 4, second);
}

/* A question and a popup that are some. The question becomes what is to be kept. */
static uint32_t expect_asked(uint8_t *question, uint32_t second, const uint8_t *popup)
{
    popup_fields fields;
    if (second < last_of(question))
        return 27;
    if (question[1] == 1 && inspect(question + 10, fields) && in_time(question, fields, second))
        return 28;
    close_at(question, second);
    question[1] = 1;
    put(question + 2, 4, second);
    memcpy(question + 10, popup, 56);
    return 0;
}

/* Likewise of a response that is 0 or 1. */
static uint32_t expect_returned(uint8_t *question, uint32_t second, uint8_t value, uint8_t response)
{
    popup_fields fields;
    if (second < last_of(question))
        return 27;
    if (question[1] == 0)
        return 29;
    (void)inspect(question + 10, fields);
    const bool late = !in_time(question, fields, second);
    if (!late && response == 1 && fields[106] == 2 && (value < fields[160] || value > fields[161]))
        return 30;
    close_at(question, second);
    return (late ? 3u : response == 1 ? 1u : 2u) << 8;
}

/* A known id and sub-command, flags that are 0 or 1, zeros behind the values. An ACK's action is no flag. */
static bool is_image(const uint8_t *record, size_t len)
{
    const struct kind *kind = kinds;
    size_t at = 4;
    if (len != 70)
        return false;
    while (kind < kinds + KINDS && (kind->id != record[2] || kind->sub_command != record[3]))
        kind++;
    if (kind == kinds + KINDS)
        return false;
    for (const char *value = kind->values; *value != '\0'; value++) {
        if (*value == '1' && kind->id != 0xFF && record[at] > 1)
            return false;
        at += *value == 'c' ? 4 : *value == 'f' ? 2 : 1;
    }
    return all_zero(record + at, 14 - at);
}

/* The image of a popup command asks with its popup, that of a returned value returns it. Another command is 2, an image of no record
 * 5, a popup not made 5; nothing else of the record is looked at. */
static uint32_t expect_commanded(uint8_t *question, uint32_t second, const uint8_t *record, size_t len)
{
    popup_fields fields;
    if (!is_image(record, len))
        return 5;
    if (record[2] != 0x22)
        return 2;
    if (record[3] == 0x02)
        return expect_returned(question, second, record[4], record[5]);
    return inspect(record + 14, fields) ? expect_asked(question, second, record + 14) : 5;
}

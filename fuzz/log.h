/* What crsf_replay has to answer, hand on and keep, worked out from 02's words; the payloads are read by crsf_read. */

static uint32_t used_end(const uint8_t *block) { return CRSF_BLOCK_RECORDS + number_at(block + CRSF_BLOCK_USED, 2); }

/* "A record is a length byte, 4 to 60, and a payload", within the used bytes. */
static int is_record(const uint8_t *block, uint32_t place)
{
    return place < used_end(block) && block[place] >= 4 && block[place] <= 60 && place + 1 + block[place] <= used_end(block);
}

/* "Refusals: 1 for a block that isn't 512 bytes, then 9 block check, then 10 block layout (used count, record length, nonzero
 * filler)." 0 where it is sound. */
static uint8_t fault_of(const uint8_t *block, size_t len)
{
    uint32_t place = CRSF_BLOCK_RECORDS;
    if (len != 512)
        return 1;
    if (divided(0, block, 511) != block[511])
        return 9;
    if (used_end(block) > 511)
        return 10;
    while (is_record(block, place))
        place += 1 + block[place];
    if (place != used_end(block))
        return 10;
    for (; place < 511; place++)
        if (block[place] != 0)
            return 10;
    return 0;
}

/* 0, 3 where the event has no room, 5 where the replay is none, or has no record to go on with. */
static uint32_t expected_answer(const uint8_t *replay, size_t replay_len, const uint8_t *block, size_t len, size_t event_len)
{
    if (event_len < 80)
        return 3;
    if (replay_len != 7)
        return 5;
    const uint32_t place = number_at(replay + 5, 2);
    if (replay[0] > 1 || (replay[0] == 0 && (number_at(replay + 1, 4) != 0 || place != 0)))
        return 5;
    if (place == 0)
        return 0;
    if (place < 6 || place > 511 || len != 512 || used_end(block) > 511)
        return 5;
    return is_record(block, place) ? 0 : 5;
}

/* "As a gap if higher, else as a step back"; "the first sound block is not reported". */
static uint8_t order_of(const uint8_t *replay, uint32_t block)
{
    const uint64_t last = number_at(replay + 1, 4);
    if (replay[0] == 0 || block == last + 1)
        return CRSF_KIND_NOTHING;
    return block > last ? CRSF_KIND_GAP : CRSF_KIND_STEP_BACK;
}

/* Returns the place behind the record. */
static uint32_t expect_record(const uint8_t *block, uint32_t place, uint8_t *event)
{
    const uint32_t answer = crsf_read(block + place + 1, block[place], event + 10, CRSF_RECORD_SIZE);
    event[0] = CRSF_NUMBER(answer) == CRSF_ACCEPTED ? CRSF_KIND_COMMAND : CRSF_KIND_REFUSED;
    put(event + 6, 2, place);
    put(event + 8, 1, CRSF_NUMBER(answer));
    put(event + 9, 1, CRSF_PLACE(answer));
    return place + 1 + block[place];
}

/* The event of an accepted call; the replay becomes what is to be kept. */
static void expect_event(uint8_t *replay, uint32_t position, const uint8_t *block, size_t len, uint8_t event[CRSF_EVENT_SIZE])
{
    uint32_t place = number_at(replay + 5, 2);
    const uint8_t fault = place == 0 ? fault_of(block, len) : 0;
    memset(event, 0, CRSF_EVENT_SIZE);
    event[12] = event[13] = 1; /* disarm, the blank command */
    if (fault != 0) {
        event[0] = CRSF_KIND_DAMAGED;
        put(event + 2, 4, position);
        event[8] = fault;
        return;
    }
    memcpy(event + 2, block, 4);
    if (place == 0) {
        event[0] = order_of(replay, number_at(block, 4));
        replay[0] = 1;
        memcpy(replay + 1, block, 4);
        place = 6;
    }
    if (event[0] == CRSF_KIND_NOTHING && place < used_end(block))
        place = expect_record(block, place, event);
    event[1] = place < used_end(block);
    put(replay + 5, 2, event[1] ? place : 0);
}

/* log FILE: replays the log FILE, and tells its events. */
#include <stdio.h>

#include "crsf.h"

static uint32_t number(const uint8_t *at, int width)
{
    uint32_t number = 0;
    while (width-- > 0)
        number = number << 8 | *at++;
    return number;
}

static void tell_command(const uint8_t *record)
{
    printf("command %02X", record[CRSF_RECORD_ID]);
    if (record[CRSF_RECORD_ID] != CRSF_ACK)
        printf(" %02X", record[CRSF_RECORD_SUB_COMMAND]);
    printf(" from %02X to %02X\n", record[CRSF_RECORD_SOURCE], record[CRSF_RECORD_DESTINATION]);
}

static void tell(const uint8_t event[CRSF_EVENT_SIZE])
{
    const unsigned block = number(event + CRSF_EVENT_BLOCK, 4), place = number(event + CRSF_EVENT_PLACE, 2);
    switch (event[CRSF_EVENT_KIND]) {
    case CRSF_KIND_NOTHING:
        printf("block %u: no records\n", block);
        break;
    case CRSF_KIND_COMMAND:
        printf("block %u, place %u: ", block, place);
        tell_command(event + CRSF_EVENT_RECORD);
        break;
    case CRSF_KIND_REFUSED:
        printf("block %u, place %u: refused %u\n", block, place, event[CRSF_EVENT_NUMBER]);
        break;
    case CRSF_KIND_DAMAGED: /* by its position */
        printf("the block at %u: damaged, %u\n", block, event[CRSF_EVENT_NUMBER]);
        break;
    case CRSF_KIND_GAP:
        printf("block %u: blocks are missing before it\n", block);
        break;
    case CRSF_KIND_STEP_BACK:
        printf("block %u: a step back\n", block);
        break;
    }
}

/* All events of a block. */
static uint32_t replay_block(uint8_t replay[CRSF_REPLAY_SIZE], uint32_t position, const uint8_t *block, size_t len)
{
    uint8_t event[CRSF_EVENT_SIZE];
    do {
        uint32_t answer = crsf_replay(replay, CRSF_REPLAY_SIZE, position, block, len, event, sizeof event);
        if (answer != CRSF_ACCEPTED)
            return answer;
        tell(event);
    } while (event[CRSF_EVENT_MORE]);
    return CRSF_ACCEPTED;
}

int main(int argc, char **argv)
{
    uint8_t replay[CRSF_REPLAY_SIZE] = {0}, block[CRSF_BLOCK_SIZE];
    uint32_t position = 0;
    size_t len;

    if (argc != 2) {
        fputs("usage: log FILE\n", stderr);
        return 2;
    }
    FILE *log = fopen(argv[1], "rb");
    if (log == NULL) {
        perror(argv[1]);
        return 1;
    }
    while ((len = fread(block, 1, sizeof block, log)) > 0)
        if (replay_block(replay, position++, block, len) != CRSF_ACCEPTED)
            return 1;
    if (ferror(log)) {
        perror(argv[1]);
        return 1;
    }
    return fclose(log);
}

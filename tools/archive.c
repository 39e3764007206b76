/* Links every function of libcrsf.a, reads, writes and refuses one command, replays what is no block of a log, returns a value that nobody
 * asked for, and says so in one line.
 * tools/archive builds it in each way that the archive links; with -DALONE it has no C library, and brings what the archive needs. */
#include "crsf.h"

long write(int file, const void *bytes, size_t len);
int main(void);

#ifdef ALONE
void *memcpy(void *to, const void *from, size_t len)
{
    for (size_t i = 0; i < len; i++)
        ((uint8_t *)to)[i] = ((const uint8_t *)from)[i];
    return to;
}

void *memset(void *at, int byte, size_t len)
{
    for (size_t i = 0; i < len; i++)
        ((uint8_t *)at)[i] = (uint8_t)byte;
    return at;
}

static long call_system(long number, long a, long b, long c)
{
    __asm__ volatile("syscall" : "+a"(number) : "D"(a), "S"(b), "d"(c) : "rcx", "r11", "memory");
    return number;
}

long write(int file, const void *bytes, size_t len) { return call_system(1, file, (long)bytes, (long)len); }

/* The attribute: nobody called it, so the stack lies otherwise than at a function's start. */
__attribute__((force_align_arg_pointer)) void _start(void)
{
    call_system(60, main(), 0, 0);
    __builtin_unreachable();
}
#endif

typedef void function(void);
static function *const volatile functions[] = {
    (function *)crsf_read,
    (function *)crsf_write,
    (function *)crsf_edit,
    (function *)crsf_edit_list,
    (function *)crsf_text,
    (function *)crsf_ack,
    (function *)crsf_popup,
    (function *)crsf_popup_fields,
    (function *)crsf_replay,
    (function *)crsf_question_ask,
    (function *)crsf_question_return,
    (function *)crsf_question_command,
    (function *)crsf_check,
};

int main(void)
{
    uint8_t payload[] = {0xC8, 0xEA, 0x01, 0x01, 0xFE}, record[CRSF_RECORD_SIZE], buffer[CRSF_MAX_PAYLOAD];
    uint8_t replay[CRSF_REPLAY_SIZE] = {0}, event[CRSF_EVENT_SIZE] = {0}, question[CRSF_QUESTION_SIZE] = {0};
    char line[] = "functions NN, read N, written N bytes, wrong check N, no block N, no question NN\n", *at = line;
    uint32_t digits[8], linked = 0, refused;

    for (size_t i = 0; i < sizeof functions / sizeof functions[0]; i++)
        linked += functions[i] != NULL;
    digits[0] = linked / 10;
    digits[1] = linked % 10;
    digits[2] = CRSF_NUMBER(crsf_read(payload, sizeof payload, record, sizeof record));
    digits[3] = CRSF_COUNT(crsf_write(record, sizeof record, buffer, sizeof buffer));
    payload[sizeof payload - 1] ^= 1;
    digits[4] = CRSF_NUMBER(crsf_read(payload, sizeof payload, record, sizeof record));
    if (crsf_replay(replay, sizeof replay, 0, payload, sizeof payload, event, sizeof event) != CRSF_ACCEPTED)
        return 1;
    digits[5] = event[CRSF_EVENT_NUMBER];
    refused = CRSF_NUMBER(crsf_question_return(question, sizeof question, 0, 0, 1));
    digits[6] = refused / 10;
    digits[7] = refused % 10;

    for (int i = 0; i < 8; i++) {
        while (*at != 'N')
            at++;
        *at = (char)('0' + digits[i]);
    }
    return write(1, line, sizeof line - 1) != sizeof line - 1;
}

/* CRSF direct commands (frame type 0x32): the functions of libcrsf.a, which `tools/made crsf` makes.
 *
 * To read a payload: crsf_read gives a record, which says the command by its id and sub-command, then its values.
 * To send a command: fill a record, zeros first; crsf_write gives the payload.
 * To send a popup: crsf_text for each of its texts, then crsf_popup, gives what goes into a record (IMAGES, below).
 * To answer a command: crsf_ack gives what goes into a record.
 * To change a number in a payload: crsf_edit; many of them: crsf_put_edit for each, then crsf_edit_list.
 * To replay a log: a replay of zeros; each block of it in turn to crsf_replay, and the same block again while the event
 * that comes of it says that there is more.
 * To match returned values to the popups that ask for them: a question of zeros, and the caller's own count of seconds;
 * each popup that was sent to crsf_question_ask, each value that came back to crsf_question_return, or the records of
 * both to crsf_question_command. The count of an answer tells how the popup was answered (A QUESTION, below).
 *
 * A slice is a pointer and a length; a null pointer is fine where the length is 0. Any bytes and any length have an
 * answer, and nothing is asked of the caller but that the slices may be read, those that are not const written, and
 * that a slice that is written overlaps no other.
 *
 * Nothing is kept between calls and nothing is allocated: any thread may call any function at any time, on slices that
 * no other thread writes meanwhile, nor reads where the function writes them. What a replay has to know of the blocks
 * before, and a question of the popup that was sent, is in the caller's own bytes.
 *
 * Numbers of two or more bytes are big-endian, in payloads, in blocks and in images. */
#ifndef CRSF_H
#define CRSF_H

#include <stddef.h>
#include <stdint.h>

#ifdef __cplusplus
extern "C" {
#endif

/* Of this interface; the Rust crate over it has the same. */
#define CRSF_VERSION_MAJOR 0
#define CRSF_VERSION_MINOR 1
#define CRSF_VERSION_PATCH 0
#define CRSF_VERSION "0.1.0"

/* Before each function: its answer is all that tells a refusal, so one that is not looked at is warned of. */
#if (defined(__STDC_VERSION__) && __STDC_VERSION__ >= 202311L) || (defined(__cplusplus) && __cplusplus >= 201703L)
#define CRSF_MUST_USE [[nodiscard]]
#elif defined(__GNUC__)
#define CRSF_MUST_USE __attribute__((warn_unused_result))
#else
#define CRSF_MUST_USE
#endif

/* The frame type, and the least and the largest length of a payload: what such a frame holds between its type and its
 * own check. It is destination, source, command id, body, check. This check is that of the frame type, then of all the
 * payload's bytes but the last, which holds it. */
#define CRSF_FRAME_TYPE 0x32u
#define CRSF_MIN_PAYLOAD 4
#define CRSF_MAX_PAYLOAD 60

/* The largest length of a text, of an ACK's information, and of a popup. */
#define CRSF_MAX_TEXT 51
#define CRSF_MAX_INFORMATION 52
#define CRSF_MAX_POPUP 55

/* A block of the log has CRSF_BLOCK_SIZE bytes, at most CRSF_MAX_USED of them records (BLOCKS, below). */
#define CRSF_BLOCK_SIZE 512
#define CRSF_MAX_USED 505

/* AN ANSWER is one number: 0 or a refusal in bits 0-7, a count in bits 8-15, a place in bits 16-31. Only where a
 * function accepts is there a count: of crsf_write, the bytes that were written; of crsf_question_return and
 * crsf_question_command, how a question closed (A QUESTION, below). Every other count is 0. The place is 0 so far. So
 * CRSF_NUMBER(answer) tells which refusal it is; and, but for these three functions, an answer that is CRSF_ACCEPTED as
 * a whole accepts.
 *
 * A refusal changes no byte that was lent. What a function refuses stands at the function, in the order in which it
 * looks: the first that holds is the answer. */
#define CRSF_NUMBER(answer) ((answer) & 0xFFu)
#define CRSF_COUNT(answer) ((answer) >> 8 & 0xFFu)
#define CRSF_PLACE(answer) ((answer) >> 16)

enum {
    CRSF_ACCEPTED = 0,
    CRSF_INVALID_PAYLOAD_LENGTH = 1,
    CRSF_INVALID_PAYLOAD = 2,
    CRSF_BUFFER_OVERFLOW = 3,
    CRSF_FAMILY_LEFT_BEHIND = 4,  /* command id 0x03 or 0x13 */
    CRSF_RECORD_NOT_MADE = 5,     /* also: bytes that are the image of no record, replay or question */
    CRSF_NOT_AS_WRITTEN = 6,      /* the payload can be read, but writing what it says gives other bytes */
    CRSF_NO_SUCH_FIELD = 7,       /* the command has none */
    CRSF_OUTSIDE_RANGE = 8,
    CRSF_WRONG_BLOCK_CHECK = 9,   /* 9 and 10 are in events alone: no function answers them */
    CRSF_WRONG_BLOCK_LAYOUT = 10, /* used count, length of a record, a byte behind the records that is not 0 */
    CRSF_CLOCK_BACK = 27,         /* a second below the last accepted one; 27 to 30 are of questions alone */
    CRSF_STILL_OPEN = 28,         /* a popup that may still be answered */
    CRSF_NO_QUESTION = 29,        /* no popup is open */
    CRSF_OUTSIDE_SELECTION = 30   /* a processed value that the popup's selection does not have */
};

/* Command ids. */
enum {
    CRSF_FC = 0x01,
    CRSF_OSD = 0x05,
    CRSF_VTX = 0x08,
    CRSF_LED = 0x09,
    CRSF_GENERAL = 0x0A,
    CRSF_CROSSFIRE = 0x10,
    CRSF_FLOW_CONTROL = 0x20,
    CRSF_SCREEN = 0x22,
    CRSF_ACK = 0xFF
};

/* Sub-commands, each with the values that stand in its record's image, one behind the other in this order. u8, u16 and
 * u32 are 1, 2 and 4 bytes. What numbers a value takes comes behind its name, where it is not all that fit: reading and
 * writing refuse others (2). A flag is 1 byte, 0 or 1: reading refuses others (2), and no record has them (5). */
enum {
    CRSF_FC_FORCE_DISARM = 0x01,  /* no values */
    CRSF_FC_SCALE_CHANNEL = 0x02, /* no values */

    CRSF_OSD_SEND_BUTTONS = 0x01, /* u8 buttons */

    CRSF_VTX_SET_FREQUENCY = 0x02,               /* u16 frequency 5000-6000, in MHz */
    CRSF_VTX_ENABLE_PIT_MODE_ON_POWER_UP = 0x04, /* flag mode, u8 control 0-3, u8 switch 0-15 */
    CRSF_VTX_POWER_UP_FROM_PIT_MODE = 0x05,      /* no values */
    CRSF_VTX_SET_DYNAMIC_POWER = 0x06,           /* u8 power, in dBm */
    CRSF_VTX_SET_POWER = 0x08,                   /* u8 power, in dBm */

    /* a colour: u16 hue 0-359, u8 saturation 0-100, u8 value 0-100 */
    CRSF_LED_SET_DEFAULT = 0x01,    /* no values */
    CRSF_LED_OVERRIDE_COLOR = 0x02, /* colour */
    CRSF_LED_OVERRIDE_PULSE = 0x03, /* u16 time in ms, start colour, stop colour */
    CRSF_LED_OVERRIDE_BLINK = 0x04, /* u16 time in ms, start colour, stop colour */
    CRSF_LED_OVERRIDE_SHIFT = 0x05, /* u16 time in ms, colour */

    CRSF_GENERAL_SPEED_PROPOSAL = 0x70,          /* u8 port, u32 baud rate */
    CRSF_GENERAL_SPEED_PROPOSAL_RESPONSE = 0x71, /* u8 port, flag accepted */

    CRSF_CROSSFIRE_SET_RECEIVER_IN_BIND_MODE = 0x01,     /* no values */
    CRSF_CROSSFIRE_CANCEL_BIND_MODE = 0x02,              /* no values */
    CRSF_CROSSFIRE_SET_BIND_ID = 0x03,                   /* no values */
    CRSF_CROSSFIRE_MODEL_SELECTION = 0x05,               /* u8 model */
    CRSF_CROSSFIRE_CURRENT_MODEL_SELECTION = 0x06,       /* no values */
    CRSF_CROSSFIRE_REPLY_CURRENT_MODEL_SELECTION = 0x07, /* u8 model */
    CRSF_CROSSFIRE_ENABLE_RX_TELEMETRY = 0x0A,           /* no values */
    CRSF_CROSSFIRE_DISABLE_RX_TELEMETRY = 0x0B,          /* no values */
    CRSF_CROSSFIRE_FACTORY_RESET = 0x0C,                 /* no values */
    CRSF_CROSSFIRE_RESET_TO_FACTORY_FIRMWARE = 0x0D,     /* no values */

    CRSF_FLOW_CONTROL_SUBSCRIBE = 0x01,   /* u8 frame type, u16 interval in ms */
    CRSF_FLOW_CONTROL_UNSUBSCRIBE = 0x02, /* u8 frame type */

    CRSF_SCREEN_POPUP_MESSAGE_START = 0x01,    /* no values; the popup is stored */
    CRSF_SCREEN_SELECTION_RETURN_VALUE = 0x02, /* u8 value, flag response */

    CRSF_ACK_NO_SUB_COMMAND = 0x00 /* u8 command id, u8 sub-command id, u8 action 0-1; the information is stored */
};

/* IMAGES. A record, text, ACK, popup or event crosses this boundary as bytes. Handed in, an image has exactly its size:
 * another length is 5, and so are bytes that are the image of no record (an unknown id or sub-command, a flag or kind
 * out of range, a byte after the values that is not 0). Handed out, it needs at least its size: less is 3, before all
 * else; more keeps its bytes behind it.
 *
 * A popup goes into a record, and comes out of one, as it is: its image is the record's bytes from CRSF_RECORD_LENGTH
 * on. An ACK goes in, and comes out, in two pieces: its first three bytes are the record's values, the others are the
 * record's bytes from CRSF_RECORD_LENGTH on, with zeros behind them.
 *
 *     memcpy(record + CRSF_RECORD_LENGTH, popup, CRSF_POPUP_SIZE);
 *
 *     memcpy(record + CRSF_RECORD_VALUES, ack, CRSF_ACK_VALUES_SIZE);
 *     memcpy(record + CRSF_RECORD_LENGTH, ack + CRSF_ACK_LENGTH, CRSF_ACK_STORED_SIZE);
 *
 * MADE are images whose stored bytes these functions can have handed out. Of a text and of an ACK's information: the
 * length is within its limit, and none of so many bytes is 0. Of a popup: length and bytes are exactly what crsf_popup
 * gives for some fields. Of a command that stores nothing: the length is 0. In all of them every place behind the bytes
 * is 0. An image handed in that is not made is 5; crsf_question_command judges so of a popup's record alone. Values are
 * outside this: their ranges are judged by crsf_write. */
enum {
    CRSF_RECORD_DESTINATION = 0,
    CRSF_RECORD_SOURCE = 1,
    CRSF_RECORD_ID = 2,
    CRSF_RECORD_SUB_COMMAND = 3,
    CRSF_RECORD_VALUES = 4,  /* 10 bytes: the values above, zeros after */
    CRSF_RECORD_LENGTH = 14, /* of the stored bytes; 0 where nothing is stored */
    CRSF_RECORD_BYTES = 15,  /* 55 bytes: a popup, or an ACK's information; zeros after */
    CRSF_RECORD_SIZE = 70
};

enum {
    CRSF_TEXT_LENGTH = 0,
    CRSF_TEXT_BYTES = 1, /* CRSF_MAX_TEXT bytes: the text, zeros after */
    CRSF_TEXT_SIZE = 52
};

enum {
    CRSF_ACK_COMMAND_ID = 0,
    CRSF_ACK_SUB_COMMAND_ID = 1,
    CRSF_ACK_ACTION = 2,
    CRSF_ACK_VALUES_SIZE = 3, /* of the three above */
    CRSF_ACK_LENGTH = 3,
    CRSF_ACK_INFORMATION = 4,  /* CRSF_MAX_INFORMATION bytes: the information, zeros after */
    CRSF_ACK_STORED_SIZE = 53, /* of the length and the information */
    CRSF_ACK_SIZE = 56
};

enum {
    CRSF_POPUP_LENGTH = 0,
    CRSF_POPUP_BYTES = 1, /* CRSF_MAX_POPUP bytes: the popup, zeros after */
    CRSF_POPUP_SIZE = 56
};

/* What a popup shows. Each text is a text's image, CRSF_TEXT_SIZE bytes, as crsf_text gives it; zeros are the empty
 * text. Label, value, min, max, default and unit are there where the kind of additional data is a selection, possible
 * values where the flag before them is 1; what is not there is not looked at, and is handed out as zeros. */
enum {
    CRSF_POPUP_FIELDS_HEADER = 0,       /* text */
    CRSF_POPUP_FIELDS_INFO = 52,        /* text */
    CRSF_POPUP_FIELDS_TIMEOUT = 104,    /* u8, in seconds */
    CRSF_POPUP_FIELDS_CLOSE = 105,      /* flag: whether there is a close button */
    CRSF_POPUP_FIELDS_ADDITIONAL = 106, /* u8, one of the three kinds below */
    CRSF_POPUP_FIELDS_LABEL = 107,      /* text, not empty */
    CRSF_POPUP_FIELDS_VALUE = 159,      /* u8, as the next three, which are not compared with each other */
    CRSF_POPUP_FIELDS_MIN = 160,
    CRSF_POPUP_FIELDS_MAX = 161,
    CRSF_POPUP_FIELDS_DEFAULT = 162,
    CRSF_POPUP_FIELDS_UNIT = 163,                /* text */
    CRSF_POPUP_FIELDS_HAS_POSSIBLE_VALUES = 215, /* flag; with additional data only, which may be the empty one */
    CRSF_POPUP_FIELDS_POSSIBLE_VALUES = 216,     /* text: the answers to choose from, a semicolon between them */
    CRSF_POPUP_FIELDS_SIZE = 268
};

enum {
    CRSF_ADDITIONAL_ABSENT = 0,
    CRSF_ADDITIONAL_EMPTY = 1, /* a byte that holds the place of a selection */
    CRSF_ADDITIONAL_SELECTION = 2
};

/* FIELDS that can be edited, and what commands have them. Numbers are 0-255 where no range is given. */
enum {
    CRSF_FIELD_DESTINATION = 1, /* every command */
    CRSF_FIELD_SOURCE = 2,      /* every command */

    CRSF_FIELD_BUTTONS = 10,

    CRSF_FIELD_FREQUENCY = 20,   /* 5000-6000 */
    CRSF_FIELD_PIT_MODE = 21,    /* 0-1 */
    CRSF_FIELD_PIT_CONTROL = 22, /* 0-3 */
    CRSF_FIELD_PIT_SWITCH = 23,  /* 0-15 */
    CRSF_FIELD_POWER = 24,       /* both commands that set it */

    CRSF_FIELD_TIME = 30,            /* 0-65535 */
    CRSF_FIELD_HUE = 31,             /* 0-359; these three of the only or the start colour */
    CRSF_FIELD_SATURATION = 32,      /* 0-100 */
    CRSF_FIELD_VALUE = 33,           /* 0-100 */
    CRSF_FIELD_STOP_HUE = 34,        /* 0-359; these three of the stop colour */
    CRSF_FIELD_STOP_SATURATION = 35, /* 0-100 */
    CRSF_FIELD_STOP_VALUE = 36,      /* 0-100 */

    CRSF_FIELD_PORT = 40,     /* of the proposal and of its response */
    CRSF_FIELD_BAUD = 41,     /* any number */
    CRSF_FIELD_ACCEPTED = 42, /* 0-1 */

    CRSF_FIELD_MODEL = 50, /* of the selection and of its reply */

    CRSF_FIELD_FRAME_TYPE = 60, /* both commands */
    CRSF_FIELD_INTERVAL = 61,   /* 0-65535 */

    CRSF_FIELD_TIMEOUT = 70,         /* every popup */
    CRSF_FIELD_CLOSE = 71,           /* 0-1; every popup */
    CRSF_FIELD_SELECTION_VALUE = 72, /* popups with a selection, as the next three */
    CRSF_FIELD_SELECTION_MIN = 73,
    CRSF_FIELD_SELECTION_MAX = 74,
    CRSF_FIELD_SELECTION_DEFAULT = 75,
    CRSF_FIELD_RETURNED_VALUE = 76,
    CRSF_FIELD_RESPONSE = 77, /* 0-1 */

    CRSF_FIELD_ACK_COMMAND_ID = 80, /* what an ACK answers, not the payload's own id */
    CRSF_FIELD_ACK_SUB_COMMAND_ID = 81,
    CRSF_FIELD_ACK_ACTION = 82 /* 0-1 */
};

/* An edit in a list: u32 field, u32 number. crsf_put_edit puts one, CRSF_EDIT_SIZE bytes. */
enum { CRSF_EDIT_FIELD = 0, CRSF_EDIT_NUMBER = 4, CRSF_EDIT_SIZE = 8 };

static inline void crsf_put_edit(uint8_t *edit, uint32_t field, uint32_t number)
{
    int i;
    for (i = 0; i < 4; i++) {
        edit[CRSF_EDIT_FIELD + i] = field >> (24 - 8 * i) & 0xFFu;
        edit[CRSF_EDIT_NUMBER + i] = number >> (24 - 8 * i) & 0xFFu;
    }
}

/* BLOCKS of the log. A record is a length byte, CRSF_MIN_PAYLOAD to CRSF_MAX_PAYLOAD, then a payload of so many bytes;
 * one stands behind the other, and the used bytes end with the last. Places in a block count from its first byte, and a
 * record's place is that of its length byte. */
enum {
    CRSF_BLOCK_NUMBER = 0,  /* u32 */
    CRSF_BLOCK_USED = 4,    /* u16, 0-505: bytes of records */
    CRSF_BLOCK_RECORDS = 6, /* CRSF_MAX_USED bytes: the records, zeros after */
    CRSF_BLOCK_CHECK = 511  /* u8: crsf_check of the 511 bytes before it, from 0 */
};

/* A REPLAY is what is kept of a log between calls, in bytes of the caller's own, which crsf_replay changes in place. A
 * new one is zeros throughout. Within its limits are: zeros throughout; and started 1, any number, and a place that is
 * 0 or 6-511. */
enum {
    CRSF_REPLAY_STARTED = 0, /* flag: whether a sound block has come */
    CRSF_REPLAY_BLOCK = 1,   /* u32, number of the last sound block */
    CRSF_REPLAY_PLACE = 5,   /* u16, place of the next record; 0 where a new block is to come */
    CRSF_REPLAY_SIZE = 7
};

/* AN EVENT of a log. Numbers and places that its kind does not have are 0; where there is no command, the record is the
 * image of disarm with both addresses 0. */
enum {
    CRSF_EVENT_KIND = 0,          /* u8, one of the six below */
    CRSF_EVENT_MORE = 1,          /* flag: whether the block has more events */
    CRSF_EVENT_BLOCK = 2,         /* u32, number of the block; of a damaged one, the position that the caller gave */
    CRSF_EVENT_PLACE = 6,         /* u16, place of the record */
    CRSF_EVENT_NUMBER = 8,        /* u8, the refusal of a record or of a damaged block */
    CRSF_EVENT_PAYLOAD_PLACE = 9, /* u8, place of that refusal in the record's payload: 0 so far */
    CRSF_EVENT_RECORD = 10,       /* record, CRSF_RECORD_SIZE bytes */
    CRSF_EVENT_SIZE = 80
};

enum {
    CRSF_KIND_NOTHING = 0,  /* a sound block, in order, without records */
    CRSF_KIND_COMMAND = 1,  /* block, place, record */
    CRSF_KIND_REFUSED = 2,  /* a record whose payload crsf_read refuses: block, place, number, place in the payload */
    CRSF_KIND_DAMAGED = 3,  /* a block that is skipped whole: position, number 1, 9 or 10 */
    CRSF_KIND_GAP = 4,      /* block: more than one above the sound block before it */
    CRSF_KIND_STEP_BACK = 5 /* block: not above the sound block before it */
};

/* A QUESTION is what is kept of the popup that was sent last, until it is answered, in bytes of the caller's own, which
 * the three functions of a question change in place. A new one is zeros throughout. At most one popup is open in it.
 *
 * Seconds are the caller's own count. The first call may carry any, each later one none below the last that was
 * accepted; where the count starts again, as behind a restart, a new question is needed. A popup's time is over when
 * more seconds than its timeout have gone by since it was sent.
 *
 * Within its limits are: zeros throughout; started 1, any last second, zeros else; started 1, open 1, a popup that is
 * made, and a second when it was sent that is not above the last one. */
enum {
    CRSF_QUESTION_STARTED = 0, /* flag: whether a call was accepted */
    CRSF_QUESTION_OPEN = 1,    /* flag: whether a popup is open, be its time over or not */
    CRSF_QUESTION_SENT = 2,    /* u32, second when it was sent */
    CRSF_QUESTION_LAST = 6,    /* u32, last accepted second */
    CRSF_QUESTION_POPUP = 10,  /* popup, CRSF_POPUP_SIZE bytes */
    CRSF_QUESTION_SIZE = 66
};

/* What the count of an accepted call on a question tells. */
enum {
    CRSF_OPENED = 0,    /* a popup was sent, and is open */
    CRSF_PROCESSED = 1, /* the popup is closed: a value came in time, to be processed */
    CRSF_CANCELLED = 2, /* the popup is closed: it was cancelled in time */
    CRSF_EXPIRED = 3    /* the popup is closed: what came back came when its time was over */
};

/* Reads a payload into a record's image. Bytes of the body behind the command are ignored. Refused:
 * 3, less room than CRSF_RECORD_SIZE;
 * 1, a payload below CRSF_MIN_PAYLOAD or above CRSF_MAX_PAYLOAD bytes;
 * 2, another check than the payload's;
 * 4, command id 0x03 or 0x13; 2, another id that is none of the command ids above;
 * then the sub-command, and value by value, a colour being one: 1, bytes of it are missing; 2, it is unknown or out of
 * range. A text that does not end in 0, or has more than CRSF_MAX_TEXT bytes, is 1. An ACK's information has to end in
 * 0 (1) before its action is judged (2).
 * The count is 0. */
CRSF_MUST_USE uint32_t crsf_read(const uint8_t *payload, size_t len, uint8_t *record, size_t record_len);

/* Writes the command of a record's image into the front of a buffer, of which the rest keeps its bytes; into
 * CRSF_MAX_PAYLOAD bytes every command fits. The count is the payload's length. Refused:
 * 5, no image of a record, or not made;
 * 3, a buffer below CRSF_MIN_PAYLOAD bytes;
 * then 2, a number out of range, and 3, too little room: VTX and ACK look at all numbers first; LED goes value by
 * value, and looks at a colour's numbers before its room; the others have no ranges. */
CRSF_MUST_USE uint32_t crsf_write(const uint8_t *record, size_t record_len, uint8_t *buffer, size_t len);

/* Sets one field of the command that a payload holds, in place: all else that it says stays, and the check is renewed.
 * The count is 0. Refused:
 * as crsf_read refuses the payload, from 1 on;
 * 6, writing the command that was read gives other bytes (some stood behind it, or bit 7 of a pit byte is set);
 * 7, the command has no such field;
 * 8, a number outside the field's range. */
CRSF_MUST_USE uint32_t crsf_edit(uint8_t *payload, size_t len, uint32_t field, uint32_t number);

/* Carries out edits one after the other, CRSF_EDIT_SIZE bytes each. Each one's number, 0 or a refusal as crsf_edit
 * gives it, goes to its answer byte, and a refused edit stops none behind it; answer bytes beyond the edits keep what
 * they hold. The count is 0. Refused, with nothing done:
 * 1, a list whose length is no multiple of CRSF_EDIT_SIZE;
 * 3, fewer answer bytes than edits. */
CRSF_MUST_USE uint32_t crsf_edit_list(uint8_t *payload, size_t len, const uint8_t *edits, size_t edits_len,
                                      uint8_t *answers, size_t answers_len);

/* The image of a text of these bytes, without a 0 behind them. The count is 0. Refused:
 * 3, less room than CRSF_TEXT_SIZE;
 * 2, a byte that is 0;
 * 1, more than CRSF_MAX_TEXT bytes. */
CRSF_MUST_USE uint32_t crsf_text(const uint8_t *bytes, size_t len, uint8_t *text, size_t text_len);

/* The image of an ACK: what it answers; whether that is rejected (0) or accepted (1); information, without a 0 behind
 * it. The count is 0. Refused:
 * 3, less room than CRSF_ACK_SIZE;
 * 1, more than CRSF_MAX_INFORMATION bytes;
 * 2, an action above 1, a byte that is 0. */
CRSF_MUST_USE uint32_t crsf_ack(uint8_t command_id, uint8_t sub_command_id, uint8_t action, const uint8_t *information,
                                size_t len, uint8_t *ack, size_t ack_len);

/* The image of the popup of these fields. The count is 0. Refused:
 * 3, less room than CRSF_POPUP_SIZE;
 * 5, no image of fields (another length, a flag or kind out of range), or a text that is there is not made;
 * 2, possible values without additional data;
 * then field by field: 1, more than CRSF_MAX_POPUP bytes; 2, an empty label, before its own room. */
CRSF_MUST_USE uint32_t crsf_popup(const uint8_t *fields, size_t fields_len, uint8_t *popup, size_t popup_len);

/* The image of the fields of a popup. The count is 0. Refused:
 * 3, less room than CRSF_POPUP_FIELDS_SIZE;
 * 5, no image of a popup (another length), or not made. */
CRSF_MUST_USE uint32_t crsf_popup_fields(const uint8_t *popup, size_t popup_len, uint8_t *fields, size_t fields_len);

/* Hands on the next event of a block of the log, into the front of the event, and keeps in the replay where that stood:
 * the caller hands in the same block while the event says that there is more, then the next block. A block has at most
 * 102 events.
 *
 * Where a new block is to come, it is judged first. It is damaged, and has this one event, for the first that holds:
 * 1, another length than CRSF_BLOCK_SIZE; 9, another check than the block's; 10, a used count above CRSF_MAX_USED, a
 * record's length outside its range or a record beyond the used bytes, or a byte behind them that is not 0. It goes by
 * the position, which is any number and looked at for nothing else; the replay stays as it was.
 *
 * A sound block has, in this order: a gap or a step back, where its number is not exactly one above that of the sound
 * block before it (0 behind 0xFFFFFFFF is a step back; the first sound block has neither); each record, as the command
 * that crsf_read gives of its payload, or refused with crsf_read's number. Where all that is none, it has the one event
 * CRSF_KIND_NOTHING.
 *
 * Between two events of a block, it is not judged again. Another block that is handed in there is gone on with at the
 * same place, where it has a record: the event has that other block's number, there is more while used bytes remain
 * behind the record, and the replay keeps the number that it had. To leave a block before its end, set the two bytes at
 * CRSF_REPLAY_PLACE to 0.
 *
 * The count is 0. Refused:
 * 3, less room than CRSF_EVENT_SIZE;
 * 5, a replay of another length than CRSF_REPLAY_SIZE, or beyond its limits; then, where its place is not 0, a block of
 * another length than CRSF_BLOCK_SIZE, with a used count above CRSF_MAX_USED, or without a record of CRSF_MIN_PAYLOAD
 * to CRSF_MAX_PAYLOAD bytes at that place within the used bytes. */
CRSF_MUST_USE uint32_t crsf_replay(uint8_t *replay, size_t replay_len, uint32_t position, const uint8_t *block,
                                   size_t len, uint8_t *event, size_t event_len);

/* A popup was sent at this second: it is open from now on. One that was open before makes way where its time is over.
 * The count is CRSF_OPENED. Refused:
 * 5, a question of another length than CRSF_QUESTION_SIZE, or beyond its limits; no image of a popup (another length),
 * or not made;
 * 27, a second below the last accepted one;
 * 28, a popup is open, and its time is not over. */
CRSF_MUST_USE uint32_t crsf_question_ask(uint8_t *question, size_t question_len, uint32_t second, const uint8_t *popup,
                                         size_t popup_len);

/* A value came back at this second, with the response to process it (1) or to cancel (0): it closes the popup that is
 * open. The count is CRSF_EXPIRED where the popup's time is over, whatever value and response; else CRSF_PROCESSED or
 * CRSF_CANCELLED. Refused:
 * 5, a question of another length than CRSF_QUESTION_SIZE, or beyond its limits;
 * 2, a response above 1;
 * 27, a second below the last accepted one;
 * 29, no popup is open: none was sent, or the last one is closed;
 * 30, the popup's time is not over, it has a selection, the response is 1, and the value is below min or above max. The
 * popup stays open. */
CRSF_MUST_USE uint32_t crsf_question_return(uint8_t *question, size_t question_len, uint32_t second, uint8_t value,
                                            uint8_t response);

/* A command was sent, or has come, at this second: the record of a popup does what crsf_question_ask does, that of a
 * returned value what crsf_question_return does, with their counts. Nothing else of the record is looked at, neither
 * its addresses nor what that of a returned value stores. Refused:
 * 5, a question of another length than CRSF_QUESTION_SIZE, or beyond its limits; no image of a record;
 * 2, another command;
 * 5, a popup that is not made;
 * then 27 to 30, as those two refuse. */
CRSF_MUST_USE uint32_t crsf_question_command(uint8_t *question, size_t question_len, uint32_t second,
                                             const uint8_t *record, size_t record_len);

/* The check of bytes, from start: 0, or the check of what came before. It is the remainder of the message, times x^8,
 * divided by x^8+x^7+x^5+x^4+x^3+x. Of no bytes it is start. No answer as above, but the check itself: nothing is
 * refused. */
CRSF_MUST_USE uint8_t crsf_check(const uint8_t *bytes, size_t len, uint8_t start);

#ifdef __cplusplus
}
#endif

#endif

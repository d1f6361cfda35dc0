/* Rokemaipu: the CAN messages of charge and safety controllers, the session watch over up to 16 posts, and the night log.
 *
 *     static rokemaipu_table t;                                              a table is zeroed memory: zero it first
 *     if (rokemaipu_layout() != ROKEMAIPU_LAYOUT) return 1;                  this header and the library that was linked are not of one version
 *     rokemaipu_set_up(&t, 0, 4, 5000, 1000, 500, 500, ROKEMAIPU_MEASURING,  post 0 on channel 4: 500.0 V, 100.0 A, 50.0 A, W 500 ms, and a controller
 *                      ROKEMAIPU_NEWER);                                     of document 000
 *     uint32_t answer = rokemaipu_frame(&t, 4, time, id, extended, payload, length);
 *     if (rokemaipu_refusal(answer)) ..                                      refused, and nothing was changed but the count of what was refused
 *     else if (answer & ROKEMAIPU_F9_LOW_INSULATION) ..                      accepted, and found
 *
 * Link librokemaipu.a (make lib). The functions are proved: each takes any input and answers; nothing outside the memory that you
 * lend is read or written, no memory is kept after a call, and nothing is allocated. What you owe, since C cannot be proved:
 *
 *   - a pointer points to the memory that its type and length say (NULL with length 0 is an empty slice);
 *   - a bool is 0 or 1;
 *   - two slices of one call do not overlap, and no slice lies in the table;
 *   - the table is zeroed memory, or was started, or came out of these functions. Memory that is no table yet, from malloc or the
 *     stack: zero it first. rokemaipu_start is for a table that is to be emptied. Any other table is answered as well, but then its
 *     answers are those of the numbers that you put there.
 *
 * Calls on one table come one after the other. Different tables are independent.
 *
 * Here follow answers, refusals and findings; the table; the functions. rokemaipu_pages.h, which is included, tells what the raw numbers
 * of each message are. */
#ifndef ROKEMAIPU_H
#define ROKEMAIPU_H

#include <stdbool.h>
#include <stddef.h>
#include <stdint.h>

#include "rokemaipu_pages.h"

#ifdef __cplusplus
extern "C" {
#endif

#define ROKEMAIPU_VERSION 500 /* 5.00: whatever compiles with one 5.xx compiles with each later one */

#define ROKEMAIPU_POSTS 16
#define ROKEMAIPU_KINDS 43 /* of messages, of both interfaces */
#define ROKEMAIPU_PLACES 25 /* a post's latest frames */
#define ROKEMAIPU_FINDINGS 12 /* finding 1 to this one */
#define ROKEMAIPU_SIGNALS 16 /* places of raw numbers; no message has more signals */
#define ROKEMAIPU_RECORD_BYTES 20 /* no record of the night log is longer */
#define ROKEMAIPU_BATCH_BYTES 4096 /* a batch has no more */
#define ROKEMAIPU_LINE_BYTES 40 /* no line of a replay is longer */
#define ROKEMAIPU_CHANNELS 32 /* channels 0 to 31 */
#define ROKEMAIPU_COMPARE_RECORDS 512 /* a log that is compared has no more */

/* ---- answers
 *
 * An answer is one word. Below 65,536 a call was accepted; from there on it is 65,536 plus the number of the refusal, and of refusal 5
 * plus 256 times the start bit of the signal, and nothing was changed: neither a post nor a lent buffer (but for the two numbers of
 * rokemaipu_compare, which tell side and byte of what is refused). Only the table's count of refused frames and ticks goes up by one where a
 * frame or a tick is refused, and stays at 4,294,967,295 once there (rokemaipu_refused). */
#define ROKEMAIPU_REFUSED 65536u

/* The refusal's number of an answer, 0 where it was accepted. */
static inline uint32_t rokemaipu_refusal(uint32_t answer) { return answer < ROKEMAIPU_REFUSED ? 0 : answer % 256; }

/* The start bit of the signal that has no such label, where an answer refuses with 5; where several signals of a frame have none, the
 * lowest. 0 for any other answer. */
static inline uint32_t rokemaipu_start_bit(uint32_t answer) { return answer < ROKEMAIPU_REFUSED ? 0 : answer / 256 % 256; }

/* Refusals, by their numbers. */
enum rokemaipu_refused {
    ROKEMAIPU_R1_CHANNEL_FREE = 1,       /* channel above 31, or held by no post */
    ROKEMAIPU_R2_EARLIER = 2,            /* time earlier than that post's latest accepted frame or tick: 2^31 ms and more after it, by a clock that comes round */
    ROKEMAIPU_R3_UNKNOWN_IDENTIFIER = 3, /* identifier not in the table, in the frame's form; or a number that is no kind */
    ROKEMAIPU_R4_TOO_SHORT = 4,          /* frame shorter than the table's length */
    ROKEMAIPU_R5_NO_LABEL = 5,           /* a label signal holds a number without a label */
    ROKEMAIPU_R6_UNCOVERED_BIT = 6,      /* a bit that no signal covers is 1 */
    ROKEMAIPU_R7_NO_RAW_NUMBER = 7,      /* a raw number does not fit its signal */
    ROKEMAIPU_R8_SHORT_BUFFER = 8,       /* lent buffer too short */
    ROKEMAIPU_R9_NO_SUCH_POST = 9,       /* post number above 15 */
    ROKEMAIPU_R10_NO_SUCH_CHANNEL = 10,  /* channel above 31 at set-up */
    ROKEMAIPU_R11_CHANNEL_TAKEN = 11,    /* channel held by another post */
    ROKEMAIPU_R12_LIMIT_OUTSIDE = 12,    /* a post limit outside its range */
    ROKEMAIPU_R13_NO_SIGNAL = 13,        /* no signal of the message starts at that bit */
    ROKEMAIPU_R14_NOT_SET_UP = 14,       /* post not set up */
    ROKEMAIPU_R15_TOO_LONG = 15,         /* frame longer than the table's length */
    /* of the night log */
    ROKEMAIPU_R16_ILL_NUMBER = 16,       /* a number not in its shortest form, of more than five groups, or of more than 32 bits */
    ROKEMAIPU_R17_LOG_CHANNEL = 17,      /* channel above 31 */
    ROKEMAIPU_R18_LOG_STANDARD = 18,     /* standard identifier above 2,047 */
    ROKEMAIPU_R19_LOG_EXTENDED = 19,     /* extended identifier above 29 bits */
    ROKEMAIPU_R20_LOG_LENGTH = 20,       /* length above 9; in the writer above 8 */
    ROKEMAIPU_R21_LOG_TICK = 21,         /* length 9, and the identifier part is not 0 */
    /* of a batch */
    ROKEMAIPU_R22_BATCH_BYTES = 22,      /* more than 4,096 bytes */
    ROKEMAIPU_R23_BATCH_RECORD = 23,     /* a malformed or cut record */
    ROKEMAIPU_R24_BATCH_ANSWERS = 24,    /* fewer places for answers than records */
    /* of the counts */
    ROKEMAIPU_R25_COUNT_FULL = 25,       /* that post has accepted 4,294,967,295 frames and ticks since set-up; judged after all others */
    /* of a comparison */
    ROKEMAIPU_R26_COMPARE_LOG = 26,      /* a log with a malformed or cut record */
    ROKEMAIPU_R27_COMPARE_RECORDS = 27,  /* a log of more than 512 records */
    ROKEMAIPU_R28_COMPARE_ROOM = 28,     /* a list of fewer than 512 places */
    /* of posts of either interface */
    ROKEMAIPU_R29_OTHER_INTERFACE = 29   /* identifier that only the pages of the other interface have; in 3's place */
};

/* Findings of an accepted frame or tick: finding k is bit k - 1 of the answer. */
#define ROKEMAIPU_F(k) (1u << ((k) - 1))

enum rokemaipu_finding {
    /* any event, session open: time minus the later of the opening and the latest Power_Modules_Status in this session is above W */
    ROKEMAIPU_F1_POWER_MODULES_SILENT = 1,
    /* any event, once a controller status was accepted: time minus its latest is above 200 ms */
    ROKEMAIPU_F2_CONTROLLER_SILENT = 2,
    /* DC_Power_Control, for which on a post of the older interface Insulation_Test, Precharge and Charging_Loop stand as the three functions, so that findings
     * 3, 6 and 7 are not found there: contactors Close, no session open */
    ROKEMAIPU_F3_CLOSE_WITHOUT_SESSION = 4,
    /* DC_Power_Control: insulation test, precharge or power transfer, no session open */
    ROKEMAIPU_F4_POWER_WITHOUT_SESSION = 8,
    /* the same functions, session open, and its latest Power_Modules_Status is none or Not_Allowed */
    ROKEMAIPU_F5_POWER_NOT_ALLOWED = 16,
    /* Lowering with a function other than standby, or with any DC_Power_Control signal in Volts or Amps not 0 */
    ROKEMAIPU_F6_LOWERING_NOT_STANDBY = 32,
    /* DC_Power_Control, function not off: Target_Voltage above the voltage limit */
    ROKEMAIPU_F7_TARGET_ABOVE_LIMIT = 64,
    /* Power_Modules_Status, session open: current above the charge limit, or below minus the discharge limit */
    ROKEMAIPU_F8_CURRENT_OUTSIDE_LIMITS = 128,
    /* Power_Modules_Status, session open whose latest DC_Power_Control is precharge or power transfer: under 100 Ohm per volt of the same
     * message's voltage; with a yes/no sensor, raw insulation 0 */
    ROKEMAIPU_F9_LOW_INSULATION = 256,
    /* New_Charge_Session while open with another protocol or plug than the session's first */
    ROKEMAIPU_F10_OTHER_PROTOCOL_OR_PLUG = 512,
    /* Charge_Session_Finished with none open */
    ROKEMAIPU_F11_FINISHED_WITHOUT_SESSION = 1024,
    /* DC_Power_Control: insulation test, precharge or power transfer, session open in which an Emergency_Stop was accepted */
    ROKEMAIPU_F12_POWER_AFTER_STOP = 2048
};

/* ---- numbers that name things */

/* Interfaces: whose pages a post reads. In a table of your own making every other number counts as the newer one. */
enum rokemaipu_interface {
    ROKEMAIPU_NEWER = 0, /* documents 000 and 004 */
    ROKEMAIPU_OLDER = 1  /* documents 001 and 004 */
};

/* Kinds of messages, by the identifier of their extended frames; 9 to 11 are the safety controller's, standard frames, which either interface has. 0 to 8 and
 * 30 to 42 only the newer one has, and 12 to 29, in the order of document 001, only the older one. What their raw numbers are stands in rokemaipu_pages.h. */
enum rokemaipu_kind {
    ROKEMAIPU_POWER_MODULES_STATUS = 0,    /* 0x63000 */
    ROKEMAIPU_DC_POWER_PARAMETERS = 1,     /* 0x63001 */
    ROKEMAIPU_CONTROLLER_STATUS = 2,       /* 0x6b000 */
    ROKEMAIPU_NEW_CHARGE_SESSION = 3,      /* 0x6b001 */
    ROKEMAIPU_CHARGE_STATUS_CHANGE = 4,    /* 0x6b002 */
    ROKEMAIPU_DC_POWER_CONTROL = 5,        /* 0x6b003 */
    ROKEMAIPU_CHARGE_SESSION_FINISHED = 6, /* 0x6b004 */
    ROKEMAIPU_EMERGENCY_STOP = 7,          /* 0x6b005 */
    ROKEMAIPU_EV_ID = 8,                   /* 0x6b105 */
    ROKEMAIPU_CHARGE_CONTROL_1 = 9,        /* standard 6 */
    ROKEMAIPU_CHARGE_STATE_1 = 10,         /* standard 7 */
    ROKEMAIPU_PT1000_STATE = 11,           /* standard 8 */
    ROKEMAIPU_OLDER_POWER_MODULES_STATUS = 12,    /* 0x60010 */
    ROKEMAIPU_OLDER_POWER_MODULES_LIMITS = 13,    /* 0x60011 */
    ROKEMAIPU_OLDER_SEQUENCE_CONTROL = 14,        /* 0x60012 */
    ROKEMAIPU_OLDER_ADM_CS_SECC_OUTPUTS = 15,     /* 0x60013 */
    ROKEMAIPU_OLDER_NEW_CHARGE_SESSION = 16,      /* 0x68001 */
    ROKEMAIPU_OLDER_INSULATION_TEST = 17,         /* 0x68002 */
    ROKEMAIPU_OLDER_PRECHARGE = 18,               /* 0x68003 */
    ROKEMAIPU_OLDER_CHARGE_STATUS_CHANGE = 19,    /* 0x68004 */
    ROKEMAIPU_OLDER_CHARGING_LOOP = 20,           /* 0x68005 */
    ROKEMAIPU_OLDER_EMERGENCY_STOP = 21,          /* 0x68006 */
    ROKEMAIPU_OLDER_CHARGE_SESSION_FINISHED = 22, /* 0x68007 */
    ROKEMAIPU_OLDER_CONTROLLER_STATUS = 23,       /* 0x68009 */
    ROKEMAIPU_OLDER_ADM_CO_CUI1_INPUTS = 24,      /* 0x6800a */
    ROKEMAIPU_OLDER_ADM_CS_SECC_INPUTS = 25,      /* 0x6800b */
    ROKEMAIPU_OLDER_EV_ID = 26,                   /* 0x6800c */
    ROKEMAIPU_OLDER_ADM_CS_SPCC_INPUTS = 27,      /* 0x6800d */
    ROKEMAIPU_OLDER_CCS_EXTRA_INFORMATION = 28,   /* 0x6800e */
    ROKEMAIPU_OLDER_MCS_EXTRA_INFORMATION = 29,   /* 0x6800f */
    ROKEMAIPU_SEQUENCE_CONTROL = 30,                /* 0x63002 */
    ROKEMAIPU_ADM_CS_SECC_OUTPUTS = 31,             /* 0x63201 */
    ROKEMAIPU_EV_INFORMATION_BATTERY = 32,          /* 0x6b100 */
    ROKEMAIPU_EV_INFORMATION_VOLTAGES = 33,         /* 0x6b101 */
    ROKEMAIPU_EV_INFORMATION_CHARGE_LIMITS = 34,    /* 0x6b102 */
    ROKEMAIPU_EV_INFORMATION_DISCHARGE_LIMITS = 35, /* 0x6b103 */
    ROKEMAIPU_EV_INFORMATION_ENERGY = 36,           /* 0x6b104 */
    ROKEMAIPU_ADM_CO_CUI1_INPUTS = 37,              /* 0x6b200 */
    ROKEMAIPU_ADM_CS_SECC_INPUTS = 38,              /* 0x6b201 */
    ROKEMAIPU_ADM_CS_SPCC_INPUTS = 39,              /* 0x6b202 */
    ROKEMAIPU_CCS_EXTRA_INFORMATION = 40,           /* 0x6b203 */
    ROKEMAIPU_MCS_EXTRA_INFORMATION = 41,           /* 0x6b204 */
    ROKEMAIPU_OCPP_CONTROL = 42                     /* 0x6b300 */
};

/* Kinds of insulation sensors. In a table of your own making every other number counts as measuring. */
enum rokemaipu_sensor {
    ROKEMAIPU_MEASURING = 0, /* finding 9 is under 100 Ohm per volt */
    ROKEMAIPU_YES_NO = 1     /* 255 is Valid, 0 Invalid: finding 9 is 0 and nothing else, at any voltage */
};

/* A post's numbers, in the order in which they are looked up. */
enum rokemaipu_number {
    ROKEMAIPU_CHANNEL = 0,
    ROKEMAIPU_VOLTAGE = 1,   /* the limits, as they were set up */
    ROKEMAIPU_CHARGE = 2,
    ROKEMAIPU_DISCHARGE = 3,
    ROKEMAIPU_SILENCE = 4,
    ROKEMAIPU_SENSOR = 5,
    ROKEMAIPU_HEARD = 6,     /* 1 where a frame or tick was accepted since set-up, else 0 */
    ROKEMAIPU_TIME = 7,      /* the latest accepted one's time, as received, 0 where none was */
    ROKEMAIPU_OPENED = 8,    /* 1 where a session is open, else 0, and 0 in those that follow of it */
    ROKEMAIPU_SINCE = 9,     /* the opening's time, as received */
    ROKEMAIPU_PROTOCOL = 10, /* the first protocol's number and the first plug's, as the page of New_Charge_Session has them */
    ROKEMAIPU_PLUG = 11,
    ROKEMAIPU_SINCE_AGE = 12, /* the opening's age in ms; 0 where no session is open */
    ROKEMAIPU_INTERFACE = 13, /* of rokemaipu_interface, as it was set up */
    ROKEMAIPU_NUMBERS = 14    /* how many they are */
};

/* A post's counts since set-up, in the order in which they are looked up. Place k, 1 to 12, has the accepted frames and ticks that had finding k. */
enum rokemaipu_count {
    ROKEMAIPU_ACCEPTED = 0, /* the accepted frames and ticks */
    ROKEMAIPU_COUNTS = 13   /* how many they are */
};

/* A kept frame's times and its kind, in the order in which they are looked up. */
enum rokemaipu_when {
    ROKEMAIPU_WHEN = 0,      /* its time, as received */
    ROKEMAIPU_WHEN_AGE = 1,  /* its age in ms, as of the post's latest accepted frame or tick; it stops growing at 4,294,967,295 */
    ROKEMAIPU_WHEN_KIND = 2, /* its kind: of ROKEMAIPU_KEPT_CONTROL on a post of the older interface, which of the three messages it is */
    ROKEMAIPU_TIMES = 3      /* how many they are */
};

/* What stands at a byte of a log. */
enum rokemaipu_found {
    ROKEMAIPU_FOUND_RECORD = 0,
    ROKEMAIPU_FOUND_END = 1,  /* the log ends there, behind a whole record */
    ROKEMAIPU_FOUND_PIECE = 2 /* the first bytes of a record, and then the log ends */
};

/* A record's numbers, in the order in which they are read. */
enum rokemaipu_entry {
    ROKEMAIPU_ENTRY_TICK = 0,     /* 1 for a tick, 0 for a frame */
    ROKEMAIPU_ENTRY_TIME = 1,
    ROKEMAIPU_ENTRY_CHANNEL = 2,
    ROKEMAIPU_ENTRY_ID = 3,       /* 0 for a tick, and 0 in EXTENDED and LENGTH */
    ROKEMAIPU_ENTRY_EXTENDED = 4, /* 1 for an extended frame, else 0 */
    ROKEMAIPU_ENTRY_START = 5,    /* the payload is the LENGTH bytes of the log from byte START on */
    ROKEMAIPU_ENTRY_LENGTH = 6,
    ROKEMAIPU_ENTRY_NEXT = 7,     /* the next record's first byte */
    ROKEMAIPU_ENTRY_NUMBERS = 8   /* how many they are */
};

/* ---- the table that you lend: read it as you like, change it through the functions below ----
 *
 * Times are in ms and do not come round, as those that are received do: a post's first accepted frame or tick stands at its own time, each later one so
 * many ms later. The low 32 bits are the time as received.
 *
 * A frame's payload stands in it as a number, byte 0 lowest, as it came; a safety controller's with byte 0 highest. Flags are 0 or 1, and there is
 * no padding: two tables can be compared byte by byte. */

typedef struct rokemaipu_slot { /* 24 bytes: the latest frame of a kind, all 0 where none was accepted */
    uint32_t known;
    uint32_t kind; /* of rokemaipu_kind */
    uint64_t time;
    uint64_t raw;
} rokemaipu_slot;

typedef struct rokemaipu_limits {
    uint32_t voltage;   /* default, tenths of a volt, 1 to 65,535 */
    uint32_t charge;    /* default, tenths of an ampere, 1 to 32,767 */
    uint32_t discharge; /* default, tenths of an ampere, 0 to 32,767 */
    uint32_t silence;   /* W, ms without Power_Modules_Status, 100 to 60,000 */
    uint32_t sensor;    /* of rokemaipu_sensor */
    uint32_t interface; /* of rokemaipu_interface */
} rokemaipu_limits;

/* What a session keeps: the latest of these accepted in it. */
enum rokemaipu_kept {
    ROKEMAIPU_KEPT_STATUS = 0,  /* Power_Modules_Status */
    ROKEMAIPU_KEPT_CONTROL = 1, /* DC_Power_Control; on a post of the older interface Insulation_Test, Precharge or Charging_Loop */
    ROKEMAIPU_KEPT_STOP = 2,    /* Emergency_Stop */
    ROKEMAIPU_KEPT = 3          /* how many they are */
};

typedef struct rokemaipu_session { /* 96 bytes, all 0 where no session is open */
    uint64_t opened;
    uint64_t since;
    uint64_t first; /* the New_Charge_Session that opened it: protocol in byte 0, plug in byte 1 */
    rokemaipu_slot kept[ROKEMAIPU_KEPT];
} rokemaipu_session;

typedef struct rokemaipu_head { /* 240 bytes: what the findings are read from, and the counts */
    uint32_t used; /* set up */
    uint32_t channel;
    rokemaipu_limits limits;
    uint32_t heard; /* a frame or tick was accepted since set-up */
    uint32_t counts[ROKEMAIPU_COUNTS];
    uint64_t time;
    rokemaipu_slot controller; /* the latest Advantics_Controller_Status, as in latest */
    rokemaipu_slot parameters; /* the latest DC_Power_Parameters, or Power_Modules_Limits, as in latest */
    rokemaipu_session session;
} rokemaipu_head;

typedef struct rokemaipu_post { /* 840 bytes */
    rokemaipu_head head;
    rokemaipu_slot latest[ROKEMAIPU_PLACES]; /* kind k, 0 to 11, at place k; 12 to 20 at k - 12; 21 to 29 at k - 9; 30 to 42 at k - 18 */
} rokemaipu_post;

typedef struct rokemaipu_table { /* 13,576 bytes; zeroed memory is the empty table */
    rokemaipu_post posts[ROKEMAIPU_POSTS];
    uint32_t index[ROKEMAIPU_CHANNELS]; /* by channel: 0 where no post holds it, else one more than the number of the post that does */
    uint64_t refused; /* frames and ticks refused since the table was made; it stays at 4,294,967,295 */
} rokemaipu_table;

/* The table's layout as one word: its bytes in the low 32 bits, then its posts and a post's places with 8 bits each, then the number of the
 * layout, which is another one wherever a place in the table means something else. */
#define ROKEMAIPU_LAYOUT ((uint64_t)sizeof(rokemaipu_table) + ((uint64_t)ROKEMAIPU_POSTS << 32) + ((uint64_t)ROKEMAIPU_PLACES << 40) + ((uint64_t)7 << 48))

/* Answers the layout that the library has. Compare it with ROKEMAIPU_LAYOUT before the first call: with another one, no table of this
 * header may be lent. */
uint64_t rokemaipu_layout(void);

/* ---- posts ---- */

/* Makes the table empty, and its counts 0. Answers 0. */
uint32_t rokemaipu_start(rokemaipu_table *t);

/* Sets a post up on a channel, with an empty history; set up again, it leaves its old channel. Answers 0, or refuses with 9, 10, 11, 12; 12 also
 * where sensor is no kind of sensor or interface no interface. The post then reads the pages of its interface. */
uint32_t rokemaipu_set_up(rokemaipu_table *t, uint32_t post, uint32_t channel, uint32_t voltage, uint32_t charge, uint32_t discharge, uint32_t silence, uint32_t sensor, uint32_t interface);

/* Frees the post's channel and drops its record. Answers 0, or refuses with 9, 14. */
uint32_t rokemaipu_release(rokemaipu_table *t, uint32_t post);

/* Watches a frame on the post that holds the channel. Answers the findings, or refuses with 1 to 6, with 29 in 3's place and 15 in 4's, then with
 * 25. */
uint32_t rokemaipu_frame(rokemaipu_table *t, uint32_t channel, uint32_t time, uint32_t id, bool extended, const uint8_t *payload, size_t length);

/* Lets time pass on a channel. Answers the findings, or refuses with 1, 2, then with 25. */
uint32_t rokemaipu_tick(rokemaipu_table *t, uint32_t channel, uint32_t time);

/* Answers the post that holds a channel, which is the one that frames and ticks on it go to: the one that the table's index names, asked whether it does.
 * Refuses with 1. */
uint32_t rokemaipu_holder(const rokemaipu_table *t, uint32_t channel);

/* Looks a post up: puts its numbers into the first ROKEMAIPU_NUMBERS places of numbers, and leaves those behind them. Answers 0.
 * Refuses with 9, 14, then with 8 where numbers has fewer places. */
uint32_t rokemaipu_look_up(const rokemaipu_table *t, uint32_t post, uint32_t *numbers, size_t places);

/* Looks up a post's counts: puts them into the first ROKEMAIPU_COUNTS places of counts, and leaves those behind them. Answers 0. Refuses with 9, 14,
 * then with 8 where counts has fewer places. */
uint32_t rokemaipu_counts(const rokemaipu_table *t, uint32_t post, uint32_t *counts, size_t places);

/* Answers how many frames and ticks were refused since the table was made, whatever was set up or released meanwhile. No other refusal counts, and of a
 * batch only its records. The answer is a count, never a refusal; it stays at 4,294,967,295 once there. */
uint32_t rokemaipu_refused(const rokemaipu_table *t);

/* Looks up the latest frame of a kind that the post accepted since set-up: puts its time as received, its age and its kind into the first ROKEMAIPU_TIMES
 * places of times, and its bytes, as they came, into buffer from index 0 on. Answers its number of bytes; 0 where there is none, also of a kind that the
 * post's interface has not, and then nothing is written, whatever is lent. Refuses with 9, 14, with 3 for a kind above 42, then with 8 where times has fewer
 * places or buffer is shorter than the frame. */
uint32_t rokemaipu_latest(const rokemaipu_table *t, uint32_t post, uint32_t kind, uint32_t *times, size_t places, uint8_t *buffer, size_t room);

/* Looks up likewise, by a number of rokemaipu_kept, the latest frame that was accepted in the open session. Answers as rokemaipu_latest does: 0
 * also where no session is open. Refuses with 9, 14, with 3 for a number above 2, then with 8. */
uint32_t rokemaipu_in_session(const rokemaipu_table *t, uint32_t post, uint32_t part, uint32_t *times, size_t places, uint8_t *buffer, size_t room);

/* ---- frames ---- */

/* Reads a frame by the pages of the newer controllers, documents 000 and 004. Answers its kind, of those of the newer interface, 0 to 11 and 30 to 42, and
 * puts the raw whole numbers of its signals, by the places of rokemaipu_pages.h, into the first ROKEMAIPU_SIGNALS places of raws, with 0 behind them. Refuses
 * with 3, also an identifier that only the older pages have, with 4 or 15, 5, 6, or with 8 where raws has fewer places. */
uint32_t rokemaipu_read(uint32_t id, bool extended, const uint8_t *payload, size_t length, int64_t *raws, size_t places);

/* Writes the frame of a kind of these pages from its signals' raw numbers (ROKEMAIPU_SIGNALS places, those behind the signals are passed over) into
 * buffer, from index 0 on. Answers its number of bytes. Refuses with 7, also where raws has fewer places and a kind that only the older pages have or that is
 * none, then with 8. */
uint32_t rokemaipu_write(uint32_t kind, const int64_t *raws, size_t places, uint8_t *buffer, size_t room);

/* Changes the signal of a frame of these pages that starts at a bit, in place; no other bit changes. Answers 0. Refuses with the frame's own 3, 4 or 15, 5,
 * 6, then with 13, 7, and 5 for the new label, with the start bit of the changed signal. */
uint32_t rokemaipu_change(uint32_t id, bool extended, uint8_t *payload, size_t length, uint32_t start, int64_t raw);

/* Reads a frame by the pages of the older controllers, documents 001 and 004, as rokemaipu_read does by the newer ones'. Their kinds are those of
 * the older interface, 9 to 29. Refuses with 3 also an identifier that only the newer pages have. */
uint32_t rokemaipu_read_older(uint32_t id, bool extended, const uint8_t *payload, size_t length, int64_t *raws, size_t places);

/* Writes the frame of a kind of these pages likewise. Refuses with 7 also a kind that only the newer pages have or that is none. */
uint32_t rokemaipu_write_older(uint32_t kind, const int64_t *raws, size_t places, uint8_t *buffer, size_t room);

/* Changes a signal of a frame of these pages likewise. */
uint32_t rokemaipu_change_older(uint32_t id, bool extended, uint8_t *payload, size_t length, uint32_t start, int64_t raw);

/* ---- for the service screen: what is no part of a message */

/* Whether a probe is used, by its raw number: only 8,191 says that it is not. */
bool rokemaipu_probe_used(int16_t raw);

/* Its degrees Celsius: the raw number divided by ten, rounded once to the nearest float; 0 of a probe that is not used. */
float rokemaipu_probe_degrees(int16_t raw);

/* A duty's raw number, held to 1,000, which is 100.0 %. The message keeps what was sent. */
uint16_t rokemaipu_limited_duty(uint16_t raw);

/* ---- the night log ----
 *
 * A log is the bytes of its records, one after the other. Log first, then watch: whatever the log can hold is logged, refused by the
 * watch or not. Append what the writer put into the buffer, as many bytes as it answered:
 *
 *     uint8_t record[ROKEMAIPU_RECORD_BYTES];
 *     uint32_t n = rokemaipu_log_frame(time, channel, id, extended, payload, length, record, sizeof record);
 *     if (!rokemaipu_refusal(n)) write(file, record, n);
 *     uint32_t answer = rokemaipu_frame(&table, channel, time, id, extended, payload, length);
 *
 * Read it back record by record:
 *
 *     uint64_t e[ROKEMAIPU_ENTRY_NUMBERS];
 *     size_t at = 0;
 *     uint32_t found;
 *     while ((found = rokemaipu_log_record(log, size, at, e, ROKEMAIPU_ENTRY_NUMBERS)) == ROKEMAIPU_FOUND_RECORD) {
 *         if (e[ROKEMAIPU_ENTRY_TICK])
 *             rokemaipu_tick(&table, e[ROKEMAIPU_ENTRY_CHANNEL], e[ROKEMAIPU_ENTRY_TIME]);
 *         else
 *             rokemaipu_frame(&table, e[ROKEMAIPU_ENTRY_CHANNEL], e[ROKEMAIPU_ENTRY_TIME], e[ROKEMAIPU_ENTRY_ID],
 *                             e[ROKEMAIPU_ENTRY_EXTENDED], log + e[ROKEMAIPU_ENTRY_START], e[ROKEMAIPU_ENTRY_LENGTH]);
 *         at = e[ROKEMAIPU_ENTRY_NEXT];
 *     }
 *
 * Behind the loop found is ROKEMAIPU_FOUND_END; or ROKEMAIPU_FOUND_PIECE after a pulled plug: truncate the log to at bytes, the piece's
 * first, and go on logging there; or a refusal: the record that begins at byte at is malformed, and nothing behind it can be told.
 * Different records never have the same bytes, and a log cut after any byte reads as the records wholly before the cut. */

/* Writes the record of a frame into buffer, from index 0 on. Answers its number of bytes. Refuses with 17, 18, 19, 20, then with 8 where
 * the record is longer than the buffer; ROKEMAIPU_RECORD_BYTES are always enough. */
uint32_t rokemaipu_log_frame(uint32_t time, uint32_t channel, uint32_t id, bool extended, const uint8_t *payload, size_t length, uint8_t *buffer, size_t room);

/* Writes the record of a tick likewise. Refuses with 17, then with 8. */
uint32_t rokemaipu_log_tick(uint32_t time, uint32_t channel, uint8_t *buffer, size_t room);

/* Reads what stands at byte at of a log. Answers ROKEMAIPU_FOUND_RECORD, and puts the record's numbers into the first
 * ROKEMAIPU_ENTRY_NUMBERS places of numbers, and leaves those behind them; or ROKEMAIPU_FOUND_END, also for a byte behind the end; or
 * ROKEMAIPU_FOUND_PIECE. Refuses with 16 to 21 by the earliest bad part, also where the log is cut after that part; then, for a record, with
 * 8 where numbers has fewer places. Every answer but the first leaves numbers as it was. */
uint32_t rokemaipu_log_record(const uint8_t *log, size_t size, size_t at, uint64_t *numbers, size_t places);

/* ---- a batch in one call ---- */

/* Takes up to ROKEMAIPU_BATCH_BYTES bytes of whole log records and feeds each in order, as rokemaipu_frame and rokemaipu_tick would: the answer
 * of record k, that of its single call, goes to answers[k]: its findings, or 65,536 plus the number of its refusal, and of 5 plus 256 times the
 * start bit. Answers how many records there were; the places behind them stay as they were. No bytes are no records, and answer 0.
 * Refuses the whole batch with 22 where there are more bytes, with 23 where a record is malformed or cut, with 24 where answers has fewer
 * places than there are records, judged in this order; then neither the table nor answers is changed. That the watch refuses a record
 * refuses no batch. A place for each byte is always enough: a record has four bytes at least. */
uint32_t rokemaipu_batch(rokemaipu_table *t, const uint8_t *records, size_t length, uint32_t *answers, size_t places);

/* ---- two recordings compared ----
 *
 *     uint32_t first[ROKEMAIPU_COMPARE_RECORDS], second[ROKEMAIPU_COMPARE_RECORDS], places[ROKEMAIPU_CHANNELS];
 *     uint64_t n[ROKEMAIPU_COMPARED_NUMBERS];
 *     uint32_t answer = rokemaipu_compare(a, size_a, b, size_b, first, ROKEMAIPU_COMPARE_RECORDS, second, ROKEMAIPU_COMPARE_RECORDS,
 *                                         places, ROKEMAIPU_CHANNELS, n, ROKEMAIPU_COMPARED_NUMBERS);
 *     if (rokemaipu_refusal(answer)) ..                       n[0] is the side, 1 or 2, and n[1] of 26 the byte
 *     else for (size_t k = 0; k < n[0]; k++) ..               record first[k] of a, counted from 1, is not in b */

/* What a comparison tells beside its word. */
enum rokemaipu_compared {
    ROKEMAIPU_COMPARED_FIRST = 0,  /* how many records of the first log are listed; refused, the side: 1, 2, or 0 of refusal 8 */
    ROKEMAIPU_COMPARED_SECOND = 1, /* how many of the second; refused with 26, the byte where the malformed or cut record begins, else 0 */
    ROKEMAIPU_COMPARED_NUMBERS = 2 /* how many they are */
};

/* Compares two logs, of any length in bytes. Puts into first the numbers of the records that the first log has and the second has not, counting
 * repeats, and into second those of the other way round: from 1 in that log's order over all channels, ascending, of repeats the later ones. Puts
 * into places[c] the first place, from 1 within channel c, where the two sequences of channel c differ (the place after the shorter, if that one
 * only ends), and 0 where they are the same, for each of the ROKEMAIPU_CHANNELS channels. Records are the same only in all parts. Answers 0, with
 * the two counts in numbers; the places behind what was found stay as they were.
 * Refuses with 8 where numbers has fewer than ROKEMAIPU_COMPARED_NUMBERS places, before anything else, and nothing is written. Then with 26 a log
 * with a malformed or cut record, however many stand before it; then with 27 a log of more than ROKEMAIPU_COMPARE_RECORDS records; then with 28 a
 * list of fewer than ROKEMAIPU_COMPARE_RECORDS places; each of them for the first log before the second; at last with 8 fewer than ROKEMAIPU_CHANNELS
 * places. Then side and byte are in numbers, and all else is as it was. About 17 KB of stack are used. */
uint32_t rokemaipu_compare(const uint8_t *a, size_t size_a, const uint8_t *b, size_t size_b, uint32_t *first, size_t room_first, uint32_t *second, size_t room_second, uint32_t *places, size_t channels, uint64_t *numbers, size_t two);

/* ---- replay of a night log: a line for each record, one a call ----
 *
 *     static rokemaipu_replay r;
 *     char line[ROKEMAIPU_LINE_BYTES];
 *     uint64_t at = 0;
 *     uint32_t n;
 *     rokemaipu_replay_set_up(&r, 0, 2, 5000, 1000, 500, 500, ROKEMAIPU_MEASURING, ROKEMAIPU_NEWER);
 *     while ((n = rokemaipu_replay_line(&r, log, size, at, (uint8_t *)line, sizeof line, &at, 1)) >= 3 && !rokemaipu_refusal(n))
 *         fwrite(line, 1, n, stdout);
 *
 * A line is the record's count from 1, the post that holds its channel (a dash for refusal 1), then A with the decimal finding number or R with the
 * refusal, one space between; refusal 5 adds a space and the start bit; and a line feed: "1 0 A0", "2 - R1", "3 0 R5 48". */

typedef struct rokemaipu_replay { /* 13,592 bytes; zeroed memory is a replay that was just started */
    rokemaipu_table table; /* look posts up in it as you like */
    uint64_t count;        /* of the records fed so far */
    uint64_t course;       /* 0: set-ups may come; 1: records were fed; else a set-up was refused, with this word */
} rokemaipu_replay;

/* Starts anew, with no post set up and no record fed. Answers 0. */
uint32_t rokemaipu_replay_start(rokemaipu_replay *r);

/* Sets a post up, as rokemaipu_set_up does. A refused one ends the replay: it and every later call are refused with its number, 9 to 12.
 * Answers 0; or 1 where a record was fed before, and nothing is changed. */
uint32_t rokemaipu_replay_set_up(rokemaipu_replay *r, uint32_t post, uint32_t channel, uint32_t voltage, uint32_t charge, uint32_t discharge, uint32_t silence, uint32_t sensor, uint32_t interface);

/* Feeds the record at byte at of a log to the table, puts its line into line, from index 0 on, and the next record's first byte into next[0]. Answers
 * the line's number of bytes, 3 at least; 0 at the log's end; 1 where only a piece of a record is left. Refuses with 8 where line has fewer than
 * ROKEMAIPU_LINE_BYTES or next no place, before anything else; then with the number of the set-up that ended the replay; then with 16 to 21
 * where the record is malformed. Every answer but a line leaves the replay and the lent memory as they were. */
uint32_t rokemaipu_replay_line(rokemaipu_replay *r, const uint8_t *log, size_t size, size_t at, uint8_t *line, size_t room, uint64_t *next, size_t places);

/* ---- the layout that the library was proved and built with: a compiler that lays a table out otherwise refuses this header */

#if defined __cplusplus
#define ROKEMAIPU_IS(what, bytes) static_assert((what) == (bytes), #what " is not " #bytes)
#elif defined __STDC_VERSION__ && __STDC_VERSION__ >= 201112L
#define ROKEMAIPU_IS(what, bytes) _Static_assert((what) == (bytes), #what " is not " #bytes)
#else
#define ROKEMAIPU_IS(what, bytes) extern int rokemaipu_is[(what) == (bytes) ? 1 : -1]
#endif

ROKEMAIPU_IS(sizeof(bool), 1);
ROKEMAIPU_IS(sizeof(size_t), 8);
ROKEMAIPU_IS(sizeof(rokemaipu_slot), 24);
ROKEMAIPU_IS(offsetof(rokemaipu_slot, known), 0);
ROKEMAIPU_IS(offsetof(rokemaipu_slot, kind), 4);
ROKEMAIPU_IS(offsetof(rokemaipu_slot, time), 8);
ROKEMAIPU_IS(offsetof(rokemaipu_slot, raw), 16);
ROKEMAIPU_IS(sizeof(rokemaipu_limits), 24);
ROKEMAIPU_IS(offsetof(rokemaipu_limits, voltage), 0);
ROKEMAIPU_IS(offsetof(rokemaipu_limits, charge), 4);
ROKEMAIPU_IS(offsetof(rokemaipu_limits, discharge), 8);
ROKEMAIPU_IS(offsetof(rokemaipu_limits, silence), 12);
ROKEMAIPU_IS(offsetof(rokemaipu_limits, sensor), 16);
ROKEMAIPU_IS(offsetof(rokemaipu_limits, interface), 20);
ROKEMAIPU_IS(sizeof(rokemaipu_session), 96);
ROKEMAIPU_IS(offsetof(rokemaipu_session, opened), 0);
ROKEMAIPU_IS(offsetof(rokemaipu_session, since), 8);
ROKEMAIPU_IS(offsetof(rokemaipu_session, first), 16);
ROKEMAIPU_IS(offsetof(rokemaipu_session, kept), 24);
ROKEMAIPU_IS(sizeof(rokemaipu_head), 240);
ROKEMAIPU_IS(offsetof(rokemaipu_head, used), 0);
ROKEMAIPU_IS(offsetof(rokemaipu_head, channel), 4);
ROKEMAIPU_IS(offsetof(rokemaipu_head, limits), 8);
ROKEMAIPU_IS(offsetof(rokemaipu_head, heard), 32);
ROKEMAIPU_IS(offsetof(rokemaipu_head, counts), 36);
ROKEMAIPU_IS(offsetof(rokemaipu_head, time), 88);
ROKEMAIPU_IS(offsetof(rokemaipu_head, controller), 96);
ROKEMAIPU_IS(offsetof(rokemaipu_head, parameters), 120);
ROKEMAIPU_IS(offsetof(rokemaipu_head, session), 144);
ROKEMAIPU_IS(ROKEMAIPU_COUNTS, 13); /* a head of 12 has the same bytes */
ROKEMAIPU_IS(sizeof(rokemaipu_post), 840);
ROKEMAIPU_IS(offsetof(rokemaipu_post, head), 0);
ROKEMAIPU_IS(offsetof(rokemaipu_post, latest), 240);
ROKEMAIPU_IS(sizeof(rokemaipu_table), 13576);
ROKEMAIPU_IS(offsetof(rokemaipu_table, posts), 0);
ROKEMAIPU_IS(offsetof(rokemaipu_table, index), 13440);
ROKEMAIPU_IS(offsetof(rokemaipu_table, refused), 13568);
ROKEMAIPU_IS(ROKEMAIPU_CHANNELS, 32); /* an index of 31 has the same bytes */
ROKEMAIPU_IS(sizeof(rokemaipu_replay), 13592);
ROKEMAIPU_IS(offsetof(rokemaipu_replay, table), 0);
ROKEMAIPU_IS(offsetof(rokemaipu_replay, count), 13576);
ROKEMAIPU_IS(offsetof(rokemaipu_replay, course), 13584);

#ifdef __cplusplus
}
#endif

#endif

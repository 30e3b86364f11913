/*
 * NGT-1 framing (messages into frames, bytes into events), N2K records, Format 2 lists and the start-up session.
 * Links with libngt1_session.a, which has the functions ngt1_session_.., and libngt1.a, which has the others; a program that has no
 * session links libngt1.a alone.
 *
 * One convention for every function:
 *   - A slice is a pointer and a length in elements. The pointer is not NULL and has as many elements as the length says,
 *     and a slice that a function may write overlaps no other slice of the call.
 *   - Results go into the first places of `answer`. Where `answer` has fewer places than the function needs, nothing at all
 *     is done, no lent byte changes, and 0 is returned; else 1 is returned. Places after those named keep their contents.
 *   - No function keeps anything between calls: a decoder is a phase, a count and a buffer, which the caller keeps, and the
 *     parts of a Format 2 read are a value that goes in and comes back. A session stands in the caller's memory, and a call
 *     changes there what it changes; its functions answer by value.
 */
#ifndef NGT1_H
#define NGT1_H

#include <stdbool.h>
#include <stddef.h>
#include <stdint.h>

#ifdef __cplusplus
extern "C" {
#endif

/* Places that an answer needs. */
#define NGT1_ENCODE_ANSWER 3
#define NGT1_FEED_ANSWER 6
#define NGT1_PUSH_ANSWER 5
#define NGT1_RECORD_ANSWER 8

/* Limits, in bytes. */
#define NGT1_MAX_PAYLOAD 255 /* of a message */
#define NGT1_MAX_FRAME 520   /* no frame is longer */
#define NGT1_BUFFER 1024     /* a decoder's buffer, at least */

/* Limits, in PGNs. */
#define NGT1_MAX_LISTED 767 /* no Format 2 list is longer */
#define NGT1_MAX_WANTED 64  /* of a session */

/* Phases of a decoder. A new decoder has phase NGT1_IDLE and count 0. */
#define NGT1_IDLE 0
#define NGT1_IN_FRAME 1
#define NGT1_ESCAPE_OUTSIDE 2
#define NGT1_ESCAPE_INSIDE 3

/* Kinds of an event, with its two values; a value that is not named is 0. */
#define NGT1_NOTHING 0
#define NGT1_SHORT_MESSAGE 1   /* error: fewer than 3 bytes in the frame */
#define NGT1_BAD_CHECKSUM 2    /* error: the bytes do not add up to 0 modulo 256 */
#define NGT1_LENGTH_MISMATCH 3 /* error: first = declared length, second = actual length */
#define NGT1_BAD_ESCAPE 4      /* error: first = the byte after the DLE */
#define NGT1_TOO_LONG 5        /* error: more than 1024 bytes in a frame */
#define NGT1_MESSAGE 100       /* first = command, second = payload length */

/* Refusals. They change no state and no lent byte. */
#define NGT1_OVER_LIMIT 6   /* encode: the payload is over 255 bytes; session: the message is */
#define NGT1_NO_ROOM 7      /* encode: out is under the frame's length; decoder: the buffer is under 1024 bytes;
                               list: out is under 767; session: out is under 32 bytes */
#define NGT1_TOO_SHORT 8    /* record: the payload is under 11 bytes */
#define NGT1_NO_RECORD 9    /* record: the command is not 93 */
#define NGT1_DATA_PAST 10   /* record: the data pass the payload's end */
#define NGT1_OVER_WANTED 11 /* session: over 64 PGNs are wanted */
#define NGT1_OVER_RECORD 12 /* session: a list of the record is over 192 */
#define NGT1_TIME_OVER 13   /* session: the time is over 18446744073709541615 */
#define NGT1_OVER_LIST 14   /* session: the Format 1 list would pass 1024 */
#define NGT1_NOT_FORMED 16  /* decoder: the count is over 1024, or the phase over 3; list: the proprietary count is over 512;
                               session: the phase is over 7, or its counts are none that a session can have */

/* What there is of a Format 2 list, beside 0 and the refusals. */
#define NGT1_PARTIAL 101 /* not all three parts are in hand */

/*
 * Wraps a message in a frame at the start of out; bytes of out after the frame are kept.
 *   answer[0]  0, or the refusal's number (6, then 7)
 *   answer[1]  bytes written, 0 on a refusal
 *   answer[2]  how many of them double a DLE, 0 on a refusal
 */
uint64_t ngt1_encode(uint8_t cmd, const uint8_t *payload, size_t payload_len, uint8_t *out, size_t out_len,
                     uint64_t *answer, size_t answer_len);

/*
 * Feeds bytes up to and with the one that gives the first event. The caller goes on after the bytes used.
 *   answer[0]  phase after
 *   answer[1]  count after
 *   answer[2]  bytes used: all where there was no event; none where a byte was refused
 *   answer[3]  kind: 0, 100, an error 1 to 5, or a refusal (16, then 7)
 *   answer[4]  first value
 *   answer[5]  second value
 * At a message the payload is buf[2 .. 2 + answer[5]], which lies inside buf, until the buffer is used again.
 * Where the phase is over 3, phase and count are handed back as they were given, with kind 16.
 * Where there is no byte and the phase is 3 or less, nothing is tested: kind 0.
 */
uint64_t ngt1_feed(uint8_t phase, size_t count, uint8_t *buf, size_t buf_len, const uint8_t *bytes, size_t bytes_len,
                   uint64_t *answer, size_t answer_len);

/*
 * Feeds one byte.
 *   answer[0]  phase after
 *   answer[1]  count after
 *   answer[2]  kind, as above
 *   answer[3]  first value
 *   answer[4]  second value
 * At a message the payload is buf[2 .. 2 + answer[4]].
 */
uint64_t ngt1_push(uint8_t phase, size_t count, uint8_t *buf, size_t buf_len, uint8_t b, uint64_t *answer,
                   size_t answer_len);

/*
 * Reads the payload of a message 93, an N2K frame off the bus.
 *   answer[0]  0, or the refusal's number (9, then 8, then 10), with zeros after it
 *   answer[1]  timestamp, the gateway's, in milliseconds
 *   answer[2]  priority
 *   answer[3]  PGN
 *   answer[4]  source
 *   answer[5]  destination
 *   answer[6]  where the data start in the payload: 11
 *   answer[7]  how many bytes they are; they lie inside the payload, whose bytes after them are ignored
 */
uint64_t ngt1_record(uint8_t command, const uint8_t *payload, size_t payload_len, uint64_t *answer, size_t answer_len);

/* The parts of a Format 2 read: a value that goes in and comes back. Start from ngt1_parts_new, and write none of the fields. */
typedef struct {
    bool filled;
    uint8_t index;
    uint32_t pgn;
} ngt1_supported_entry;

typedef struct {
    bool sized;
    uint8_t size;
    ngt1_supported_entry entries[255];
} ngt1_supported_parts;

typedef struct {
    bool filled;
    uint8_t index;
} ngt1_enabled_entry;

typedef struct {
    bool sized;
    uint8_t size;
    ngt1_enabled_entry entries[255];
} ngt1_enabled_parts;

typedef struct {
    uint32_t pgns[512];
    size_t n;
} ngt1_list_512;

typedef struct {
    bool told;
    ngt1_list_512 list;
} ngt1_proprietary;

typedef struct {
    ngt1_supported_parts supported;
    ngt1_enabled_parts enabled;
    ngt1_proprietary proprietary;
} ngt1_parts;

/* No part yet. */
ngt1_parts ngt1_parts_new(void);

/* Takes in the data of a reply 40, or 4F: what stands after the reply's 12 bytes of header. Other data change nothing. */
ngt1_parts ngt1_parts_supported(ngt1_parts parts, const uint8_t *data, size_t data_len);
ngt1_parts ngt1_parts_enabled(ngt1_parts parts, const uint8_t *data, size_t data_len);

/* number: 0, NGT1_PARTIAL, or a refusal (16, then 7); count: how many PGNs the list has, 0 where number is not 0. */
typedef struct {
    uint64_t number;
    uint64_t count;
} ngt1_listed;

/* Writes the PGNs of the list at the start of out, once all three parts are in hand; what stands after them is kept. */
ngt1_listed ngt1_parts_pgns(ngt1_parts parts, uint32_t *out, size_t out_len);

/*
 * A start-up session: has the gateway transmit the PGNs that are wanted. Times are milliseconds of a clock that is not set back.
 * Set all of it to 0 once, then call ngt1_session_begin. Give it the gateway's messages (ngt1_session_hear) and ticks, and send
 * what they write, until its phase is NGT1_SESSION_DONE. Later sessions go on in the same memory and keep what was learnt.
 *
 * The numbers; read them, write none. A count says how many places at the start of the array of that name are in use.
 *   0   phase, NGT1_SESSION_..
 *   1   attempt of the read, from 1, in phases 2 and 3; else 0
 *   2   count of wanted
 *   3   count of owed, in phase 4: PGNs whose enable command is to be answered, the oldest first
 *   4   count of fresh, in phases 4 to 6: PGNs newly enabled, which go to saved when activate is answered
 *   5   count of list: the Format 1 list as far as it was read
 *   6   how many proprietary PGNs are in hand, in phase 3 where number 16 is 0
 *   7   count of known, 0 where no list is known
 *   8   count of saved, 9 of present, 10 of refused: the record
 *   11  due time, in phases 1 to 6: a tick at or after it acts
 *   12  1 where a list is known, else 0; 13  1 where it was read whole (Format 2), else 0
 *   14  1 where the firmware was told, else 0; 15  its version times 1000, where 14 is 1
 *   16  1 where no part of Format 2 is in hand, else 0
 * A number with phases says nothing in the others.
 */
typedef struct {
    uint64_t numbers[17];
    uint32_t wanted[64];
    uint32_t owed[64];
    uint32_t fresh[64];
    uint32_t list[1024];
    uint32_t known[1344];   /* the gateway's list, with what is present or was enabled since */
    uint32_t saved[256];    /* what the gateway confirmed as saved, */
    uint32_t present[256];  /* as already there, */
    uint32_t refused[256];  /* and what it refused */
    ngt1_parts parts;
} ngt1_session;

/* Phases of a session. */
#define NGT1_SESSION_AWAITS_MODE 0 /* the gateway tells its mode (reply 11) when it has started */
#define NGT1_SESSION_WAITS 1       /* 2000 ms, then the list is read */
#define NGT1_SESSION_READS_F1 2
#define NGT1_SESSION_READS_F2 3
#define NGT1_SESSION_ENABLES 4     /* the PGNs owed, one after the other */
#define NGT1_SESSION_COMMITS 5
#define NGT1_SESSION_ACTIVATES 6
#define NGT1_SESSION_DONE 7

#define NGT1_MAX_SENT 32 /* a session's output, at least, whatever is to be sent */
#define NGT1_MAX_TIME UINT64_C(18446744073709541615) /* no time is later */

/*
 * number: 0, a refusal, or 100 from the function that a message is not for (below); count: how many bytes there are to send, at the
 * start of out; parts: to be kept in the session, whatever the number.
 */
typedef struct {
    uint64_t number;
    uint64_t count;
} ngt1_answer;

typedef struct {
    uint64_t number;
    uint64_t count;
    ngt1_parts parts;
} ngt1_part_answer;

/*
 * A session that wants these PGNs. It keeps the record: saved, present and refused, and their counts; of the other numbers 2 is how
 * many are wanted, 16 is 1, and all others are 0. Answers 0, or 16 (only for a phase over 7), 11, 12.
 */
uint64_t ngt1_session_begin(uint64_t numbers[17], uint32_t wanted[64], const uint32_t *want, size_t want_len);

/*
 * The session from its start, as after a restart of the gateway. It keeps what is wanted and the record; no list is known, and
 * the firmware is not told. Answers 0, or 16, 12.
 */
uint64_t ngt1_session_restart(uint64_t numbers[17]);

/*
 * The gateway's firmware version times 1000, from its product information. Where 2500 or more is told before the read starts, Format
 * 2 is read first; else Format 1. Answers 0, or 16.
 */
uint64_t ngt1_session_firmware(uint64_t numbers[17], uint16_t version);

/* The gateway has no list to set: the session is done, and no list is known. Answers 0, or 16. */
uint64_t ngt1_session_abandon(uint64_t numbers[17]);

/* The passing of time. Refusals: 16, 13, 7. */
ngt1_answer ngt1_session_tick(uint64_t numbers[17], uint64_t time, uint8_t *out, size_t out_len);

/*
 * What the list says of a PGN: 0 nothing, it is on the list or no list is known (see number 12); 1 it lacks from a whole list; 2 it
 * lacks from a list that may have missed it (Format 1); or 16.
 */
uint64_t ngt1_session_lacks(const uint64_t numbers[17], const uint32_t known[1344], uint32_t pgn);

/*
 * A message of the gateway: use ngt1_session_hear below, which calls these. room is the length of the output.
 *   ignores  true: the message would change nothing; false says nothing
 *   add      true: it was PGNs more of a Format 1 list, and all is done; false: nothing was done
 *   message  in every phase but the reading of Format 2, part in that phase; the other answers 100 and does nothing
 * Refusals: 16, 13, 6, 7, 14.
 */
bool ngt1_session_ignores(const uint64_t numbers[17], uint64_t time, const uint8_t *payload, size_t payload_len, size_t room);
bool ngt1_session_add(uint64_t numbers[17], uint32_t list[1024], uint64_t time, const uint8_t *payload, size_t payload_len, size_t room);
ngt1_answer ngt1_session_message(uint64_t numbers[17], uint32_t wanted[64], uint32_t owed[64], uint32_t fresh[64],
                                 uint32_t list[1024], uint32_t known[1344], uint32_t saved[256], uint32_t present[256],
                                 uint32_t refused[256], uint64_t time, const uint8_t *payload, size_t payload_len,
                                 uint8_t *out, size_t out_len);
ngt1_part_answer ngt1_session_part(uint64_t numbers[17], ngt1_parts parts, uint32_t wanted[64], uint32_t owed[64],
                                   uint32_t known[1344], uint32_t present[256], uint32_t refused[256], uint64_t time,
                                   const uint8_t *payload, size_t payload_len, uint8_t *out, size_t out_len);

/* The payload of a message A0 of the gateway. */
static inline ngt1_answer ngt1_session_hear(ngt1_session *s, uint64_t time, const uint8_t *payload, size_t payload_len,
                                            uint8_t *out, size_t out_len)
{
    ngt1_answer none = { 0, 0 };
    if (s->numbers[0] == NGT1_SESSION_READS_F1 && ngt1_session_add(s->numbers, s->list, time, payload, payload_len, out_len))
        return none;
    if (ngt1_session_ignores(s->numbers, time, payload, payload_len, out_len))
        return none;
    if (s->numbers[0] == NGT1_SESSION_READS_F2) {
        ngt1_part_answer a = ngt1_session_part(s->numbers, s->parts, s->wanted, s->owed, s->known, s->present, s->refused, time,
                                               payload, payload_len, out, out_len);
        s->parts = a.parts;
        none.number = a.number;
        none.count = a.count;
        return none;
    }
    return ngt1_session_message(s->numbers, s->wanted, s->owed, s->fresh, s->list, s->known, s->saved, s->present, s->refused, time,
                                payload, payload_len, out, out_len);
}

#ifdef __cplusplus
}
#endif

#endif

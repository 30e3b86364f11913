/* Encodes A1 41, feeds the frame and a damaged copy of it in two pieces, and prints the events; then reads a record and a
 * Format 2 list, and has two gateways transmit PGN 126983. Exit status 1: not as expected. */
#include "ngt1.h"
#include "check.h"

struct decoder {
    uint8_t phase;
    size_t count;
    uint8_t buf[NGT1_BUFFER];
};

static struct decoder decoder; /* phase NGT1_IDLE, count 0 */

/* the events met: kind, first, second */
static uint64_t events[8][3];
static size_t events_len = 0;

static void feed(const uint8_t *bytes, size_t len)
{
    uint64_t a[NGT1_FEED_ANSWER];
    size_t at = 0, i;
    while (at < len) {
        expect(ngt1_feed(decoder.phase, decoder.count, decoder.buf, sizeof decoder.buf, bytes + at, len - at, a, NGT1_FEED_ANSWER) == 1, "feed");
        decoder.phase = (uint8_t)a[0];
        decoder.count = (size_t)a[1];
        at += (size_t)a[2];
        if (a[3] == NGT1_NOTHING)
            continue;
        if (events_len < 8)
            memcpy(events[events_len++], a + 3, sizeof events[0]);
        if (a[3] == NGT1_MESSAGE) {
            printf("message, command %02x, payload", (unsigned)a[4]);
            for (i = 0; i < a[5]; i++)
                printf(" %02x", decoder.buf[2 + i]);
            printf("\n");
            expect(a[5] == 1 && decoder.buf[2] == 0x41, "payload");
        } else {
            printf("error %u\n", (unsigned)a[3]);
        }
        if (a[3] == NGT1_NO_ROOM || a[3] == NGT1_NOT_FORMED)
            return;
    }
}

static void expect_event(size_t i, uint64_t kind, uint64_t first, uint64_t second)
{
    expect(i < events_len && events[i][0] == kind && events[i][1] == first && events[i][2] == second, "event");
}

/* the same bytes one by one: the events are the same */
static void push_all(const uint8_t *bytes, size_t len)
{
    uint64_t a[NGT1_PUSH_ANSWER];
    struct decoder d = { NGT1_IDLE, 0, { 0 } };
    size_t i, n = 0;
    for (i = 0; i < len; i++) {
        expect(ngt1_push(d.phase, d.count, d.buf, sizeof d.buf, bytes[i], a, NGT1_PUSH_ANSWER) == 1, "push");
        d.phase = (uint8_t)a[0];
        d.count = (size_t)a[1];
        if (a[2] != NGT1_NOTHING)
            expect(n < events_len && memcmp(events[n++], a + 2, sizeof events[0]) == 0, "push and feed agree");
    }
    expect(n == events_len, "as many events");
}

/* refusals, and an answer that is too short */
static void refusals(void)
{
    static const uint8_t payload[256] = { 0 };
    uint8_t out[NGT1_MAX_FRAME] = { 0 };
    uint64_t a[NGT1_FEED_ANSWER] = { 9, 9, 9, 9, 9, 9 };
    expect(ngt1_encode(0xA1, payload, 1, out, sizeof out, a, 2) == 0 && a[0] == 9 && out[0] == 0, "answer too short");
    expect(ngt1_encode(0xA1, payload, 256, out, sizeof out, a, 6) == 1 && a[0] == NGT1_OVER_LIMIT, "refusal 6");
    expect(ngt1_encode(0xA1, payload, 1, out, 7, a, 6) == 1 && a[0] == NGT1_NO_ROOM && out[0] == 0, "refusal 7");
    expect(a[1] == 0 && a[2] == 0 && a[3] == 9, "numbers of a refusal");
    expect(ngt1_feed(4, 5, out, sizeof out, payload, 1, a, 6) == 1 && a[0] == 4 && a[1] == 5 && a[2] == 0 && a[3] == NGT1_NOT_FORMED, "refusal 16");
    expect(ngt1_push(0, 0, out, sizeof out, 0x10, a, 6) == 1 && a[0] == 0 && a[2] == NGT1_NO_ROOM, "buffer too short");
}

/* a record of PGN 126983 from 33 to everyone, with a byte after its data */
static void records(void)
{
    static const uint8_t payload[] = { 2, 0x07, 0xF0, 0x01, 255, 33, 1, 2, 0, 0, 2, 0xAA, 0xBB, 0xCC };
    static const uint64_t want[] = { 0, 513, 2, 126983, 33, 255, 11, 2 };
    uint64_t a[NGT1_RECORD_ANSWER] = { 9, 9, 9, 9, 9, 9, 9, 9 };
    expect(ngt1_record(0x93, payload, sizeof payload, a, 7) == 0 && a[0] == 9, "answer of seven places");
    expect(ngt1_record(0x93, payload, sizeof payload, a, 8) == 1 && memcmp(a, want, sizeof want) == 0, "record");
    expect(ngt1_record(0xA0, payload, sizeof payload, a, 8) == 1 && a[0] == NGT1_NO_RECORD && a[6] == 0, "refusal 9");
    expect(ngt1_record(0x93, payload, 10, a, 8) == 1 && a[0] == NGT1_TOO_SHORT, "refusal 8");
    expect(ngt1_record(0x93, payload, 12, a, 8) == 1 && a[0] == NGT1_DATA_PAST && a[7] == 0, "refusal 10");
}

/* supported PGNs 126983 (index 7) and 126993 (index 9), of which 9 is enabled, and the proprietary PGN 65281 */
static void lists(void)
{
    static const uint8_t supported[] = { 0, 0, 0x11, 0, 0, 0, 0, 2, 0, 2, 7, 0x07, 0xF0, 1, 9, 0x11, 0xF0, 1 };
    static const uint8_t enabled[] = { 0, 2, 0x11, 0, 0, 1, 0, 1, 9, 6, 0, 0 };
    static const uint8_t proprietary[] = { 0, 3, 0x11, 0, 0, 1, 2, 0 };
    static uint32_t out[NGT1_MAX_LISTED];
    ngt1_parts parts = ngt1_parts_new();
    ngt1_listed l;
    parts = ngt1_parts_supported(parts, supported, sizeof supported);
    parts = ngt1_parts_enabled(parts, enabled, sizeof enabled);
    expect(ngt1_parts_pgns(parts, out, NGT1_MAX_LISTED).number == NGT1_PARTIAL, "two parts of three");
    parts = ngt1_parts_enabled(parts, proprietary, sizeof proprietary);
    expect(ngt1_parts_pgns(parts, out, NGT1_MAX_LISTED - 1).number == NGT1_NO_ROOM && out[0] == 0, "room of 766");
    l = ngt1_parts_pgns(parts, out, NGT1_MAX_LISTED);
    expect(l.number == 0 && l.count == 2 && out[0] == 126993 && out[1] == 65281 && out[2] == 0, "Format 2 list");
}

static ngt1_session session; /* all 0 */
static uint8_t sent[NGT1_MAX_SENT];

/* a reply of the gateway with no error; how many bytes the session sends, or 1000 and the refusal's number */
static uint64_t hear(uint8_t bem, uint8_t sequence, const uint8_t *data, size_t len, uint64_t time)
{
    uint8_t payload[255];
    ngt1_answer a = ngt1_session_hear(&session, time, payload, reply(payload, bem, sequence, 0, data, len), sent, sizeof sent);
    return a.number == 0 ? a.count : 1000 + a.number;
}

/* the answers to enable, commit and activate: 126983 is enabled and saved */
static void saves(uint64_t time)
{
    static const uint8_t none[14] = { 0 };
    expect(sent[0] == 0x10 && sent[4] == 0x47, "enable is sent");
    expect(hear(0x47, 1, none, 14, time) > 0 && sent[4] == 0x01, "commit is sent");
    expect(hear(0x01, 1, none, 0, time) > 0 && sent[4] == 0x4B, "activate is sent");
    expect(hear(0x4B, 1, none, 0, time) == 0 && session.numbers[0] == NGT1_SESSION_DONE, "done");
    expect(session.numbers[8] == 1 && session.saved[0] == 126983, "saved");
    expect(ngt1_session_lacks(session.numbers, session.known, 126983) == 0, "126983 is there");
}

/* a gateway that tells its list in Format 1, then one in Format 2 */
static void sessions(void)
{
    static const uint32_t want[] = { 126983 };
    static const uint8_t mode[] = { 2, 0 };
    static const uint8_t list[] = { 1, 0x11, 0xF0, 1, 0 };
    static const uint8_t supported[] = { 0, 0, 0x11, 0, 0, 0, 0, 2, 0, 2, 7, 0x07, 0xF0, 1, 9, 0x11, 0xF0, 1 };
    static const uint8_t enabled[] = { 0, 2, 0x11, 0, 0, 1, 0, 1, 9, 6, 0, 0 };
    static const uint8_t proprietary[] = { 0, 3, 0x11, 0, 0, 1, 2, 0 };
    static const uint32_t many[65] = { 0 };
    expect(ngt1_session_begin(session.numbers, session.wanted, many, 65) == NGT1_OVER_WANTED, "refusal 11");
    expect(ngt1_session_begin(session.numbers, session.wanted, want, 1) == 0, "begin");
    expect(hear(0x11, 1, mode, 2, 0) == 0, "the mode");
    expect(ngt1_session_tick(session.numbers, 1999, sent, sizeof sent).count == 0, "not due");
    expect(ngt1_session_tick(session.numbers, 2000, sent, 31).number == NGT1_NO_ROOM, "output of 31");
    expect(ngt1_session_tick(session.numbers, 2000, sent, sizeof sent).count == 8 && sent[4] == 0x49, "Format 1 is asked for");
    expect(hear(0x41, 1, mode, 2, 2001) == 0, "of no interest");
    expect(hear(0x49, 1, list, 5, 2001) == 0 && session.numbers[5] == 1, "a list of one");
    expect(hear(0x49, 4, list, 0, 2001) > 0, "the list has ended");
    expect(ngt1_session_lacks(session.numbers, session.known, 126983) == 2, "126983 lacks from a partial list");
    saves(2002);

    memset(&session, 0, sizeof session);
    expect(ngt1_session_begin(session.numbers, session.wanted, want, 1) == 0, "begin");
    expect(ngt1_session_firmware(session.numbers, 2690) == 0, "firmware");
    expect(hear(0x11, 1, mode, 2, 0) == 0, "the mode");
    expect(ngt1_session_tick(session.numbers, 2000, sent, sizeof sent).count == 16, "Format 2 is asked for");
    expect(hear(0x40, 1, supported, sizeof supported, 2001) == 0, "supported");
    expect(hear(0x4F, 2, proprietary, sizeof proprietary, 2001) == 0, "proprietary");
    expect(hear(0x4F, 1, enabled, sizeof enabled, 2001) > 0, "enabled");
    expect(session.numbers[7] == 2 && session.known[0] == 126993 && session.known[1] == 65281, "known");
    expect(ngt1_session_lacks(session.numbers, session.known, 126983) == 1, "126983 lacks from the whole list");
    saves(2002);
    session.numbers[0] = 8;
    expect(ngt1_session_tick(session.numbers, 2000, sent, sizeof sent).number == NGT1_NOT_FORMED, "no such phase");
}

int main(void)
{
    static const uint8_t want[] = { 0x10, 0x02, 0xA1, 0x01, 0x41, 0x1D, 0x10, 0x03 };
    const uint8_t payload[] = { 0x41 };
    uint8_t stream[2 * sizeof want], out[NGT1_MAX_FRAME];
    uint64_t a[NGT1_ENCODE_ANSWER];

    expect(ngt1_encode(0xA1, payload, sizeof payload, out, sizeof out, a, NGT1_ENCODE_ANSWER) == 1, "encode");
    expect(a[0] == 0 && a[1] == sizeof want && a[2] == 0 && memcmp(out, want, sizeof want) == 0, "frame");

    memcpy(stream, out, sizeof want);
    memcpy(stream + sizeof want, out, sizeof want);
    stream[sizeof want + 5] = 0x1E;
    feed(stream, 11);
    feed(stream + 11, sizeof stream - 11);
    expect(events_len == 2, "two events");
    expect_event(0, NGT1_MESSAGE, 0xA1, 1);
    expect_event(1, NGT1_BAD_CHECKSUM, 0, 0);
    push_all(stream, sizeof stream);
    refusals();
    records();
    lists();
    sessions();
    return ended();
}

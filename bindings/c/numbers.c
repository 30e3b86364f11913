/* Tries what ngt1.h says of numbers: the 17 of a session, each at every step of a run, with the record; the two values of a decoder's
 * errors; every refusal of a session, after which no byte has changed; and ngt1_session_add. What is expected follows from ngt1.h and
 * document 01, and is not taken from a run. Exit status 1: not as expected. */
#include "ngt1.h"
#include "check.h"
#include <inttypes.h>

/* Places of the 17 numbers. */
enum {
    PHASE = 0,
    ATTEMPT = 1,
    WANTED = 2,
    OWED = 3,
    FRESH = 4,
    LIST = 5,
    PROPRIETARY = 6,
    KNOWN = 7,
    SAVED = 8,
    PRESENT = 9,
    REFUSED = 10,
    DUE = 11,
    IS_KNOWN = 12,
    IS_WHOLE = 13,
    IS_TOLD = 14,
    VERSION = 15,
    NO_PARTS = 16
};

#define ANY UINT64_MAX /* a number that says nothing in the phase */
#define LATE UINT64_C(18446744073709541616) /* one over the last time */

static ngt1_session s;
static uint8_t out[NGT1_MAX_SENT];

/* All 17 numbers, as in numbers_are("begin", [WANTED] = 4, [NO_PARTS] = 1): those that are not named are 0. */
#define numbers_are(when, ...) check_numbers(when, (const uint64_t[17]){ __VA_ARGS__ })

static void check_numbers(const char *when, const uint64_t want[17])
{
    int i;
    for (i = 0; i < 17; i++)
        if (want[i] != ANY && s.numbers[i] != want[i])
            fail("%s: number %d is %" PRIu64 ", not %" PRIu64, when, i, s.numbers[i], want[i]);
}

/* The first PGNs of an array. */
static void pgns_are(const char *what, const uint32_t *pgns, const uint32_t *want, size_t len)
{
    size_t i;
    for (i = 0; i < len; i++)
        if (pgns[i] != want[i])
            fail("%s[%u] is %" PRIu32 ", not %" PRIu32, what, (unsigned)i, pgns[i], want[i]);
}

/* What `lacks` says of a PGN. */
static void lacks(const char *when, uint32_t pgn, uint64_t want)
{
    uint64_t says = ngt1_session_lacks(s.numbers, s.known, pgn);
    if (says != want)
        fail("%s: lacks says %" PRIu64 " of %" PRIu32 ", not %" PRIu64, when, says, pgn, want);
}

/* A call is taken and has so many bytes to send, a command of this byte; if it is enable, of this PGN. */
static void sends(const char *when, ngt1_answer a, uint64_t count, uint8_t bem, uint32_t pgn)
{
    int i, ok = a.number == 0 && a.count == count && (count == 0 || out[4] == bem);
    for (i = 0; ok && bem == 0x47 && i < 4; i++)
        ok = out[5 + i] == (uint8_t)(pgn >> 8 * i);
    if (!ok)
        fail("%s: number %" PRIu64 " and %" PRIu64 " bytes, or another command", when, a.number, a.count);
}

static ngt1_answer hear(uint64_t time, uint8_t bem, uint8_t sequence, int32_t error, const uint8_t *data, size_t len)
{
    uint8_t payload[255];
    return ngt1_session_hear(&s, time, payload, reply(payload, bem, sequence, error, data, len), out, sizeof out);
}

static ngt1_answer tick(uint64_t time)
{
    return ngt1_session_tick(s.numbers, time, out, sizeof out);
}

/* Data of replies. Format 1: a count, then PGNs of four bytes. */
static const uint8_t mode[] = { 2, 0 };
static const uint8_t page_of_2[] = { 2, 0x11, 0xF0, 1, 0, 0x0D, 0xF1, 1, 0 }; /* 126993, 127245 */
static const uint8_t page_of_1[] = { 1, 0x12, 0xF1, 1, 0 };                   /* 127250 */

/* Format 2: 126983 has index 7 and 126993 index 9; 9 is enabled; bits 0 and 15 from 0xFF00 on, bit 1 from 0x1FF00 on. */
static const uint8_t supported[] = { 0, 0, 0x11, 0, 0, 0, 0, 2, 0, 2, 7, 0x07, 0xF0, 1, 9, 0x11, 0xF0, 1 };
static const uint8_t enabled[] = { 0, 2, 0x11, 0, 0, 1, 0, 1, 9, 6, 0, 0 };
static const uint8_t proprietary[] = { 0, 3, 0x11, 0, 0, 2, 0x01, 0x80, 1, 0x02 };

/* A list in Format 1, which has 126993, and an answer of each kind: 126983 is enabled, 126984 already there, 126985 refused. */
static void first_session(void)
{
    static const uint32_t want[] = { 126983, 126993, 126984, 126985 };
    static const uint32_t asked[] = { 126983, 126984, 126985 };
    static const uint32_t known[] = { 126993, 127245, 127250, 126983, 126984 };

    memset(&s, 0, sizeof s);
    expect(ngt1_session_begin(s.numbers, s.wanted, want, 4) == 0, "begin");
    numbers_are("begin", [PHASE] = NGT1_SESSION_AWAITS_MODE, [WANTED] = 4, [NO_PARTS] = 1);
    pgns_are("wanted", s.wanted, want, 4);
    lacks("no list is known", 126983, 0);

    sends("the mode", hear(100, 0x11, 1, 0, mode, sizeof mode), 0, 0, 0);
    numbers_are("the mode", [PHASE] = NGT1_SESSION_WAITS, [WANTED] = 4, [DUE] = 2100, [NO_PARTS] = 1);
    sends("before the due time", tick(2099), 0, 0, 0);
    sends("the read", tick(2150), 8, 0x49, 0);
    numbers_are("the read", [PHASE] = NGT1_SESSION_READS_F1, [ATTEMPT] = 1, [WANTED] = 4, [DUE] = 12150, [NO_PARTS] = 1);
    sends("two PGNs", hear(2200, 0x49, 1, 0, page_of_2, sizeof page_of_2), 0, 0, 0);
    numbers_are("two PGNs", [PHASE] = NGT1_SESSION_READS_F1, [ATTEMPT] = 1, [WANTED] = 4, [LIST] = 2, [DUE] = 12200, [NO_PARTS] = 1);
    sends("one more", hear(2300, 0x49, 1, 0, page_of_1, sizeof page_of_1), 0, 0, 0);
    numbers_are("one more", [PHASE] = NGT1_SESSION_READS_F1, [ATTEMPT] = 1, [WANTED] = 4, [LIST] = 3, [DUE] = 12300, [NO_PARTS] = 1);
    pgns_are("list", s.list, known, 3);

    sends("the list's end", hear(2400, 0x49, 4, 0, NULL, 0), 21, 0x47, 126983);
    numbers_are("the list's end", [PHASE] = NGT1_SESSION_ENABLES, [WANTED] = 4, [OWED] = 3, [LIST] = 3, [KNOWN] = 3, [DUE] = 12400,
                [IS_KNOWN] = 1, [NO_PARTS] = 1);
    pgns_are("owed", s.owed, asked, 3);
    lacks("on the list", 126993, 0);
    lacks("not yet enabled", 126983, 2);

    sends("error 0", hear(2500, 0x47, 1, 0, NULL, 0), 21, 0x47, 126984);
    numbers_are("error 0", [PHASE] = NGT1_SESSION_ENABLES, [WANTED] = 4, [OWED] = 2, [FRESH] = 1, [LIST] = 3, [KNOWN] = 4, [DUE] = 12500,
                [IS_KNOWN] = 1, [NO_PARTS] = 1);
    pgns_are("owed", s.owed, asked + 1, 2);
    pgns_are("fresh", s.fresh, asked, 1);
    sends("error -996", hear(2600, 0x47, 1, -996, NULL, 0), 21, 0x47, 126985);
    numbers_are("error -996", [PHASE] = NGT1_SESSION_ENABLES, [WANTED] = 4, [OWED] = 1, [FRESH] = 1, [LIST] = 3, [KNOWN] = 5, [PRESENT] = 1,
                [DUE] = 12600, [IS_KNOWN] = 1, [NO_PARTS] = 1);
    sends("error -1000", hear(2700, 0x47, 1, -1000, NULL, 0), 8, 0x01, 0);
    numbers_are("error -1000", [PHASE] = NGT1_SESSION_COMMITS, [WANTED] = 4, [OWED] = ANY, [FRESH] = 1, [LIST] = 3, [KNOWN] = 5,
                [PRESENT] = 1, [REFUSED] = 1, [DUE] = 12700, [IS_KNOWN] = 1, [NO_PARTS] = 1);

    sends("commit", hear(2800, 0x01, 1, 0, NULL, 0), 8, 0x4B, 0);
    numbers_are("commit", [PHASE] = NGT1_SESSION_ACTIVATES, [WANTED] = 4, [OWED] = ANY, [FRESH] = 1, [LIST] = 3, [KNOWN] = 5, [PRESENT] = 1,
                [REFUSED] = 1, [DUE] = 12800, [IS_KNOWN] = 1, [NO_PARTS] = 1);
    sends("activate", hear(2900, 0x4B, 1, 0, NULL, 0), 0, 0, 0);
    numbers_are("activate", [PHASE] = NGT1_SESSION_DONE, [WANTED] = 4, [OWED] = ANY, [FRESH] = ANY, [LIST] = 3, [KNOWN] = 5, [SAVED] = 1,
                [PRESENT] = 1, [REFUSED] = 1, [DUE] = ANY, [IS_KNOWN] = 1, [NO_PARTS] = 1);
    pgns_are("saved", s.saved, asked, 1);
    pgns_are("present", s.present, asked + 1, 1);
    pgns_are("refused", s.refused, asked + 2, 1);
    pgns_are("known", s.known, known, 5);
    lacks("on the list", 126993, 0);
    lacks("enabled", 126983, 0);
    lacks("already there", 126984, 0);
    lacks("refused", 126985, 2);
}

/* A second session in the same memory: 126984 and 126985 are not asked for again; 126983 is, and is not saved again. In the end one PGN is
 * saved, two are present and three are refused. */
static void second_session(void)
{
    static const uint32_t want[] = { 126983, 126984, 126985, 126986, 126987, 126988 };
    static const uint32_t asked[] = { 126983, 126986, 126987, 126988 };
    static const uint32_t known[] = { 127250, 126984, 126983, 126986 };
    static const uint32_t saved[] = { 126983 }, present[] = { 126984, 126986 }, refused[] = { 126985, 126987, 126988 };

    expect(ngt1_session_begin(s.numbers, s.wanted, want, 6) == 0, "begin again");
    numbers_are("begin again", [PHASE] = NGT1_SESSION_AWAITS_MODE, [WANTED] = 6, [SAVED] = 1, [PRESENT] = 1, [REFUSED] = 1, [NO_PARTS] = 1);
    hear(0, 0x11, 1, 0, mode, sizeof mode);
    tick(2000);
    hear(2100, 0x49, 1, 0, page_of_1, sizeof page_of_1);
    sends("the list's end again", hear(2200, 0x49, 4, 0, NULL, 0), 21, 0x47, 126983);
    numbers_are("the list's end again", [PHASE] = NGT1_SESSION_ENABLES, [WANTED] = 6, [OWED] = 4, [LIST] = 1, [KNOWN] = 2, [SAVED] = 1,
                [PRESENT] = 1, [REFUSED] = 1, [DUE] = 12200, [IS_KNOWN] = 1, [NO_PARTS] = 1);
    pgns_are("owed", s.owed, asked, 4);
    sends("saved before", hear(2300, 0x47, 1, 0, NULL, 0), 21, 0x47, 126986);
    sends("already there", hear(2400, 0x47, 1, -996, NULL, 0), 21, 0x47, 126987);
    sends("refused", hear(2500, 0x47, 1, 5, NULL, 0), 21, 0x47, 126988);
    numbers_are("three answers", [PHASE] = NGT1_SESSION_ENABLES, [WANTED] = 6, [OWED] = 1, [LIST] = 1, [KNOWN] = 4, [SAVED] = 1,
                [PRESENT] = 2, [REFUSED] = 2, [DUE] = 12500, [IS_KNOWN] = 1, [NO_PARTS] = 1);
    sends("sequence 2 refuses too; nothing is to be saved", hear(2600, 0x47, 2, 0, NULL, 0), 0, 0, 0);
    numbers_are("done again", [PHASE] = NGT1_SESSION_DONE, [WANTED] = 6, [OWED] = ANY, [FRESH] = ANY, [LIST] = 1, [KNOWN] = 4, [SAVED] = 1,
                [PRESENT] = 2, [REFUSED] = 3, [DUE] = ANY, [IS_KNOWN] = 1, [NO_PARTS] = 1);
    pgns_are("saved", s.saved, saved, 1);
    pgns_are("present", s.present, present, 2);
    pgns_are("refused", s.refused, refused, 3);
    pgns_are("known", s.known, known, 4);
}

/* A list in Format 2, read in the third attempt; then the session from its start. */
static void format_2(void)
{
    static const uint32_t want[] = { 126983 };
    static const uint32_t known[] = { 126993, 65280, 65295, 130817 };

    memset(&s, 0, sizeof s);
    expect(ngt1_session_begin(s.numbers, s.wanted, want, 1) == 0, "begin");
    expect(ngt1_session_firmware(s.numbers, 2690) == 0, "firmware");
    numbers_are("firmware", [PHASE] = NGT1_SESSION_AWAITS_MODE, [WANTED] = 1, [IS_TOLD] = 1, [VERSION] = 2690, [NO_PARTS] = 1);
    hear(1000, 0x11, 1, 0, mode, sizeof mode);
    numbers_are("the mode", [PHASE] = NGT1_SESSION_WAITS, [WANTED] = 1, [DUE] = 3000, [IS_TOLD] = 1, [VERSION] = 2690, [NO_PARTS] = 1);
    sends("Format 2", tick(3000), 16, 0x40, 0);
    expect(out[12] == 0x4F, "the second command of Format 2");
    numbers_are("Format 2", [PHASE] = NGT1_SESSION_READS_F2, [ATTEMPT] = 1, [WANTED] = 1, [DUE] = 13000, [IS_TOLD] = 1, [VERSION] = 2690,
                [NO_PARTS] = 1);
    sends("attempt 2", tick(13000), 16, 0x40, 0);
    numbers_are("attempt 2", [PHASE] = NGT1_SESSION_READS_F2, [ATTEMPT] = 2, [WANTED] = 1, [DUE] = 23000, [IS_TOLD] = 1, [VERSION] = 2690,
                [NO_PARTS] = 1);
    sends("a part", hear(14000, 0x4F, 1, 0, proprietary, sizeof proprietary), 0, 0, 0);
    numbers_are("a part", [PHASE] = NGT1_SESSION_READS_F2, [ATTEMPT] = 2, [WANTED] = 1, [PROPRIETARY] = 3, [DUE] = 24000, [IS_TOLD] = 1,
                [VERSION] = 2690);
    sends("attempt 3", tick(24000), 16, 0x40, 0);
    numbers_are("attempt 3", [PHASE] = NGT1_SESSION_READS_F2, [ATTEMPT] = 3, [WANTED] = 1, [PROPRIETARY] = ANY, [DUE] = 34000,
                [IS_TOLD] = 1, [VERSION] = 2690, [NO_PARTS] = 1);
    sends("supported", hear(25000, 0x40, 1, 0, supported, sizeof supported), 0, 0, 0);
    numbers_are("supported", [PHASE] = NGT1_SESSION_READS_F2, [ATTEMPT] = 3, [WANTED] = 1, [DUE] = 35000, [IS_TOLD] = 1, [VERSION] = 2690);
    sends("enabled", hear(26000, 0x4F, 1, 0, enabled, sizeof enabled), 0, 0, 0);
    sends("all three parts", hear(27000, 0x4F, 2, 0, proprietary, sizeof proprietary), 21, 0x47, 126983);
    numbers_are("all three parts", [PHASE] = NGT1_SESSION_ENABLES, [WANTED] = 1, [OWED] = 1, [PROPRIETARY] = ANY, [KNOWN] = 4,
                [DUE] = 37000, [IS_KNOWN] = 1, [IS_WHOLE] = 1, [IS_TOLD] = 1, [VERSION] = 2690);
    pgns_are("known", s.known, known, 4);
    lacks("on the whole list", 65295, 0);
    lacks("not on the whole list", 126983, 1);

    expect(ngt1_session_restart(s.numbers) == 0, "restart");
    numbers_are("restart", [PHASE] = NGT1_SESSION_AWAITS_MODE, [WANTED] = 1, [OWED] = ANY, [FRESH] = ANY, [PROPRIETARY] = ANY, [DUE] = ANY,
                [VERSION] = ANY, [NO_PARTS] = ANY);
    lacks("no list is known any more", 126983, 0);
}

/* Reads that fail: an error in Format 2, then three attempts in Format 1; and a session that is abandoned. */
static void failures(void)
{
    static const uint32_t want[] = { 126983 };
    uint64_t attempt;

    memset(&s, 0, sizeof s);
    expect(ngt1_session_begin(s.numbers, s.wanted, want, 1) == 0 && ngt1_session_firmware(s.numbers, 2500) == 0, "begin with 2.500");
    hear(0, 0x11, 1, 0, mode, sizeof mode);
    sends("Format 2 from 2500 on", tick(2000), 16, 0x40, 0);
    sends("an error in Format 2", hear(2100, 0x40, 1, -1, NULL, 0), 8, 0x49, 0);
    for (attempt = 1; attempt <= 3; attempt++) {
        numbers_are("an attempt in Format 1", [PHASE] = NGT1_SESSION_READS_F1, [ATTEMPT] = attempt, [WANTED] = 1,
                    [DUE] = 2100 + 10000 * attempt, [IS_TOLD] = 1, [VERSION] = 2500, [NO_PARTS] = 1);
        sends("the next attempt", tick(2100 + 10000 * attempt), attempt < 3 ? 8 : 0, 0x49, 0);
    }
    numbers_are("no attempt left", [PHASE] = NGT1_SESSION_DONE, [WANTED] = 1, [DUE] = ANY, [IS_TOLD] = 1, [VERSION] = 2500, [NO_PARTS] = 1);

    expect(ngt1_session_begin(s.numbers, s.wanted, want, 1) == 0 && ngt1_session_firmware(s.numbers, 2499) == 0, "begin with 2.499");
    hear(0, 0x11, 1, 0, mode, sizeof mode);
    sends("Format 1 below 2500", tick(2000), 8, 0x49, 0);
    hear(2100, 0x49, 1, 0, page_of_2, sizeof page_of_2);
    sends("attempt 2, from an empty list", tick(12100), 8, 0x49, 0);
    numbers_are("attempt 2, from an empty list", [PHASE] = NGT1_SESSION_READS_F1, [ATTEMPT] = 2, [WANTED] = 1, [DUE] = 22100, [IS_TOLD] = 1,
                [VERSION] = 2499, [NO_PARTS] = 1);
    hear(12200, 0x49, 1, 0, page_of_1, sizeof page_of_1);
    hear(12300, 0x49, 4, 0, NULL, 0);
    expect(ngt1_session_abandon(s.numbers) == 0, "abandon");
    numbers_are("abandon", [PHASE] = NGT1_SESSION_DONE, [WANTED] = 1, [OWED] = ANY, [FRESH] = ANY, [LIST] = 1, [DUE] = ANY, [IS_TOLD] = 1,
                [VERSION] = 2499, [NO_PARTS] = 1);
}

/* An error of the decoder, by feed and by push: its two values, the decoder idle, and in the buffer what was collected. */
static void decoder_error(const char *what, const uint8_t *bytes, size_t len, uint64_t kind, uint64_t first, uint64_t second,
                          size_t collected)
{
    const uint64_t fed[NGT1_FEED_ANSWER] = { NGT1_IDLE, 0, len, kind, first, second };
    const uint64_t pushed[NGT1_PUSH_ANSWER] = { NGT1_IDLE, 0, kind, first, second };
    uint64_t a[NGT1_FEED_ANSWER], b[NGT1_PUSH_ANSWER] = { NGT1_IDLE, 0, 0, 0, 0 };
    uint8_t want[NGT1_BUFFER], one[NGT1_BUFFER], two[NGT1_BUFFER];
    size_t i;

    memset(want, 0xEE, sizeof want);
    memcpy(one, want, sizeof want);
    memcpy(two, want, sizeof want);
    memcpy(want, bytes + 2, collected);
    expect(ngt1_feed(NGT1_IDLE, 0, one, sizeof one, bytes, len, a, NGT1_FEED_ANSWER) == 1, what);
    for (i = 0; i < len; i++) {
        expect(b[2] == NGT1_NOTHING, what);
        expect(ngt1_push((uint8_t)b[0], (size_t)b[1], two, sizeof two, bytes[i], b, NGT1_PUSH_ANSWER) == 1, what);
    }
    if (memcmp(a, fed, sizeof fed) != 0)
        fail("%s: feed tells %" PRIu64 " (%" PRIu64 ", %" PRIu64 ")", what, a[3], a[4], a[5]);
    if (memcmp(b, pushed, sizeof pushed) != 0)
        fail("%s: push tells %" PRIu64 " (%" PRIu64 ", %" PRIu64 ")", what, b[2], b[3], b[4]);
    if (memcmp(one, want, sizeof want) != 0 || memcmp(two, want, sizeof want) != 0)
        fail("%s: the buffer", what);
}

static void decoder_errors(void)
{
    static const uint8_t length[] = { 0x10, 0x02, 0xA1, 0x02, 0x41, 0x1C, 0x10, 0x03 };
    static const uint8_t escape[] = { 0x10, 0x02, 0xA1, 0x10, 0x05 };
    decoder_error("2 bytes declared and 1 there", length, sizeof length, NGT1_LENGTH_MISMATCH, 2, 1, 4);
    decoder_error("a DLE before 05", escape, sizeof escape, NGT1_BAD_ESCAPE, 5, 0, 1);
}

/* For refusals: a state of the session, in words; the session as it was before a call that is refused. */
static char state[128];
static ngt1_session was;

static void keep(void)
{
    memcpy(&was, &s, sizeof s);
    memset(out, 0xEE, sizeof out);
}

static int same_parts(const ngt1_parts *a, const ngt1_parts *b)
{
    int i, same = a->supported.sized == b->supported.sized && a->supported.size == b->supported.size &&
                  memcmp(&a->enabled, &b->enabled, sizeof a->enabled) == 0 && a->proprietary.told == b->proprietary.told &&
                  memcmp(&a->proprietary.list, &b->proprietary.list, sizeof a->proprietary.list) == 0;
    for (i = 0; same && i < 255; i++) {
        ngt1_supported_entry x = a->supported.entries[i], y = b->supported.entries[i];
        same = x.filled == y.filled && x.index == y.index && x.pgn == y.pgn;
    }
    return same;
}

/* The session and the output are what they were, byte for byte (the parts field by field: there are bytes between them that belong to
 * none). What changed is put back. */
static void unchanged(const char *what)
{
    int i, bytes = 0;
    for (i = 0; i < 17 && s.numbers[i] == was.numbers[i]; i++)
        continue;
    if (i < 17)
        fail("%s: %s: number %d was %" PRIu64 " and is %" PRIu64, state, what, i, was.numbers[i], s.numbers[i]);
    memcpy(s.numbers, was.numbers, sizeof s.numbers);
    if (memcmp(&s, &was, offsetof(ngt1_session, parts)) != 0)
        fail("%s: %s: an array changed", state, what);
    if (!same_parts(&s.parts, &was.parts))
        fail("%s: %s: the parts changed", state, what);
    for (i = 0; i < NGT1_MAX_SENT; i++)
        bytes += out[i] != 0xEE;
    if (bytes > 0)
        fail("%s: %s: the output changed", state, what);
    memcpy(&s, &was, sizeof s);
    memset(out, 0xEE, sizeof out);
}

/* A call that gave this number was refused with that one. */
static void refused(const char *what, uint64_t number, uint64_t want)
{
    if (number != want)
        fail("%s: %s: %" PRIu64 ", not %" PRIu64, state, what, number, want);
    unchanged(what);
}

static void refused_answer(const char *what, ngt1_answer a, uint64_t want)
{
    if (a.count != 0)
        fail("%s: %s: count %" PRIu64, state, what, a.count);
    refused(what, a.number, want);
}

/* Numbers that no session has: flags over 1, a version over 16 bits, an attempt where there is none or over 32 bits. */
static void make_strange(void)
{
    int reads = s.numbers[PHASE] == NGT1_SESSION_READS_F1 || s.numbers[PHASE] == NGT1_SESSION_READS_F2;
    s.numbers[ATTEMPT] = reads ? UINT64_C(4294967303) : 7;
    s.numbers[IS_KNOWN] = 2;
    s.numbers[IS_WHOLE] = 3;
    s.numbers[IS_TOLD] = 4;
    s.numbers[VERSION] = 70000;
    s.numbers[NO_PARTS] = 5;
}

/* A session that has come to a phase by calls, in memory that was 5A where it is not used. */
static void reach(uint64_t phase, int strange)
{
    static const uint32_t want[] = { 126983 };
    memset(&s, 0x5A, sizeof s);
    memset(s.numbers, 0, sizeof s.numbers);
    s.parts = ngt1_parts_new();
    ngt1_session_begin(s.numbers, s.wanted, want, 1);
    if (phase == NGT1_SESSION_READS_F2)
        ngt1_session_firmware(s.numbers, 2690);
    if (phase > NGT1_SESSION_AWAITS_MODE)
        hear(0, 0x11, 1, 0, mode, sizeof mode);
    if (phase > NGT1_SESSION_WAITS)
        tick(2000);
    if (phase == NGT1_SESSION_READS_F1)
        hear(2100, 0x49, 1, 0, page_of_2, sizeof page_of_2);
    if (phase == NGT1_SESSION_READS_F2)
        hear(2100, 0x4F, 1, 0, proprietary, sizeof proprietary);
    if (phase > NGT1_SESSION_READS_F2)
        hear(2200, 0x49, 4, 0, NULL, 0);
    if (phase > NGT1_SESSION_ENABLES)
        hear(2300, 0x47, 1, 0, NULL, 0);
    if (phase > NGT1_SESSION_COMMITS)
        hear(2400, 0x01, 1, 0, NULL, 0);
    if (phase > NGT1_SESSION_ACTIVATES)
        hear(2500, 0x4B, 1, 0, NULL, 0);
    snprintf(state, sizeof state, "phase %d%s", (int)phase, strange ? ", strange numbers" : "");
    if (s.numbers[PHASE] != phase)
        fail("%s: not reached", state);
    if (strange)
        make_strange();
    keep();
}

/* The same with one of the numbers set; proprietary PGNs count where a part is in hand. */
static void reach_with(uint64_t phase, int strange, int place, uint64_t value)
{
    size_t len;
    reach(phase, strange);
    s.numbers[place] = value;
    if (place == PROPRIETARY)
        s.numbers[NO_PARTS] = 0;
    len = strlen(state);
    snprintf(state + len, sizeof state - len, ", number %d is %d", place, (int)value);
    keep();
}

static const uint32_t many[65] = { 0 };

/* A message that is of interest in the phase. */
static size_t of_interest(uint8_t payload[255])
{
    static const uint8_t bems[8] = { 0x11, 0x11, 0x49, 0x4F, 0x47, 0x01, 0x4B, 0x4B };
    uint8_t bem = bems[s.numbers[PHASE] % 8];
    if (bem == 0x11)
        return reply(payload, bem, 1, 0, mode, sizeof mode);
    if (bem == 0x4F)
        return reply(payload, bem, 1, 0, enabled, sizeof enabled);
    return reply(payload, bem, bem == 0x49 ? 4 : 1, 0, NULL, 0);
}

/* In every phase: over 64 wanted, a time over the limit, a message of 256 bytes, an output of 31; and which comes first. */
static void over_limits(void)
{
    uint8_t payload[256] = { 0 };
    size_t len = of_interest(payload);
    refused("begin with 65", ngt1_session_begin(s.numbers, s.wanted, many, 65), 11);
    refused_answer("tick over the limit", ngt1_session_tick(s.numbers, LATE, out, 32), 13);
    refused_answer("tick at 2^64 - 1", ngt1_session_tick(s.numbers, UINT64_MAX, out, 32), 13);
    refused_answer("tick into 31 bytes", ngt1_session_tick(s.numbers, 1000, out, 31), 7);
    refused_answer("due tick into 31 bytes", ngt1_session_tick(s.numbers, 99000, out, 31), 7);
    refused_answer("tick over the limit into 31 bytes", ngt1_session_tick(s.numbers, LATE, out, 31), 13);
    refused_answer("message over the limit", ngt1_session_hear(&s, LATE, payload, len, out, 32), 13);
    refused_answer("message of 256 bytes", ngt1_session_hear(&s, 3000, payload, 256, out, 32), 6);
    refused_answer("message into 31 bytes", ngt1_session_hear(&s, 3000, payload, len, out, 31), 7);
    refused_answer("message of 256 bytes over the limit", ngt1_session_hear(&s, LATE, payload, 256, out, 31), 13);
    refused_answer("message of 256 bytes into 31", ngt1_session_hear(&s, 3000, payload, 256, out, 31), 6);
}

/* A message that is for the other function: 100. */
static void elsewhere(void)
{
    uint8_t payload[255];
    size_t len = reply(payload, 0x49, 4, 0, NULL, 0);
    if (s.numbers[PHASE] == NGT1_SESSION_READS_F2) {
        ngt1_answer a = ngt1_session_message(s.numbers, s.wanted, s.owed, s.fresh, s.list, s.known, s.saved, s.present, s.refused, 3000,
                                             payload, len, out, 32);
        refused_answer("message instead of part", a, 100);
    } else {
        ngt1_part_answer a =
            ngt1_session_part(s.numbers, s.parts, s.wanted, s.owed, s.known, s.present, s.refused, 3000, payload, len, out, 32);
        s.parts = a.parts;
        refused_answer("part instead of message", (ngt1_answer){ a.number, a.count }, 100);
    }
}

/* A state that is not well formed: 16 comes first. */
static void not_formed(void)
{
    uint8_t payload[256] = { 0 };
    size_t len = of_interest(payload);
    refused("restart", ngt1_session_restart(s.numbers), 16);
    refused("firmware", ngt1_session_firmware(s.numbers, 2690), 16);
    refused("abandon", ngt1_session_abandon(s.numbers), 16);
    refused("lacks", ngt1_session_lacks(s.numbers, s.known, 126983), 16);
    refused_answer("tick", ngt1_session_tick(s.numbers, 1000, out, 32), 16);
    refused_answer("due tick", ngt1_session_tick(s.numbers, 99000, out, 32), 16);
    refused_answer("tick over the limit into 31 bytes", ngt1_session_tick(s.numbers, LATE, out, 31), 16);
    refused_answer("message", ngt1_session_hear(&s, 3000, payload, len, out, 32), 16);
    refused_answer("message of 256 bytes over the limit", ngt1_session_hear(&s, LATE, payload, 256, out, 31), 16);
}

/* A number by which the state is not well formed. One less is well formed; but 0 owed is the least there is. */
static void not_formed_with(uint64_t phase, int strange, int place, uint64_t value)
{
    reach_with(phase, strange, place, value);
    not_formed();
    if (place == PHASE)
        refused("begin", ngt1_session_begin(s.numbers, s.wanted, many, 64), 16);
    if (value > 0) {
        s.numbers[place] = value - 1;
        if (ngt1_session_firmware(s.numbers, 2690) != 0)
            fail("%s: one less is refused", state);
    }
}

/* A list of the record over 192: 12, after 11 and after 16, for before enabling the state is not well formed then. */
static void over_record(uint64_t phase, int strange, int place)
{
    reach_with(phase, strange, place, 193);
    refused("begin with 64", ngt1_session_begin(s.numbers, s.wanted, many, 64), 12);
    refused("begin with 65", ngt1_session_begin(s.numbers, s.wanted, many, 65), 11);
    if (phase < NGT1_SESSION_ENABLES)
        not_formed();
    else
        refused("restart", ngt1_session_restart(s.numbers), 12);
    s.numbers[place] = 192;
    if (ngt1_session_restart(s.numbers) != 0 || ngt1_session_begin(s.numbers, s.wanted, many, 64) != 0)
        fail("%s: 192 is refused", state);
}

/* The Format 1 list would pass 1,024: 14, after 7; up to 1,024 it is taken. */
static void over_list(int strange)
{
    uint8_t one[255], two[255];
    size_t one_len = reply(one, 0x49, 1, 0, page_of_1, sizeof page_of_1), two_len = reply(two, 0x49, 1, 0, page_of_2, sizeof page_of_2);
    reach_with(NGT1_SESSION_READS_F1, strange, LIST, 1023);
    refused_answer("two PGNs", ngt1_session_hear(&s, 3000, two, two_len, out, 32), 14);
    refused_answer("two PGNs with room for 31 bytes", ngt1_session_hear(&s, 3000, two, two_len, out, 31), 7);
    sends("one PGN", ngt1_session_hear(&s, 3000, one, one_len, out, 32), 0, 0, 0);
    if (s.numbers[LIST] != 1024 || s.numbers[DUE] != 13000 || s.list[1023] != 127250)
        fail("%s: one PGN is not taken", state);
    keep();
    refused_answer("one PGN more", ngt1_session_hear(&s, 4000, one, one_len, out, 32), 14);
}

/* Every refusal, in every phase that has it. */
static void refusals(int strange)
{
    static const struct { uint64_t phase; int place; uint64_t value; } rows[] = {
        /* over what there is room for */
        { 7, WANTED, 65 }, { 7, OWED, 65 }, { 7, FRESH, 65 }, { 7, LIST, 1025 }, { 7, KNOWN, 1345 },
        { 7, SAVED, 257 }, { 7, PRESENT, 257 }, { 7, REFUSED, 257 }, { 3, PROPRIETARY, 513 }, { 0, WANTED, 65 },
        /* enabling, with none owed, and with one owed */
        { 4, OWED, 0 },
        { 4, FRESH, 64 }, { 4, KNOWN, 1344 }, { 4, SAVED, 256 }, { 4, PRESENT, 256 }, { 4, REFUSED, 256 },
        /* committing and activating, with one fresh */
        { 5, SAVED, 256 }, { 6, SAVED, 256 },
    };
    uint64_t phase;
    size_t i;
    int place;
    for (phase = 0; phase <= 7; phase++) {
        reach(phase, strange);
        over_limits();
        elsewhere();
        not_formed_with(phase, strange, PHASE, 8);
        for (place = SAVED; place <= REFUSED; place++)
            over_record(phase, strange, place);
    }
    for (i = 0; i < sizeof rows / sizeof rows[0]; i++)
        not_formed_with(rows[i].phase, strange, rows[i].place, rows[i].value);
    over_list(strange);
}

/* The last time is taken; what is due then is the last number of 64 bits. */
static void last_time(void)
{
    reach(NGT1_SESSION_WAITS, 0);
    sends("the last time", tick(LATE - 1), 8, 0x49, 0);
    expect(s.numbers[DUE] == UINT64_MAX, "the last due time");
}

/* A page that fits is taken by ngt1_session_add, which leaves what ngt1_session_message leaves in a copy of the session. */
static void adds(const char *what, uint64_t at, const uint8_t *payload, size_t len, uint64_t count, uint32_t last)
{
    ngt1_answer a;
    reach_with(NGT1_SESSION_READS_F1, 0, LIST, at);
    a = ngt1_session_message(was.numbers, was.wanted, was.owed, was.fresh, was.list, was.known, was.saved, was.present, was.refused, 3000,
                             payload, len, out, 32);
    if (a.number != 0 || a.count != 0 || was.numbers[LIST] != at + count || was.numbers[DUE] != 13000 ||
        (count > 0 && was.list[at + count - 1] != last))
        fail("%s: %s: what the message leaves", state, what);
    if (!ngt1_session_add(s.numbers, s.list, 3000, payload, len, 32))
        fail("%s: %s: not added", state, what);
    unchanged(what);
}

/* Nothing else is taken, and nothing changes. */
static void adds_not(const char *what, const uint8_t *payload, size_t len, uint64_t time, size_t room)
{
    if (ngt1_session_add(s.numbers, s.list, time, payload, len, room))
        fail("%s: %s: added", state, what);
    unchanged(what);
}

static void adding(void)
{
    uint8_t two[256] = { 0 }, end[255], other[255];
    size_t len = reply(two, 0x49, 1, 0, page_of_2, sizeof page_of_2);
    uint64_t phase;
    int strange;
    reply(end, 0x49, 4, 0, page_of_2, sizeof page_of_2);
    reply(other, 0x49, 2, 0, page_of_2, sizeof page_of_2);

    adds("two PGNs", 0, two, len, 2, 127245);
    adds("two more", 700, two, len, 2, 127245);
    adds("two up to 1,024", 1022, two, len, 2, 127245);
    adds("two, cut off in the second", 1023, two, len - 1, 1, 126993);
    adds("two, and 255 bytes", 2, two, 255, 2, 127245);
    adds("an end before the count", 1024, two, 12, 0, 0);

    for (strange = 0; strange <= 1; strange++) {
        reach(NGT1_SESSION_READS_F1, strange);
        adds_not("the closing message", end, len, 3000, 32);
        adds_not("sequence 2", other, len, 3000, 32);
        adds_not("a time over the limit", two, len, LATE, 32);
        adds_not("room for 31", two, len, 3000, 31);
        adds_not("256 bytes", two, 256, 3000, 32);
        adds_not("no byte", two, 0, 3000, 32);
        reach_with(NGT1_SESSION_READS_F1, strange, LIST, 1023);
        adds_not("two PGNs past 1,024", two, len, 3000, 32);
        reach_with(NGT1_SESSION_READS_F1, strange, WANTED, 65);
        adds_not("65 wanted", two, len, 3000, 32);
        for (phase = 0; phase <= 7; phase++)
            if (phase != NGT1_SESSION_READS_F1) {
                reach(phase, strange);
                adds_not("another phase", two, len, 3000, 32);
            }
    }
}

int main(void)
{
    first_session();
    second_session();
    format_2();
    failures();
    decoder_errors();
    refusals(0);
    last_time();
    adding();
    refusals(1);
    return ended();
}

/* Calls each function of include/lintelow.h, from C and from C++: a success, a refusal, nothing at all (null pointers of length 0), and blocks that are a
 * byte too short and a byte longer than needed; where it takes a mode, each of them. */
#include "lintelow.h"

#include <stdio.h>
#include <string.h>

#define FILL 0xa5
#define LAST 0x616c7473
#define ERROR 0x63787470
#define NEXT 0x6f6c6d67
#define CLIENT 0x6e697863
#define DAEMON 0x6478696f

enum { NUMBER, PLACE, STREAM, KIND, END, END2, ENTRIES, PAYLOAD, NUMBERS, COUNTS = 20, LATER = 23 };

static int failures = 0;

#define EXPECT(what, is, should_be) expect(__LINE__, what, is, should_be)

static void expect(int line, const char *what, uint64_t is, uint64_t should_be) {
    if (is != should_be) {
        printf("line %d: %s is %llu and should be %llu\n", line, what, (unsigned long long)is, (unsigned long long)should_be);
        failures++;
    }
}

/* A stream that is put together. */
static uint8_t s[512];
static size_t s_len;

static void number(uint64_t n) {
    int i;
    for (i = 0; i < 8; i++) s[s_len++] = (uint8_t)(n >> (8 * i));
}

static void string(const char *text) {
    size_t length = strlen(text);
    number(length);
    memcpy(s + s_len, text, length);
    memset(s + s_len + length, 0, 7);
    s_len += (length + 7) / 8 * 8;
}

/* Room, with a byte more than a block needs. */
static uint8_t entries[8 * LINTELOW_ENTRY], payload[16], block[LINTELOW_BLOCK + 1];

static void lend(void) {
    memset(entries, FILL, sizeof entries);
    memset(payload, FILL, sizeof payload);
    memset(block, FILL, sizeof block);
}

static uint64_t at(const uint8_t *bytes, size_t index) {
    uint64_t n = 0;
    int i;
    for (i = 7; i >= 0; i--) n = n << 8 | bytes[8 * index + i];
    return n;
}

static size_t filled(const uint8_t *bytes, size_t length) {
    size_t n = 0;
    while (n < length && bytes[length - 1 - n] == FILL) n++;
    return n;
}

/* What every answer has: the number that was returned, the numbers kept for later, and the byte beyond the block as it was. */
static void answered(int line, const char *call, uint64_t returned, uint64_t should_be) {
    size_t i;
    printf("%-34s %llu at %llu, kind %llu, end %llu\n", call, (unsigned long long)returned, (unsigned long long)at(block, PLACE),
           (unsigned long long)at(block, KIND), (unsigned long long)at(block, END));
    expect(line, call, returned, should_be);
    expect(line, "the block's number", at(block, NUMBER), returned);
    expect(line, "the byte beyond the block", block[LINTELOW_BLOCK], FILL);
    for (i = returned ? KIND : LATER; i < 25; i++) expect(line, "a number that stays 0", at(block, i), 0);
    if (returned) {
        expect(line, "entries kept", filled(entries, sizeof entries), sizeof entries);
        expect(line, "payload kept", filled(payload, sizeof payload), sizeof payload);
    }
}

/* A call, with the longer block; then with one that is too short, where nothing is written. In CALL, `n` is the block's length. */
#define CALLED(name, should_be, CALL)                                                        \
    do {                                                                                     \
        size_t n = LINTELOW_BLOCK - 1;                                                       \
        lend();                                                                              \
        expect(__LINE__, name ", a short block", CALL, 10);                                  \
        expect(__LINE__, "a short block kept", filled(block, sizeof block), sizeof block);   \
        expect(__LINE__, "entries kept", filled(entries, sizeof entries), sizeof entries);   \
        expect(__LINE__, "payload kept", filled(payload, sizeof payload), sizeof payload);   \
        n = sizeof block;                                                                    \
        answered(__LINE__, name, CALL, should_be);                                           \
    } while (0)

static void arguments(void) {
    s_len = 0; /* AddToStore: name, cam, refs, repair, two chunks */
    string("name"), string("text:sha256"), number(1), string("/nix/store/x"), number(7);
    number(2), memcpy(s + s_len, "ab", 2), s_len += 2;
    number(1), s[s_len++] = 'c';
    number(0);
    CALLED("read_op_args", 0,
           lintelow_read_op_args(LINTELOW_PORTED, 7, 1, 38, s, s_len, entries, sizeof entries, payload, sizeof payload, block, n));
    EXPECT("kind", at(block, KIND), 13);
    EXPECT("end", at(block, END), s_len);
    EXPECT("entries", at(block, ENTRIES), 3);
    EXPECT("payload", at(block, PAYLOAD), 3);
    EXPECT("repair", at(block, NUMBERS), 1);
    EXPECT("references", at(block, COUNTS), 1);
    EXPECT("start of cam", at(entries, 2), 24);
    EXPECT("length of cam", at(entries, 3), 11);
    EXPECT("slots kept", filled(entries, sizeof entries), sizeof entries - 3 * LINTELOW_ENTRY);
    EXPECT("payload's bytes", (uint64_t)memcmp(payload, "abc", 3), 0);
    EXPECT("room kept", filled(payload, sizeof payload), sizeof payload - 3);
    CALLED("read_op_args, 2 slots", 4,
           lintelow_read_op_args(LINTELOW_PORTED, 7, 1, 38, s, s_len, entries, 47, payload, sizeof payload, block, n));
    EXPECT("place", at(block, PLACE), 48);
    CALLED("read_op_args, 2 bytes of room", 5,
           lintelow_read_op_args(LINTELOW_PORTED, 7, 1, 38, s, s_len, entries, sizeof entries, payload, 2, block, n));
    EXPECT("place", at(block, PLACE), s_len - 17);

    CALLED("skip_op_args", 0, lintelow_skip_op_args(LINTELOW_PORTED, 7, 1, 38, s, s_len, block, n));
    EXPECT("kind", at(block, KIND), 2);
    EXPECT("end", at(block, END), s_len - 27);
    EXPECT("entries", at(block, ENTRIES), 1);
    EXPECT("start", at(block, NUMBERS + 1), 8);
    EXPECT("length", at(block, NUMBERS + 2), 4);
    CALLED("skip_op_args, unknown", 9, lintelow_skip_op_args(LINTELOW_PORTED, 0, 1, 38, s, s_len, block, n));

    CALLED("read_op_args of nothing", 0, lintelow_read_op_args(LINTELOW_PUBLISHED, 13, 1, 38, NULL, 0, NULL, 0, NULL, 0, block, n));
    EXPECT("kind", at(block, KIND), 6);
    CALLED("skip_op_args of nothing", 0, lintelow_skip_op_args(LINTELOW_PUBLISHED, 13, 1, 38, NULL, 0, block, n));
    EXPECT("kind", at(block, KIND), 1);
}

/* What one mode makes of arguments. */
struct reading {
    uint64_t kind, end, entries, count;
};

/* The stream, read, skipped, and written again from what was read: the same bytes. */
static void read_in(int line, uint8_t mode, uint64_t op, uint8_t minor, struct reading of) {
    static uint8_t out[sizeof s], again[LINTELOW_BLOCK];
    CALLED("read_op_args in a mode", 0, lintelow_read_op_args(mode, op, 1, minor, s, s_len, entries, sizeof entries, NULL, 0, block, n));
    expect(line, "kind", at(block, KIND), of.kind);
    expect(line, "end", at(block, END), of.end);
    expect(line, "entries", at(block, ENTRIES), of.entries);
    expect(line, "count", at(block, COUNTS), of.count);
    expect(line, "written",
           lintelow_write_op_args(mode, op, 1, minor, block + 64, 120, s, s_len, entries, LINTELOW_ENTRY * of.entries, NULL, 0, out, sizeof out, again,
                                  sizeof again),
           0);
    expect(line, "length", at(again, END), of.end);
    expect(line, "the same bytes", (uint64_t)memcmp(out, s, of.end), 0);
    CALLED("skip_op_args in a mode", 0, lintelow_skip_op_args(mode, op, 1, minor, s, s_len, block, n));
    expect(line, "kind", at(block, KIND), op == 30 ? 3 : 2);
    expect(line, "end", at(block, END), of.end);
    expect(line, "paths", at(block, NUMBERS), of.count);
}

/* The two operations in which modes differ, with the smallest bytes that show it, on both sides of their versions. */
static void modes(void) {
    static const struct reading set = {19, 16, 1, 1}, pairs = {20, 24, 2, 1}, one = {16, 8, 1, 0}, two = {21, 16, 2, 0};
    static const uint8_t published[4] = {LINTELOW_PUBLISHED, 2, 128, 255};
    size_t i;
    s_len = 0; /* QuerySubstitutablePathInfos: one path, and what may be its content address */
    number(1), number(0), number(0);
    read_in(__LINE__, LINTELOW_PORTED, 30, 21, set);
    read_in(__LINE__, LINTELOW_PORTED, 30, 22, set);
    for (i = 0; i < sizeof published; i++) {
        read_in(__LINE__, published[i], 30, 21, set);
        read_in(__LINE__, published[i], 30, 22, pairs);
    }
    s_len = 0; /* RegisterDrvOutput: an id, and what may be its path */
    number(0), number(0);
    read_in(__LINE__, LINTELOW_PORTED, 42, 30, one);
    read_in(__LINE__, LINTELOW_PORTED, 42, 31, one);
    for (i = 0; i < sizeof published; i++) {
        read_in(__LINE__, published[i], 42, 30, two);
        read_in(__LINE__, published[i], 42, 31, one);
    }
    s_len = 0; /* the path is no text */
    number(0), number(1), number(0xff);
    CALLED("read_op_args, the second no text", 3,
           lintelow_read_op_args(LINTELOW_PUBLISHED, 42, 1, 30, s, s_len, entries, sizeof entries, NULL, 0, block, n));
    EXPECT("place", at(block, PLACE), 16);
    CALLED("skip_op_args, the second no text", 0, lintelow_skip_op_args(LINTELOW_PUBLISHED, 42, 1, 30, s, s_len, block, n));
    EXPECT("end", at(block, END), 24);
    EXPECT("start of the first", at(block, NUMBERS + 1), 8);
}

static void replies(void) {
    s_len = 0; /* QueryMissing: three sets and two numbers */
    number(1), string("a"), number(0), number(2), string("b"), string("c"), number(8), number(9);
    CALLED("read_daemon_result", 0, lintelow_read_daemon_result(40, 1, 38, s, s_len, entries, sizeof entries, payload, sizeof payload, block, n));
    EXPECT("kind", at(block, KIND), 11);
    EXPECT("end", at(block, END), s_len);
    EXPECT("entries", at(block, ENTRIES), 3);
    EXPECT("will build", at(block, COUNTS), 1);
    EXPECT("will substitute", at(block, COUNTS + 1), 0);
    EXPECT("unknown", at(block, COUNTS + 2), 2);
    EXPECT("download size", at(block, NUMBERS), 8);
    EXPECT("nar size", at(block, NUMBERS + 1), 9);
    CALLED("skip_daemon_result", 0, lintelow_skip_daemon_result(40, 1, 38, s, s_len, block, n));
    EXPECT("end", at(block, END), s_len);

    s[16] = 0xff;
    CALLED("read_daemon_result, bad text", 3, lintelow_read_daemon_result(40, 1, 38, s, s_len, entries, sizeof entries, NULL, 0, block, n));
    EXPECT("place", at(block, PLACE), 16);
    CALLED("skip_daemon_result, bad text", 0, lintelow_skip_daemon_result(40, 1, 38, s, s_len, block, n));
    CALLED("skip_daemon_result, cut short", 1, lintelow_skip_daemon_result(40, 1, 38, s, s_len - 1, block, n));
    EXPECT("place", at(block, PLACE), s_len - 8);

    CALLED("read_daemon_result of nothing", 0, lintelow_read_daemon_result(42, 1, 38, NULL, 0, NULL, 0, NULL, 0, block, n));
    CALLED("skip_daemon_result of nothing", 0, lintelow_skip_daemon_result(42, 1, 38, NULL, 0, block, n));
}

static void messages(void) {
    s_len = 0;
    number(ERROR), string("Error"), number(1), string("name"), string("message"), number(0);
    CALLED("read_stderr_loop", 0, lintelow_read_stderr_loop(s, s_len, block, n));
    EXPECT("count", at(block, NUMBERS), 1);
    EXPECT("terminal code", at(block, NUMBERS + 1), ERROR);
    EXPECT("end", at(block, END), 8);
    CALLED("read_stderr_with_error", 0, lintelow_read_stderr_with_error(LINTELOW_PORTED, 1, 38, s, s_len, entries, sizeof entries, block, n));
    EXPECT("kind", at(block, KIND), 0);
    EXPECT("level", at(block, NUMBERS + 2), 1);
    EXPECT("traces", at(block, COUNTS), 0);
    EXPECT("entries", at(block, ENTRIES), 3);
    EXPECT("end", at(block, END), s_len);
    EXPECT("length of message", at(entries, 5), 7);
    CALLED("read_stderr_with_error, cut short", 1,
           lintelow_read_stderr_with_error(LINTELOW_PORTED, 1, 38, s, s_len - 8, entries, sizeof entries, block, n));
    EXPECT("place", at(block, PLACE), s_len - 8);

    CALLED("read_stderr_loop of nothing", 0, lintelow_read_stderr_loop(NULL, 0, block, n));
    EXPECT("terminal code", at(block, NUMBERS + 1), 0);
    CALLED("read_stderr_with_error of nothing", 0, lintelow_read_stderr_with_error(LINTELOW_PORTED, 1, 38, NULL, 0, NULL, 0, block, n));
    CALLED("read_stderr_with_error of nothing", 0, lintelow_read_stderr_with_error(LINTELOW_PUBLISHED, 1, 38, NULL, 0, NULL, 0, block, n));
    s_len = 0;
    number(NEXT), number(268435457);
    CALLED("read_stderr_loop, too long", 2, lintelow_read_stderr_loop(s, s_len, block, n));
    EXPECT("place", at(block, PLACE), 8);
}

/* What one mode makes of an error at a version; `number` is the level or the exit status. */
struct error {
    uint64_t kind, end, number, traces;
    size_t entries;
};

/* `places` has the start and the length of each entry. */
static void error_in(int line, uint8_t mode, uint16_t major, uint8_t minor, struct error of, const uint64_t *places) {
    uint64_t messages = at(s, 0) == NEXT ? 2 : 1;
    size_t i;
    CALLED("read_stderr_with_error in a mode", 0, lintelow_read_stderr_with_error(mode, major, minor, s, s_len, entries, sizeof entries, block, n));
    expect(line, "kind", at(block, KIND), of.kind);
    expect(line, "end", at(block, END), of.end);
    expect(line, "end2", at(block, END2), 0);
    expect(line, "entries", at(block, ENTRIES), of.entries);
    expect(line, "payload", at(block, PAYLOAD), 0);
    expect(line, "messages", at(block, NUMBERS), messages);
    expect(line, "terminal code", at(block, NUMBERS + 1), ERROR);
    expect(line, "level or exit status", at(block, NUMBERS + 2), of.number);
    for (i = NUMBERS + 3; i < COUNTS; i++) expect(line, "a number that an error lacks", at(block, i), 0);
    expect(line, "traces", at(block, COUNTS), of.traces);
    for (i = COUNTS + 1; i < LATER; i++) expect(line, "a count that an error lacks", at(block, i), 0);
    for (i = 0; i < 2 * of.entries; i++) expect(line, "start or length", at(entries, i), places[i]);
    expect(line, "slots kept", filled(entries, sizeof entries), sizeof entries - of.entries * LINTELOW_ENTRY);
    expect(line, "payload's room kept", filled(payload, sizeof payload), sizeof payload);
}

/* A message, and an error from 1.26 on with so many traces. */
static void traced(size_t traces) {
    s_len = 0;
    number(NEXT), string("log"); /* 0, 8 */
    number(ERROR), string("Error"), number(3), string("name"), string("message"); /* 24, 32, 48, 56, 72 */
    number(0), number(traces); /* 88, 96 */
    if (traces > 0) number(0), string("first"); /* 104, 112 */
    if (traces > 1) number(0), string("second trace"); /* 128, 136 */
}

/* Errors by mode and version. */
static void errors(void) {
    static const uint8_t published[4] = {LINTELOW_PUBLISHED, 2, 128, 255};
    /* start and length: type, name, message, two traces; a message alone */
    static const uint64_t strings[10] = {40, 5, 64, 4, 80, 7, 120, 5, 144, 12}, message[2] = {16, 7};
    static const uint64_t ends[3] = {104, 128, 160};
    static const uint64_t empty[6] = {16, 0, 32, 0, 40, 0};
    static const struct error ported = {0, 48, 0, 0, 3}, none = {1, 56, 0, 0, 3}, shorter = {2, 24, 0, 0, 1};
    size_t i, traces;
    for (traces = 0; traces <= 2; traces++) {
        struct error of = {1, 0, 3, 0, 3};
        of.end = ends[traces], of.traces = traces, of.entries += traces;
        traced(traces);
        EXPECT("the stream's end", s_len, of.end);
        number(LAST); /* of the next call */
        for (i = 0; i < sizeof published; i++) {
            error_in(__LINE__, published[i], 1, 26, of, strings);
            error_in(__LINE__, published[i], 1, 38, of, strings);
        }
        error_in(__LINE__, LINTELOW_PUBLISHED, 2, 0, of, strings);
        of.kind = 0, of.end = 96, of.traces = 0, of.entries = 3; /* it ends at the position */
        error_in(__LINE__, LINTELOW_PORTED, 1, 26, of, strings);
    }

    s_len = 0; /* below 1.26: message and exit status */
    number(ERROR), string("message"), number(100), number(LAST);
    for (i = 0; i < sizeof published; i++) {
        static const struct error of = {2, 32, 100, 0, 1};
        error_in(__LINE__, published[i], 1, 25, of, message);
        error_in(__LINE__, published[i], 1, 21, of, message);
    }

    s_len = 0; /* the smallest bytes that show the difference */
    number(ERROR), number(0), number(0), number(0), number(0), number(0), number(0);
    for (i = 0; i < sizeof published; i++) {
        error_in(__LINE__, published[i], 1, 25, shorter, empty);
        error_in(__LINE__, published[i], 1, 26, none, empty);
    }
    error_in(__LINE__, LINTELOW_PUBLISHED, 0, 255, shorter, empty);
    error_in(__LINE__, LINTELOW_PUBLISHED, 2, 0, none, empty);
    error_in(__LINE__, LINTELOW_PUBLISHED, 65535, 255, none, empty);
    error_in(__LINE__, LINTELOW_PORTED, 0, 255, ported, empty);
    error_in(__LINE__, LINTELOW_PORTED, 1, 25, ported, empty);
    error_in(__LINE__, LINTELOW_PORTED, 1, 26, ported, empty);
    error_in(__LINE__, LINTELOW_PORTED, 2, 0, ported, empty);

    s_len = 0; /* no error */
    number(NEXT), string("log"), number(LAST);
    for (i = 25; i <= 26; i++) {
        CALLED("read_stderr_with_error, Last", 0,
               lintelow_read_stderr_with_error(LINTELOW_PUBLISHED, 1, (uint8_t)i, s, s_len, entries, sizeof entries, block, n));
        EXPECT("kind", at(block, KIND), 0);
        EXPECT("end", at(block, END), s_len);
        EXPECT("messages", at(block, NUMBERS), 2);
        EXPECT("terminal code", at(block, NUMBERS + 1), LAST);
        EXPECT("slots kept", filled(entries, sizeof entries), sizeof entries);
    }
}

/* A published error that is refused, with room for so many bytes of entries; where. */
#define REFUSED(name, minor, room, should_be, place)                                                                                         \
    do {                                                                                                                                     \
        CALLED(name, should_be, lintelow_read_stderr_with_error(LINTELOW_PUBLISHED, 1, minor, s, s_len, entries, room, block, n));           \
        EXPECT("place", at(block, PLACE), place);                                                                                            \
        EXPECT("stream", at(block, STREAM), 0);                                                                                              \
    } while (0)

static void refused_errors(void) {
    static const size_t positions[3] = {88, 104, 128};
    size_t i, b;
    for (i = 0; i < 3; i++) {
        for (b = 0; b < 8; b++) {
            traced(2);
            s[positions[i] + b] = 1;
            REFUSED("an error, a position not 0", 26, sizeof entries, 15, positions[i]);
        }
        s_len = positions[i] + 7, s[positions[i]] = 1;
        REFUSED("an error, a position cut short", 26, sizeof entries, 1, positions[i]);
    }
    traced(1);
    s[88] = 1; /* to nix-wire a string and two numbers follow */
    CALLED("an error, ported, a position", 0, lintelow_read_stderr_with_error(LINTELOW_PORTED, 1, 26, s, s_len, entries, sizeof entries, block, n));
    EXPECT("end", at(block, END), 128);

    traced(2); /* too few slots: the string's length */
    REFUSED("an error, no slot", 26, 15, 4, 32);
    REFUSED("an error, 2 slots", 26, 47, 4, 72);
    REFUSED("an error, 3 slots", 26, 3 * LINTELOW_ENTRY, 4, 112);
    REFUSED("an error, 4 slots", 26, 5 * LINTELOW_ENTRY - 1, 4, 136);
    CALLED("an error, 5 slots", 0,
           lintelow_read_stderr_with_error(LINTELOW_PUBLISHED, 1, 26, s, s_len, entries, 5 * LINTELOW_ENTRY, block, n));

    s[88] = 1; /* in the order of the stream */
    REFUSED("an error, 2 slots, a position", 26, 47, 4, 72);
    REFUSED("an error, 3 slots, a position", 26, 3 * LINTELOW_ENTRY, 15, 88);
    s[85] = 0xff;
    REFUSED("an error, bad text, a position", 26, sizeof entries, 3, 85);
    traced(2);
    s[104] = 1;
    REFUSED("an error, 3 slots, of a trace", 26, 3 * LINTELOW_ENTRY, 15, 104);
    s[104] = 0, s[122] = 0xff;
    REFUSED("an error, bad text in a trace", 26, sizeof entries, 3, 122);
    REFUSED("an error, 3 slots, bad text", 26, 3 * LINTELOW_ENTRY, 3, 122);
    s[128] = 1;
    REFUSED("an error, bad text, then 15", 26, sizeof entries, 3, 122);

    traced(1);
    s[96] = 2; /* a trace is missing; 2^64 - 1 of them are */
    REFUSED("an error, a trace missing", 26, sizeof entries, 1, 128);
    memset(s + 96, 0xff, 8);
    REFUSED("an error, all traces missing", 26, sizeof entries, 1, 128);
    s_len = 103;
    REFUSED("an error, the count cut short", 26, sizeof entries, 1, 96);

    s_len = 0;
    number(ERROR), string("message"), number(100);
    REFUSED("an error below 1.26, no slot", 25, 15, 4, 8);
    s_len -= 1;
    REFUSED("an error below 1.26, cut short", 25, sizeof entries, 1, 24);
    s[20] = 0xff;
    REFUSED("an error below 1.26, bad text", 25, sizeof entries, 3, 20);
    s_len = 0;
    number(ERROR), number(268435457);
    REFUSED("an error below 1.26, too long", 25, sizeof entries, 2, 8);
}

static void handshakes(void) {
    const uint8_t *daemon;
    size_t client_len, daemon_len;
    s_len = 0;
    number(CLIENT), number(0x126), number(1), string("one"), number(0), number(0);
    client_len = s_len;
    number(DAEMON), number(0x127), number(1), string("two"), string("2.99"), number(2), number(LAST);
    daemon = s + client_len;
    daemon_len = s_len - client_len;
    CALLED("parse_handshake", 0, lintelow_parse_handshake(s, client_len, daemon, daemon_len, entries, sizeof entries, block, n));
    EXPECT("end", at(block, END), client_len);
    EXPECT("end2", at(block, END2), daemon_len);
    EXPECT("entries", at(block, ENTRIES), 3);
    EXPECT("negotiated major", at(block, NUMBERS + 4), 1);
    EXPECT("negotiated minor", at(block, NUMBERS + 5), 38);
    EXPECT("version string", at(block, NUMBERS + 6), 1);
    EXPECT("trust is there", at(block, NUMBERS + 7), 1);
    EXPECT("trust", at(block, NUMBERS + 8), 2);
    EXPECT("length of the version string", at(entries, 5), 4);
    CALLED("parse_daemon_handshake", 0, lintelow_parse_daemon_handshake(1, 38, daemon, daemon_len, entries, sizeof entries, block, n));
    EXPECT("end", at(block, END), 0);
    EXPECT("end2", at(block, END2), daemon_len);
    EXPECT("entries", at(block, ENTRIES), 2);

    CALLED("parse_handshake, sides turned", 6, lintelow_parse_handshake(daemon, daemon_len, s, client_len, entries, sizeof entries, block, n));
    CALLED("parse_daemon_handshake, client's", 7, lintelow_parse_daemon_handshake(1, 38, s, client_len, entries, sizeof entries, block, n));
    EXPECT("stream", at(block, STREAM), 1);
    CALLED("parse_daemon_handshake, not Last", 8, lintelow_parse_daemon_handshake(1, 10, daemon, daemon_len, entries, sizeof entries, block, n));
    EXPECT("place", at(block, PLACE), 16);

    CALLED("parse_handshake of nothing", 1, lintelow_parse_handshake(NULL, 0, NULL, 0, NULL, 0, block, n));
    CALLED("parse_daemon_handshake of nothing", 1, lintelow_parse_daemon_handshake(1, 38, NULL, 0, NULL, 0, block, n));
}

static void pieces(void) {
    s_len = 0;
    number(7), string("bin7"), number(2), string("a"), string("bc"), number(2), memcpy(s + s_len, "xy", 2), s_len += 2;
    number(0);
    CALLED("read_u64", 0, lintelow_read_u64(s, s_len, 8, block, n));
    EXPECT("number", at(block, NUMBERS), 4);
    EXPECT("end", at(block, END), 16);
    CALLED("read_u64 past the end", 1, lintelow_read_u64(s, s_len, (size_t)-1, block, n));
    EXPECT("place", at(block, PLACE), (uint64_t)-1);
    CALLED("read_u32", 0, lintelow_read_u32(s, s_len, 16, block, n));
    EXPECT("number", at(block, NUMBERS), 0x376e6962);
    EXPECT("end", at(block, END), 20);
    CALLED("read_u32, cut short", 1, lintelow_read_u32(s, s_len, s_len - 3, block, n));
    EXPECT("place", at(block, PLACE), s_len - 3);
    CALLED("peek_u64", 0, lintelow_peek_u64(s, s_len, 8, block, n));
    EXPECT("kind", at(block, KIND), 1);
    EXPECT("number", at(block, NUMBERS), 4);
    EXPECT("end", at(block, END), 8);
    CALLED("peek_u64, seven bytes left", 0, lintelow_peek_u64(s, s_len, s_len - 7, block, n));
    EXPECT("kind", at(block, KIND), 0);
    EXPECT("number", at(block, NUMBERS), 0);
    CALLED("read_bytes", 0, lintelow_read_bytes(s, s_len, 8, block, n));
    EXPECT("entries", at(block, ENTRIES), 1);
    EXPECT("start", at(block, NUMBERS + 1), 16);
    EXPECT("length", at(block, NUMBERS + 2), 4);
    CALLED("read_string", 0, lintelow_read_string(s, s_len, 8, block, n));
    EXPECT("start", at(block, NUMBERS + 1), 16);
    EXPECT("end", at(block, END), 24);
    CALLED("skip_string", 0, lintelow_skip_string(s, s_len, 8, block, n));
    EXPECT("end", at(block, END), 24);
    CALLED("read_string_set", 0, lintelow_read_string_set(s, s_len, 24, entries, sizeof entries, block, n));
    EXPECT("count", at(block, COUNTS), 2);
    EXPECT("entries", at(block, ENTRIES), 2);
    EXPECT("start", at(entries, 2), 56);
    EXPECT("end", at(block, END), 64);
    CALLED("read_string_set, 1 slot", 4, lintelow_read_string_set(s, s_len, 24, entries, LINTELOW_ENTRY, block, n));
    EXPECT("place", at(block, PLACE), 48);
    CALLED("skip_string_set", 0, lintelow_skip_string_set(s, s_len, 24, block, n));
    EXPECT("count", at(block, NUMBERS), 2);
    EXPECT("end", at(block, END), 64);
    CALLED("read_framed", 0, lintelow_read_framed(s, s_len, 64, payload, sizeof payload, block, n));
    EXPECT("end", at(block, END), s_len);
    EXPECT("payload", at(block, PAYLOAD), 2);
    EXPECT("payload's bytes", (uint64_t)memcmp(payload, "xy", 2), 0);
    EXPECT("room kept", filled(payload, sizeof payload), sizeof payload - 2);
    CALLED("read_framed, 1 byte of room", 5, lintelow_read_framed(s, s_len, 64, payload, 1, block, n));
    EXPECT("place", at(block, PLACE), 64);
    CALLED("skip_framed", 0, lintelow_skip_framed(s, s_len, 64, block, n));
    EXPECT("total", at(block, NUMBERS), 2);
    EXPECT("end", at(block, END), s_len);
    s[18] = 0xff;
    CALLED("read_bytes, bad text", 0, lintelow_read_bytes(s, s_len, 8, block, n));
    CALLED("skip_string, bad text", 0, lintelow_skip_string(s, s_len, 8, block, n));
    CALLED("read_string, bad text", 3, lintelow_read_string(s, s_len, 8, block, n));
    EXPECT("place", at(block, PLACE), 18);
    CALLED("read_string, cut at the bad byte", 1, lintelow_read_string(s, 18, 8, block, n));
    EXPECT("contents", at(block, PLACE), 16);

    CALLED("read_u64 of nothing", 1, lintelow_read_u64(NULL, 0, 0, block, n));
    CALLED("read_u32 of nothing", 1, lintelow_read_u32(NULL, 0, 0, block, n));
    CALLED("peek_u64 of nothing", 0, lintelow_peek_u64(NULL, 0, 0, block, n));
    CALLED("read_bytes of nothing", 1, lintelow_read_bytes(NULL, 0, 0, block, n));
    CALLED("read_string of nothing", 1, lintelow_read_string(NULL, 0, 0, block, n));
    CALLED("skip_string of nothing", 1, lintelow_skip_string(NULL, 0, 0, block, n));
    CALLED("read_string_set of nothing", 1, lintelow_read_string_set(NULL, 0, 0, NULL, 0, block, n));
    CALLED("skip_string_set of nothing", 1, lintelow_skip_string_set(NULL, 0, 0, block, n));
    CALLED("read_framed of nothing", 1, lintelow_read_framed(NULL, 0, 0, NULL, 0, block, n));
    CALLED("skip_framed of nothing", 1, lintelow_skip_framed(NULL, 0, 0, block, n));
}

/* What a writer wrote into the room, which is the payload's here: these bytes, their length twice in the answer, and nothing beyond. */
static void wrote(int line, const void *bytes, size_t length) {
    expect(line, "end", at(block, END), length);
    expect(line, "written", at(block, PAYLOAD), length);
    expect(line, "bytes", (uint64_t)memcmp(payload, bytes, length), 0);
    expect(line, "room kept", filled(payload, sizeof payload), sizeof payload - length);
}

#define WROTE(bytes, length) wrote(__LINE__, bytes, length)

static void writers(void) {
    static const uint8_t abc[3] = {'a', 'b', 'c'}, bad[1] = {0xff};
    static const uint8_t one[LINTELOW_ENTRY] = {1, 0, 0, 0, 0, 0, 0, 0, 2}, past[LINTELOW_ENTRY] = {2, 0, 0, 0, 0, 0, 0, 0, 2};
    CALLED("write_u64", 0, lintelow_write_u64(payload, sizeof payload, 0x61626364, block, n));
    WROTE("dcba\0\0\0", 8);
    CALLED("write_u64, 7 bytes of room", 10, lintelow_write_u64(payload, 7, 1, block, n));
    CALLED("write_u32", 0, lintelow_write_u32(payload, sizeof payload, 0x61626364, block, n));
    WROTE("dcba", 4);
    CALLED("write_u32, 3 bytes of room", 10, lintelow_write_u32(payload, 3, 1, block, n));
    CALLED("write_bytes", 0, lintelow_write_bytes(payload, sizeof payload, bad, 1, block, n));
    WROTE("\1\0\0\0\0\0\0\0\xff\0\0\0\0\0\0", 16);
    CALLED("write_bytes, 15 bytes of room", 10, lintelow_write_bytes(payload, 15, bad, 1, block, n));
    CALLED("write_string", 0, lintelow_write_string(payload, sizeof payload, abc, 3, block, n));
    WROTE("\3\0\0\0\0\0\0\0abc\0\0\0\0", 16);
    CALLED("write_string, bad text", 3, lintelow_write_string(payload, sizeof payload, bad, 1, block, n));
    CALLED("write_string_set", 0, lintelow_write_string_set(payload, sizeof payload, abc, 3, one, sizeof one, 0, block, n));
    WROTE("\0\0\0\0\0\0\0", 8);
    CALLED("write_string_set, too full", 10, lintelow_write_string_set(payload, sizeof payload, abc, 3, one, sizeof one, 1, block, n));
    CALLED("write_string_set, 2 entries", 11, lintelow_write_string_set(payload, sizeof payload, abc, 3, one, sizeof one, 2, block, n));
    EXPECT("place", at(block, PLACE), 2);
    CALLED("write_string_set, bad entry", 12, lintelow_write_string_set(payload, sizeof payload, abc, 3, past, sizeof past, 1, block, n));
    CALLED("write_framed", 0, lintelow_write_framed(payload, sizeof payload, NULL, 0, block, n));
    WROTE("\0\0\0\0\0\0\0", 8);
    CALLED("write_framed, 16 bytes of room", 10, lintelow_write_framed(payload, sizeof payload, abc, 3, block, n));
    CALLED("write_mode", 0, lintelow_write_mode(payload, sizeof payload, 2, block, n));
    WROTE("check", 5);
    CALLED("write_mode, 4 bytes of room", 10, lintelow_write_mode(payload, 4, 2, block, n));
    CALLED("write_paths", 0, lintelow_write_paths(payload, sizeof payload, 12, block, n));
    WROTE("12 paths", 8);
    CALLED("write_paths, 7 bytes of room", 10, lintelow_write_paths(payload, 7, 12, block, n));
    CALLED("write_overrides", 0, lintelow_write_overrides(payload, sizeof payload, 0, block, n));
    WROTE("0 overrides", 11);
    CALLED("write_overrides without room", 10, lintelow_write_overrides(NULL, 0, 0, block, n));

    CALLED("write_u64 without room", 10, lintelow_write_u64(NULL, 0, 0, block, n));
    CALLED("write_u32 without room", 10, lintelow_write_u32(NULL, 0, 0, block, n));
    CALLED("write_bytes without room", 10, lintelow_write_bytes(NULL, 0, NULL, 0, block, n));
    CALLED("write_string without room", 10, lintelow_write_string(NULL, 0, NULL, 0, block, n));
    CALLED("write_string_set without room", 10, lintelow_write_string_set(NULL, 0, NULL, 0, NULL, 0, 0, block, n));
    CALLED("write_framed without room", 10, lintelow_write_framed(NULL, 0, NULL, 0, block, n));
    CALLED("write_mode without room", 10, lintelow_write_mode(NULL, 0, 0, block, n));
    CALLED("write_paths without room", 10, lintelow_write_paths(NULL, 0, 0, block, n));
}

/* Arguments at 1.38 that are written from a record of `given` bytes, the three bytes c and the entry e. */
#define WRITE(op, record, given, c, e, room) \
    lintelow_write_op_args(LINTELOW_PORTED, op, 1, 38, record, given, c, 3, e, LINTELOW_ENTRY, NULL, 0, payload, room, block, n)

static void calls(void) {
    static const uint8_t abc[3] = {'a', 'b', 'c'}, bad[3] = {'a', 0xff, 'c'};
    static const uint8_t one[LINTELOW_ENTRY] = {1, 0, 0, 0, 0, 0, 0, 0, 2}, past[LINTELOW_ENTRY] = {2, 0, 0, 0, 0, 0, 0, 0, 2};
    static const uint8_t flags[120] = {1, 0, 0, 0, 0, 0, 0, 0, 1};
    static uint8_t longer[121], many[120], read[LINTELOW_BLOCK], out[sizeof s], strings[8 * LINTELOW_ENTRY], joined[16];
    size_t i;
    CALLED("write_op_args", 0, WRITE(1, NULL, 0, abc, one, sizeof payload));
    WROTE("\2\0\0\0\0\0\0\0bc\0\0\0\0\0", 16);
    EXPECT("kind", at(block, KIND), 0);
    CALLED("write_op_args, two flags", 0, WRITE(35, flags, sizeof flags, abc, one, sizeof payload));
    WROTE("\1\0\0\0\0\0\0\0\1\0\0\0\0\0\0", 16);
    memcpy(longer, flags, sizeof flags), longer[120] = FILL;
    CALLED("write_op_args, a longer record", 0, WRITE(35, longer, sizeof longer, abc, one, sizeof payload));
    WROTE("\1\0\0\0\0\0\0\0\1\0\0\0\0\0\0", 16);
    CALLED("write_op_args, a shorter record", 0, WRITE(35, flags, 8, abc, one, sizeof payload));
    WROTE("\1\0\0\0\0\0\0\0\0\0\0\0\0\0\0", 16);
    CALLED("write_op_args, unknown", 9, WRITE(48, flags, sizeof flags, abc, past, sizeof payload));
    CALLED("write_op_args, not known", 13, WRITE(36, flags, sizeof flags, abc, past, sizeof payload));
    CALLED("write_op_args, no such number", 14, WRITE(1, flags, sizeof flags, abc, past, sizeof payload));
    memset(many + 96, 0xff, 8); /* SetOptions: 2^64 - 1 pairs */
    CALLED("write_op_args, too many pairs", 11, WRITE(19, many, sizeof many, abc, past, sizeof payload));
    EXPECT("place", at(block, PLACE), UINT64_MAX);
    CALLED("write_op_args, bad entry", 12, WRITE(1, NULL, 0, bad, past, 15));
    CALLED("write_op_args, bad text", 3, WRITE(1, NULL, 0, bad, one, 15));
    CALLED("write_op_args, 15 bytes of room", 10, WRITE(1, NULL, 0, abc, one, 15));
    CALLED("write_op_args, no such payload", 14,
           lintelow_write_op_args(LINTELOW_PORTED, 13, 1, 38, NULL, 0, NULL, 0, NULL, 0, abc, 3, payload, sizeof payload, block, n));
    CALLED("write_op_args of nothing", 0,
           lintelow_write_op_args(LINTELOW_PUBLISHED, 13, 1, 38, NULL, 0, NULL, 0, NULL, 0, NULL, 0, NULL, 0, block, n));
    EXPECT("end", at(block, END), 0);

    s_len = 0; /* AddToStore, written again from its own block */
    string("name"), string("text:sha256"), number(1), string("/nix/store/x"), number(1);
    number(3), memcpy(s + s_len, "abc", 3), s_len += 3;
    number(0);
    EXPECT("read", lintelow_read_op_args(LINTELOW_PORTED, 7, 1, 38, s, s_len, strings, sizeof strings, joined, sizeof joined, read, sizeof read), 0);
    memset(out, FILL, sizeof out);
    CALLED("write_op_args of what was read", 0,
           lintelow_write_op_args(LINTELOW_PORTED, 7, 1, 38, read + 64, 120, s, s_len, strings, LINTELOW_ENTRY * at(read, ENTRIES), joined,
                                  at(read, PAYLOAD), out, sizeof out, block, n));
    EXPECT("end", at(block, END), s_len);
    EXPECT("length", at(block, PAYLOAD), s_len);
    EXPECT("the same bytes", (uint64_t)memcmp(out, s, s_len), 0);
    for (i = s_len; i < sizeof out; i++) EXPECT("bytes beyond", out[i], FILL);
}

static void tests(void) {
    static const char path[] = "/nix/store/pczmyy74v7nix6zir6hbarllxr5swa31-dep";
    static const uint8_t one[LINTELOW_ENTRY] = {11, 0, 0, 0, 0, 0, 0, 0, 32};
    const uint8_t *bytes = (const uint8_t *)path;
    CALLED("extract_store_path", 0, lintelow_extract_store_path(bytes, 47, block, n));
    EXPECT("kind", at(block, KIND), 1);
    CALLED("extract_store_path, 43 bytes", 0, lintelow_extract_store_path(bytes, 43, block, n));
    EXPECT("kind", at(block, KIND), 0);
    CALLED("extract_store_path of nothing", 0, lintelow_extract_store_path(NULL, 0, block, n));
    EXPECT("kind", at(block, KIND), 0);
    CALLED("entry", 0, lintelow_entry(bytes, 47, one, sizeof one, 0, block, n));
    EXPECT("start", at(block, NUMBERS + 1), 11);
    EXPECT("length", at(block, NUMBERS + 2), 32);
    CALLED("entry, the second of one", 11, lintelow_entry(bytes, 47, one, sizeof one, 1, block, n));
    EXPECT("place", at(block, PLACE), 1);
    CALLED("entry past the bytes", 12, lintelow_entry(bytes, 42, one, sizeof one, 0, block, n));
    CALLED("entry of nothing", 11, lintelow_entry(NULL, 0, NULL, 0, 0, block, n));
    CALLED("op_has_client_framed_data 44", 0, lintelow_op_has_client_framed_data(44, block, n));
    EXPECT("kind", at(block, KIND), 1);
    CALLED("op_has_client_framed_data 6", 0, lintelow_op_has_client_framed_data(6, block, n));
    EXPECT("kind", at(block, KIND), 0);
    CALLED("op_has_client_framed_data 48", 9, lintelow_op_has_client_framed_data(48, block, n));
    CALLED("version_from_wire", 0, lintelow_version_from_wire(0x10126, block, n));
    EXPECT("major", at(block, NUMBERS), 1);
    EXPECT("minor", at(block, NUMBERS + 1), 38);
}

int main(void) {
    arguments();
    modes();
    replies();
    messages();
    errors();
    refused_errors();
    handshakes();
    pieces();
    writers();
    calls();
    tests();
    printf("%d failures\n", failures);
    return failures != 0;
}

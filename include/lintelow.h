/* Lintelow's calls for C and C++. They are in the archive liblintelow.a: `rust/library` makes it where it is missing or out of date, and prints its folder
 * (target/staticlib on x86-64, target/native on other processors). A program is built by
 *
 *     cc -Iinclude program.c "$(rust/library)/liblintelow.a" -o program
 *
 * SLICES. A slice is a pointer and a length in bytes. With length 0 any pointer is accepted, also the null pointer. A slice that is not const is lent: it is
 * memory that the caller owns and passes to a call for its answer. The call writes there only on success, and only what it reports; the block, which takes
 * errors too, is the exception. Room is how much lent memory there is, in bytes. Slices that are lent to one call must not overlap each other, nor a
 * slice that the call reads. No call keeps a pointer, allocates memory, or has state.
 *
 * STREAMS. A reader takes the part of a stream that starts where the last call ended. Places and ends count from that start, in bytes. Every stream,
 * operation number, version and amount of room is a valid input: each call ends with an answer or an error.
 *
 * ENTRIES. A string that is kept is returned as an entry, which says where its contents are in the stream: 16 bytes, start and then length, little-endian.
 * A slot is the room for one entry, so n bytes of room for entries are n / 16 slots. They are filled in reading order. The contents are text: valid UTF-8
 * as RFC 3629 defines it.
 *
 * PAYLOAD. The bytes of framed data, with the chunks joined.
 *
 * MODES. The functions that read, skip or write arguments, and the one that reads a daemon's error, take a mode first: 0 for the layouts of nix-wire
 * (ported), any other number for those of real daemons (published). The modes differ in two operations and in the daemon's errors. In published mode
 * operation 30 has pairs of path and content address from 1.22 on, instead of a set, and 42 has two strings below 1.31, instead of one; a daemon's error
 * has traces from 1.26 on, and below 1.26 it is a message and an exit status.
 *
 * THE ANSWER. A call returns 0 on success, else the number of its refusal. It writes its answer into the first 200 bytes of the block: 25 little-endian
 * numbers of eight bytes.
 *
 *     0      number of the refusal, 0 for success
 *     1, 2   its place; its stream: 1 for the daemon's stream of a handshake, else 0
 *     3      kind
 *     4, 5   end; end of the daemon's stream of a handshake
 *     6, 7   how many entries; length of the payload, or of what was written
 *     8-19   twelve numbers, 0 to 11
 *     20-22  three counts, 0 to 2
 *     23, 24 0, reserved
 *
 * Numbers and counts that a kind or a version does not have are 0. A flag is 0 or 1.
 *
 * On success the call writes the entries and the payload that it reports, and leaves the rest of the lent memory unchanged. On a refusal all of the
 * block's 25 numbers but the first three are 0, and the memory for entries and payload is unchanged. Bytes of the block after the first 200 never change. If
 * the block is shorter than 200 bytes, the call returns 10 and writes nothing at all.
 *
 * REFUSALS. A refusal is the library's error: a number and a place. "Error 6" is the refusal with number 6.
 *
 *     number, meaning                                                                     place
 *     1   cut short: a number, contents, padding or chunk needs more bytes than remain    start of that piece
 *     2   too long: a length above 268435456                                              the length
 *     3   bad text: a string isn't RFC 3629 text                                          the bad byte; in a writer the entry's index
 *     4   no entry room: a kept string has no slot                                        its length
 *     5   no payload room: a chunk doesn't fit in what is left                            its length
 *     6   the client's magic number is wrong                                              0
 *     7   the daemon's magic number is wrong                                              0
 *     8   not Last: the handshake's final number isn't Last                               that number
 *     9   unknown operation                                                               0
 *     10  output full: a writer's whole output doesn't fit, or the block is too short     0
 *     11  no such entry: index not below the slots, or count above them                   the index or count; for a call's single string 0
 *     12  bad entry: start + length is past the end of the bytes                          the entry's index
 *     13  no arguments: none are known for this operation and version                     0
 *     14  not of the shape: what the shape or version lacks isn't 0 or empty,             0
 *         or a flag is above 1
 *     15  nonzero position: a position in a daemon's error isn't 0                        that number
 *
 * The bad byte is where the string's first ill-formed sequence begins: the contents before it are text, and no longer prefix of them is. If the stream is
 * cut at the bad byte, the error is 1, and its place is the start of the contents.
 *
 * Pieces are checked in the order of the stream, and nothing is written before all of them are checked. */
#ifndef LINTELOW_H
#define LINTELOW_H

#include <stddef.h>
#include <stdint.h>

#ifdef __cplusplus
extern "C" {
#endif

/* Sizes in bytes of a block and of an entry. */
#define LINTELOW_BLOCK 200
#define LINTELOW_ENTRY 16

/* Modes. Every number except 0 is published. */
#define LINTELOW_PORTED 0
#define LINTELOW_PUBLISHED 1

/* Reads the arguments of operation `op` at version major.minor, from the client's stream after the operation's number. Errors 1, 2, 3, 4, 5, 9, 10.
 *
 *     kind                            entries                    numbers                              counts
 *     0  None, nothing was consumed
 *     1  SinglePath                   path
 *     2  SingleString                 value
 *     3  PathSet                      paths                                                           paths
 *     4  PathSetFlag                  paths                      substitute                           paths
 *     5  PathSetMode                  paths                      mode                                 paths
 *     6  NoArgs
 *     7  SetOptions                   name, value, ..            the twelve, in the stream's order    pairs
 *     8  CollectGarbage               paths                      action, ignore liveness, max freed   paths
 *     9  VerifyStore                                             check contents, repair
 *     10 AddPermRoot                  path, gc root
 *     11 AddSignatures                path, signatures                                                signatures
 *     12 AddTextToStore               suffix, text, refs                                              refs
 *     13 AddToStore, payload          name, cam, refs            repair                               refs
 *     14 AddMultipleToStore, payload                             repair, don't check
 *     15 AddBuildLog, payload         path
 *     16 RegisterDrvOutput            value
 *     17 QueryRealisation             value
 *     18 QuerySubstitutablePathInfo   path
 *     19 QuerySubstitutablePathInfos  paths                                                           paths
 *     20 QuerySubstitutablePairs      path, content address, ..                                       pairs
 *     21 RegisterDrvOutputOld         id, path
 *
 * Only published mode has kinds 20 (operation 30 from 1.22 on) and 21 (operation 42 below 1.31). */
uint64_t lintelow_read_op_args(uint8_t mode, uint64_t op, uint16_t major, uint8_t minor, const uint8_t *s, size_t s_len, uint8_t *entries,
                               size_t entries_len, uint8_t *payload, size_t payload_len, uint8_t *block, size_t block_len);

/* Skips the same arguments, and stops before framed data. No room is lent. Errors 1, 2, 3 (only for the string that is returned), 9, 10.
 *
 *     kind
 *     0  None, nothing was consumed
 *     1  the empty text
 *     2  one string: its start and length are numbers 1 and 2, and one entry is reported
 *     3  paths: number 0 is how many
 *     4  overrides: number 0 is how many
 *
 * AddToStore (7) below 1.25, which lintelow_read_op_args does not read, is skipped too: a string, two numbers and a string. In published mode the pairs of
 * operation 30 are counted as paths. Of the two strings of 42 the first is returned, and the second is skipped without a check that it is text. */
uint64_t lintelow_skip_op_args(uint8_t mode, uint64_t op, uint16_t major, uint8_t minor, const uint8_t *s, size_t s_len, uint8_t *block,
                               size_t block_len);

/* Reads the daemon's reply to operation `op`, from the daemon's stream after Last. Errors 1, 2, 3, 4, 5, 9, 10.
 *
 *     kind                        entries                                   numbers                          counts
 *     0  None
 *     1  U64                                                                the number
 *     2  Str                      the string
 *     3  PathInfo                 deriver, hash, references, signatures,    registration time, nar size,     references, signatures
 *                                 ca                                        ultimate
 *     4  PathInfo below 1.16      deriver, hash, references                 registration time, nar size      references
 *     5  no PathInfo
 *     6  StringSet                the strings                                                                strings
 *     7  StringMap                name, value, ..                                                            pairs
 *     8  CollectGarbage                                                     bytes freed
 *     9  SubstitutablePathInfo    deriver, references                       download size, nar size          references
 *     10 no SubstitutablePathInfo
 *     11 Missing                  will build, will substitute, unknown      download size, nar size          of each of the three
 *     12 Framed, payload
 *
 * In the map of operation 30 name and value are path and deriver. */
uint64_t lintelow_read_daemon_result(uint64_t op, uint16_t major, uint8_t minor, const uint8_t *s, size_t s_len, uint8_t *entries, size_t entries_len,
                                     uint8_t *payload, size_t payload_len, uint8_t *block, size_t block_len);

/* Skips the same reply, without a check that strings are text. Kind 0, and the end. Errors 1, 2, 9, 10. */
uint64_t lintelow_skip_daemon_result(uint64_t op, uint16_t major, uint8_t minor, const uint8_t *s, size_t s_len, uint8_t *block, size_t block_len);

/* Skips the daemon's messages. It reads no further than Last or Error; before that it stops at the first number that is not a message's code, or where fewer
 * than eight bytes are left, and does not consume these. Kind 0. Number 0 is how many messages, Last or Error included. Number 1 is the code of Last
 * (0x616c7473) or Error (0x63787470), or 0 if neither was found: then the stream may be cut there. Errors 1, 2, 10. */
uint64_t lintelow_read_stderr_loop(const uint8_t *s, size_t s_len, uint8_t *block, size_t block_len);

/* Skips the same messages and, after Error, reads the daemon's error at version major.minor. Errors 1, 2, 3, 4, 10, 15.
 *
 *     kind                                       entries                        number 2       count 0
 *     0  no Error
 *     0  Error, ported, at any version           type, name, message            level
 *     1  Error, published, from 1.26 on          type, name, message, traces    level          traces
 *     2  Error, published, below 1.26            message                        exit status
 *
 * In kind 1 the error has a position, and each trace has one: a number that must be 0, else error 15. A position that is cut short is error 1. */
uint64_t lintelow_read_stderr_with_error(uint8_t mode, uint16_t major, uint8_t minor, const uint8_t *s, size_t s_len, uint8_t *entries,
                                         size_t entries_len, uint8_t *block, size_t block_len);

/* Reads both sides of a handshake. Kind 0. Errors 1, 2, 3, 4, 6, 7, 8, 10.
 * Entries: the client's features, in the client's stream; then the daemon's features and, if number 6 is 1, its version string, in the daemon's stream.
 * Counts: the client's features (0) and the daemon's (1).
 * Numbers: major and minor of the client's version (0, 1), the daemon's (2, 3) and the negotiated one (4, 5); 1 if there is a version string (6);
 * 1 if there is a trust status (7); the trust status (8). */
uint64_t lintelow_parse_handshake(const uint8_t *client, size_t client_len, const uint8_t *daemon, size_t daemon_len, uint8_t *entries,
                                  size_t entries_len, uint8_t *block, size_t block_len);

/* Reads the daemon's side alone; major.minor is the client's version. The answer is the same, without the client's features, and `end` is 0.
 * Errors 1, 2, 3, 4, 7, 8, 10. */
uint64_t lintelow_parse_daemon_handshake(uint16_t major, uint8_t minor, const uint8_t *daemon, size_t daemon_len, uint8_t *entries, size_t entries_len,
                                         uint8_t *block, size_t block_len);

/* PIECES. These read s from the place `at` on, which may be any number. Places and ends count from the start of s. */

/* Number 0 is the number at that place, of eight bytes or of four. Errors 1, 10. */
uint64_t lintelow_read_u64(const uint8_t *s, size_t s_len, size_t at, uint8_t *block, size_t block_len);
uint64_t lintelow_read_u32(const uint8_t *s, size_t s_len, size_t at, uint8_t *block, size_t block_len);

/* Kind 1 and number 0 if eight bytes are left, else kind 0. Nothing is consumed: the end is `at`. Error 10. */
uint64_t lintelow_peek_u64(const uint8_t *s, size_t s_len, size_t at, uint8_t *block, size_t block_len);

/* A string with any contents; a string that must be text. One entry is reported: its start and length are numbers 1 and 2. Errors 1, 2, 10; for text
 * also 3. */
uint64_t lintelow_read_bytes(const uint8_t *s, size_t s_len, size_t at, uint8_t *block, size_t block_len);
uint64_t lintelow_read_string(const uint8_t *s, size_t s_len, size_t at, uint8_t *block, size_t block_len);

/* Skips a string with any contents: the end. Errors 1, 2, 10. */
uint64_t lintelow_skip_string(const uint8_t *s, size_t s_len, size_t at, uint8_t *block, size_t block_len);

/* Reads a set of strings: their entries; count 0 is how many. Errors 1, 2, 3, 4, 10. */
uint64_t lintelow_read_string_set(const uint8_t *s, size_t s_len, size_t at, uint8_t *entries, size_t entries_len, uint8_t *block, size_t block_len);

/* Skips a set: the end; number 0 is how many strings. Errors 1, 2, 10. */
uint64_t lintelow_skip_string_set(const uint8_t *s, size_t s_len, size_t at, uint8_t *block, size_t block_len);

/* Reads framed data: its payload. Errors 1, 2, 5, 10. */
uint64_t lintelow_read_framed(const uint8_t *s, size_t s_len, size_t at, uint8_t *payload, size_t payload_len, uint8_t *block, size_t block_len);

/* Skips framed data: the end; number 0 is the payload's length. Errors 1, 2, 10. */
uint64_t lintelow_skip_framed(const uint8_t *s, size_t s_len, size_t at, uint8_t *block, size_t block_len);

/* WRITERS. They write to the start of `out`; `end` is how many bytes. The rest of `out` is unchanged, and so is all of it on a refusal. */

/* A number, of eight bytes or of four. Error 10. */
uint64_t lintelow_write_u64(uint8_t *out, size_t out_len, uint64_t x, uint8_t *block, size_t block_len);
uint64_t lintelow_write_u32(uint8_t *out, size_t out_len, uint32_t x, uint8_t *block, size_t block_len);

/* A string with the contents c, which may be anything; a string whose contents must be text. Error 10; for text also 3, which is checked first. */
uint64_t lintelow_write_bytes(uint8_t *out, size_t out_len, const uint8_t *c, size_t c_len, uint8_t *block, size_t block_len);
uint64_t lintelow_write_string(uint8_t *out, size_t out_len, const uint8_t *c, size_t c_len, uint8_t *block, size_t block_len);

/* A set of the strings in `bytes` that the first `count` entries name. Errors, in this order: 11; for each entry 12 and 3; 10. */
uint64_t lintelow_write_string_set(uint8_t *out, size_t out_len, const uint8_t *bytes, size_t bytes_len, const uint8_t *entries, size_t entries_len,
                                   size_t count, uint8_t *block, size_t block_len);

/* Framed data with the payload c, in chunks of 32768 bytes. Error 10. */
uint64_t lintelow_write_framed(uint8_t *out, size_t out_len, const uint8_t *c, size_t c_len, uint8_t *block, size_t block_len);

/* Bare text, without length or padding: normal, repair, check for 0, 1, 2, else the number; "N paths"; "N overrides". Error 10. */
uint64_t lintelow_write_mode(uint8_t *out, size_t out_len, uint64_t n, uint8_t *block, size_t block_len);
uint64_t lintelow_write_paths(uint8_t *out, size_t out_len, uint64_t n, uint8_t *block, size_t block_len);
uint64_t lintelow_write_overrides(uint8_t *out, size_t out_len, uint64_t n, uint8_t *block, size_t block_len);

/* Writes the arguments of operation `op` at version major.minor, from what lintelow_read_op_args returns in that mode. Unlike in the writers above, `out`
 * comes after the inputs.
 *
 *     record    fifteen numbers, the twelve and then the three counts: 120 bytes, as they are at offset 64 of an answer block. Missing bytes are taken
 *               as 0, so a number that is cut keeps its low bytes; bytes after the first 120 are ignored
 *     entries   the strings, in reading order, as parts of `bytes`. Entries that the arguments do not use are ignored
 *     payload   of framed data, which is written in chunks of 32768 bytes
 *
 * So a call that was read is written again from offset 64 of its block, its stream, its entries and its payload. The answer goes into another block.
 * The obsolete numbers of CollectGarbage are written as 0. Kind 0; the answer's payload length and its end are the length written.
 *
 * Errors, of which the first that applies is returned, and their place:
 *
 *     9      unknown operation                                                            0
 *     13     no arguments are known: 36, 39, and 7 below 1.25                             0
 *     14     a number, flag, count or payload that the shape or version lacks isn't       0
 *            0 or empty, or a flag is above 1
 *     11     there are too few entries, checked field by field                            the count of the set or pairs; for a single string 0
 *     12, 3  for each entry that is used: it is past the end of the bytes; it isn't text  the entry's index
 *     10     the whole output doesn't fit                                                 0
 *
 * A count may be any number. 2^63 pairs or more need more entries than there can be: the error is 11, with the number of pairs as its place. */
uint64_t lintelow_write_op_args(uint8_t mode, uint64_t op, uint16_t major, uint8_t minor, const uint8_t *record, size_t record_len,
                                const uint8_t *bytes, size_t bytes_len, const uint8_t *entries, size_t entries_len, const uint8_t *payload,
                                size_t payload_len, uint8_t *out, size_t out_len, uint8_t *block, size_t block_len);

/* TESTS. */

/* Kind 1 if c is a store path, else kind 0. Error 10. */
uint64_t lintelow_extract_store_path(const uint8_t *c, size_t c_len, uint8_t *block, size_t block_len);

/* The entry at `index`, if it is within `bytes`: its start and length are numbers 1 and 2. Errors 10, 11, 12. */
uint64_t lintelow_entry(const uint8_t *bytes, size_t bytes_len, const uint8_t *entries, size_t entries_len, size_t index, uint8_t *block,
                        size_t block_len);

/* Kind 1 if the client sends framed data with the operation, else kind 0. Errors 9, 10. */
uint64_t lintelow_op_has_client_framed_data(uint64_t op, uint8_t *block, size_t block_len);

/* The version that a number on the wire stands for: numbers 0 and 1 are major and minor. Error 10. */
uint64_t lintelow_version_from_wire(uint64_t wire, uint8_t *block, size_t block_len);

#ifdef __cplusplus
}
#endif

#endif

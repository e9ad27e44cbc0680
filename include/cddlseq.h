/* cddlseq for programs in C: a stream of CBOR items (RFC 8742), in a buffer or in pieces, is validated against a specification in CDDL
   (RFC 8610), reported, and rewritten.

   A call that is given a text reads it anew; a handle has read one before. No call keeps a pointer of the caller's, prints, or ends
   the process. They take memory by malloc, realloc and free, and give back all of it but what a handle holds. A call may need 256 KiB
   of stack.

   Calls may be made from any thread, and from many at once, but not from a signal handler, nor from a forked child of a process with
   threads. A handle, of a specification or of a stream, may go from thread to thread, and is in one call at a time: the caller orders
   its calls, as by a lock, or by the start or the end of a thread. For calls at once each thread has a handle of its own, by
   cddlseq_share, or a session, by cddlseq_begin_by. Many may share one specification, which they only read.

   Whoever calls has to see to this, which nothing checks: no pointer is null, also where the length is 0; each points to as much
   as its length says, or to one struct; and what a call writes overlaps nothing else that it is given. */
#ifndef CDDLSEQ_H
#define CDDLSEQ_H

#include <stddef.h>
#include <stdint.h>

#ifdef __cplusplus
extern "C" {
#endif

/* What a call answers. */
enum cddlseq_status {
    /* The text is a specification. A stream is clean: all of its bytes are items that match. */
    CDDLSEQ_OK = 0,
    /* The stream has failed: its end says where and why. */
    CDDLSEQ_FAILED = 1,
    /* The text is refused: the refusal says where and why. */
    CDDLSEQ_REFUSED = 2,
    /* Memory was refused. */
    CDDLSEQ_NO_MEMORY = 3,
    /* The name of the root is not UTF-8. */
    CDDLSEQ_BAD_ROOT = 4,
    /* A limit is 0, or over the greatest. */
    CDDLSEQ_BAD_LIMITS = 5,
    /* What is wanted is no enum cddlseq_wanted. */
    CDDLSEQ_BAD_WANTED = 6,
    /* The offsets of the streams fall, or go beyond the bytes, or are not one more than the streams. */
    CDDLSEQ_BAD_OFFSETS = 7,
    /* The buffer has no room for what is wanted. */
    CDDLSEQ_NO_ROOM = 8,
    /* An item of a stream that comes in pieces matches. */
    CDDLSEQ_ITEM = 9,
    /* A stream that comes in pieces has ended before, and was clean. */
    CDDLSEQ_ENDED = 10,
    /* The handle, or the session, holds nothing. */
    CDDLSEQ_CLOSED = 11,
    /* The code of a refusal is no enum cddlseq_code. */
    CDDLSEQ_BAD_REFUSAL = 12,
    /* The name of the file is not UTF-8. */
    CDDLSEQ_BAD_FILE = 13,
    /* The word names no code and no cause. */
    CDDLSEQ_BAD_WORD = 14
};

/* What is wrong with a text. */
enum cddlseq_code {
    CDDLSEQ_NOT_REFUSED = 0,
    CDDLSEQ_S1_NOT_UTF8 = 1,
    CDDLSEQ_S2_BAD_CHARACTER = 2,
    CDDLSEQ_S3_UNCLOSED = 3,
    CDDLSEQ_S4_BAD_ESCAPE = 4,
    CDDLSEQ_S5_BAD_NUMBER = 5,
    CDDLSEQ_S6_FLOAT_LITERAL = 6,
    CDDLSEQ_S7_NUMBER_TOO_LARGE = 7,
    CDDLSEQ_S8_BAD_BYTES = 8,
    CDDLSEQ_S9_SOURCE_TOO_LONG = 9,
    CDDLSEQ_S10_UNEXPECTED = 10,
    CDDLSEQ_S11_TOO_NESTED = 11,
    CDDLSEQ_C1_DUPLICATE = 12,
    CDDLSEQ_C2_KIND_CLASH = 13,
    CDDLSEQ_C3_UNDEFINED = 14,
    CDDLSEQ_C4_ARITY = 15,
    CDDLSEQ_C5_NO_ROOT = 16,
    CDDLSEQ_C6_BAD_ROOT = 17,
    CDDLSEQ_C7_GROUP_AS_TYPE = 18,
    CDDLSEQ_C8_HASH_FORM = 19,
    CDDLSEQ_C9_UNKNOWN_CONTROL = 20,
    CDDLSEQ_C10_TOO_MANY_INSTANCES = 21,
    CDDLSEQ_C11_NOT_UNWRAPPABLE = 22,
    CDDLSEQ_C12_RECURSION = 23,
    CDDLSEQ_C13_NOT_LITERAL = 24,
    CDDLSEQ_C14_BAD_RANGE = 25,
    CDDLSEQ_C15_BAD_CONTROLLER = 26,
    CDDLSEQ_C16_NO_KEY = 27,
    CDDLSEQ_C17_MAP_SHAPE = 28,
    CDDLSEQ_C18_TOO_MANY_ALTERNATIVES = 29
};

/* Why a stream has failed. */
enum cddlseq_cause {
    CDDLSEQ_CLEAN = 0,
    CDDLSEQ_RESERVED_INFO = 1,
    CDDLSEQ_BAD_INDEFINITE = 2,
    CDDLSEQ_BAD_BREAK = 3,
    CDDLSEQ_BAD_CHUNK = 4,
    CDDLSEQ_BAD_SIMPLE = 5,
    CDDLSEQ_TOO_DEEP = 6,
    CDDLSEQ_TOO_LONG = 7,
    CDDLSEQ_TRUNCATED = 8,
    CDDLSEQ_BAD_TEXT = 9,
    CDDLSEQ_DUPLICATE_KEY = 10,
    CDDLSEQ_MISMATCH = 11,
    CDDLSEQ_STEP_LIMIT = 12
};

/* What may be wanted of a stream. */
enum cddlseq_wanted {
    /* A line for each item that matches, and one for the end. */
    CDDLSEQ_REPORT = 0,
    /* The line of the end. */
    CDDLSEQ_END_LINE = 1,
    /* The items that match, in preferred encoding (RFC 8949, section 4.1). */
    CDDLSEQ_PREFERRED = 2,
    /* The items that match, in deterministic encoding (RFC 8949, section 4.2.1). */
    CDDLSEQ_DETERMINISTIC = 3,
    /* The path of the place of a mismatch, and nothing of another end. */
    CDDLSEQ_PATH = 4,
    /* What is at that place, in diagnostic notation, and nothing of another end. */
    CDDLSEQ_NOTATION = 5
};

/* What is told of a text. All is 0 where it is not refused. */
struct cddlseq_refusal {
    /* An enum cddlseq_code. */
    uint32_t code;
    /* The byte of the text where it shows. */
    size_t offset;
    /* The line of that byte, from 1, and its column, from 1, in characters, as cddlseq_position tells them. */
    size_t line;
    size_t column;
};

/* Where an offset of a text is, for a reader. */
struct cddlseq_position {
    /* The line, from 1. */
    size_t line;
    /* The column, from 1, in characters. */
    size_t column;
};

/* What is told of a stream. */
struct cddlseq_end {
    /* How many items match. */
    uint64_t items;
    /* How many bytes these have: the offset of the item that fails, if one does. */
    uint64_t offset;
    /* An enum cddlseq_cause. */
    uint32_t cause;
    /* The byte of the stream where a fault shows; of a mismatch, and of a key that is there twice, the place in the item: it and
       all in it are numbered from 0 as they begin, a key before its value. */
    uint64_t place;
};

/* What an item may have. */
struct cddlseq_limits {
    /* How many containers may be round a place of it, from 1 to 256. */
    uint32_t depth;
    /* How many bytes, from 1 to 67108864. */
    uint32_t item_bytes;
    /* How many questions may be asked about it. */
    uint64_t steps;
};

/* The limits of the program, to begin a struct cddlseq_limits with. */
#define CDDLSEQ_LIMITS {256, 16777216, 10000000}

/* Says whether a text is a specification: CDDLSEQ_OK, _REFUSED, _NO_MEMORY or _BAD_ROOT. The root is the rule of this name, or
   where the name has no bytes the first rule. */
uint32_t cddlseq_check(
    const uint8_t *text, size_t text_length,
    const uint8_t *root, size_t root_length,
    struct cddlseq_refusal *refusal);

/* Tells the position of an offset of a text, as that of a refusal. A line ends with a line feed. An offset past the end of the text
   has the position of the end, and one inside of a character that of the next. Of bytes that are not UTF-8 each begins a character but
   those from 0x80 to 0xBF. Takes no memory. */
void cddlseq_position(
    const uint8_t *text, size_t text_length,
    size_t offset,
    struct cddlseq_position *position);

/* Says how a stream ends by a text: CDDLSEQ_OK or _FAILED, and then the end is told; or what cddlseq_check says, or _BAD_LIMITS,
   and then the end is left as it was. */
uint32_t cddlseq_validate(
    const uint8_t *text, size_t text_length,
    const uint8_t *root, size_t root_length,
    const uint8_t *stream, size_t stream_length,
    const struct cddlseq_limits *limits,
    struct cddlseq_refusal *refusal,
    struct cddlseq_end *end);

/* The same, and writes what is wanted of the stream, an enum cddlseq_wanted, to the front of the buffer, whose other bytes stay.
   The bytes wanted are as many as 'needed' says. Where there is no room for them none is written, and the answer is
   CDDLSEQ_NO_ROOM; the end is told then too. CDDLSEQ_BAD_WANTED tells nothing. */
uint32_t cddlseq_write(
    const uint8_t *text, size_t text_length,
    const uint8_t *root, size_t root_length,
    const uint8_t *stream, size_t stream_length,
    const struct cddlseq_limits *limits,
    uint32_t wanted,
    struct cddlseq_refusal *refusal,
    struct cddlseq_end *end,
    uint8_t *buffer, size_t buffer_length,
    size_t *needed);

/* Says how each of many streams ends by one text, which is read once. Stream k has the bytes from offset k up to offset k + 1, so
   there is one offset more than there are ends. CDDLSEQ_OK: all ends are told, whatever they are. CDDLSEQ_BAD_OFFSETS and
   _NO_MEMORY: as many as 'done' says are told, and the others are left as they were. */
uint32_t cddlseq_validate_many(
    const uint8_t *text, size_t text_length,
    const uint8_t *root, size_t root_length,
    const uint8_t *bytes, size_t bytes_length,
    const size_t *offsets, size_t offsets_length,
    const struct cddlseq_limits *limits,
    struct cddlseq_refusal *refusal,
    struct cddlseq_end *ends, size_t ends_length,
    size_t *done);

/* Explains a refusal that a call told of this text, with this root: writes to the front of the buffer the line of the refusal; the name of
   the file, the line and the column, and the name of the code; the line of the text, with a mark under the place; and what is wrong.
   CDDLSEQ_OK, or _NO_ROOM, with 'needed' as above; or, and then nothing is written and 'needed' is 0: _BAD_REFUSAL, _BAD_FILE and
   _BAD_ROOT, where the code is none or a name is not UTF-8, and _NO_MEMORY. The name of the file is what is to be told, and no file is
   looked for. */
uint32_t cddlseq_explain(
    const uint8_t *text, size_t text_length,
    const uint8_t *root, size_t root_length,
    const uint8_t *file, size_t file_length,
    const struct cddlseq_refusal *refusal,
    uint8_t *buffer, size_t buffer_length,
    size_t *needed);

/* Explains what a word names: the code of a refused text, by its number or its name, as "C3" or "Undefined", or the cause of a failed
   stream, by the words of its line, as "mismatch", in any case of their letters. Writes to the front of the buffer, in whole lines, of a
   code what is wrong, which byte is told and an example, and of a cause what it says, with an example. CDDLSEQ_OK, or _NO_ROOM, with
   'needed' as above; or, and then nothing is written and 'needed' is 0: _BAD_WORD and _NO_MEMORY. */
uint32_t cddlseq_explain_word(
    const uint8_t *word, size_t word_length,
    uint8_t *buffer, size_t buffer_length,
    size_t *needed);

/* A specification that was read once, with the limits of items; or nothing. It is made with CDDLSEQ_NOTHING, cddlseq_open and cddlseq_share
   have it hold a specification, and cddlseq_close frees that. Only calls write to it, one at a time; a copy of it is not to be used. A
   call by a handle that holds nothing answers CDDLSEQ_CLOSED, and tells and writes nothing. */
struct cddlseq_handle {
    void *at;
};

/* To begin a struct cddlseq_handle, or a struct cddlseq_session, with. */
#define CDDLSEQ_NOTHING {0}

/* Reads a text for many streams, and has the handle hold it: CDDLSEQ_OK, and what it held before is freed; or what cddlseq_validate says
   where nothing is said of a stream, and it holds what it held. */
uint32_t cddlseq_open(
    const uint8_t *text, size_t text_length,
    const uint8_t *root, size_t root_length,
    const struct cddlseq_limits *limits,
    struct cddlseq_refusal *refusal,
    struct cddlseq_handle *handle);

/* What cddlseq_validate says of a stream, by a handle: CDDLSEQ_OK, _FAILED or _NO_MEMORY; or _CLOSED. */
uint32_t cddlseq_validate_by(
    struct cddlseq_handle *handle,
    const uint8_t *stream, size_t stream_length,
    struct cddlseq_end *end);

/* What cddlseq_write says and writes of a stream, by a handle; or CDDLSEQ_CLOSED. */
uint32_t cddlseq_write_by(
    struct cddlseq_handle *handle,
    const uint8_t *stream, size_t stream_length,
    uint32_t wanted,
    struct cddlseq_end *end,
    uint8_t *buffer, size_t buffer_length,
    size_t *needed);

/* Frees what the handle holds, if it holds anything. It holds nothing then. */
void cddlseq_close(struct cddlseq_handle *handle);

/* Has another handle hold the same specification, which is not read anew: CDDLSEQ_OK, and what the other one held before is freed; or
   _NO_MEMORY or _CLOSED, and it holds what it held. The specification is freed with the last handle or session that holds it. */
uint32_t cddlseq_share(
    struct cddlseq_handle *handle,
    struct cddlseq_handle *other);

/* A stream that comes in pieces, with its specification; or nothing. cddlseq_begin and cddlseq_begin_by have it hold one, cddlseq_discard
   frees that, and else it is as a struct cddlseq_handle. It keeps nothing of the pieces but what it has read of the item in work, and the
   item that the last call of cddlseq_feed told.

       while ((length = read(device, piece, sizeof piece)) > 0) {
           for (size_t at = 0; at < length; at += used) {
               status = cddlseq_feed(&session, piece + at, length - at, &used, &end);
               if (status != CDDLSEQ_ITEM && status != CDDLSEQ_OK) {
                   return status;
               }
           }
       }
       return cddlseq_finish(&session, &end); */
struct cddlseq_session {
    void *at;
};

/* Reads a text, and has the session hold a stream at its first byte. It answers what cddlseq_open does. */
uint32_t cddlseq_begin(
    const uint8_t *text, size_t text_length,
    const uint8_t *root, size_t root_length,
    const struct cddlseq_limits *limits,
    struct cddlseq_refusal *refusal,
    struct cddlseq_session *session);

/* Begins a session by a specification that a handle holds, which is not read anew; there may be many over one handle. It answers what
   cddlseq_share does. The session may be used after the handle is closed. */
uint32_t cddlseq_begin_by(
    struct cddlseq_handle *handle,
    struct cddlseq_session *session);

/* Takes the next piece of the stream, up to the end of an item that it completes; 'used' says how many bytes of the piece are done
   with, and those after them are for the next call.

   CDDLSEQ_ITEM: an item matches, whose last byte is the last one used. CDDLSEQ_OK: the whole piece is used, and completes none. The
   end has how many items match so far, and how many bytes these have, and no cause: so an item begins where the end before had its
   offset, and ends where the next one has it.
   CDDLSEQ_FAILED: the stream has failed, whatever follows, and the end is told. CDDLSEQ_ENDED: it was finished before, and was clean.
   CDDLSEQ_NO_MEMORY: nothing is told, and each later call answers so, too. CDDLSEQ_CLOSED: nothing is told, and 'used' is 0. */
uint32_t cddlseq_feed(
    struct cddlseq_session *session,
    const uint8_t *piece, size_t piece_length,
    size_t *used,
    struct cddlseq_end *end);

/* Takes the next piece of the stream whole: CDDLSEQ_OK, _FAILED, _ENDED, _NO_MEMORY or _CLOSED, with the end as above. It holds all items
   of the piece at once, and keeps none. */
uint32_t cddlseq_feed_all(
    struct cddlseq_session *session,
    const uint8_t *piece, size_t piece_length,
    struct cddlseq_end *end);

/* Ends the stream, and tells its end: CDDLSEQ_OK or _FAILED, and again the same when it is asked again; or CDDLSEQ_NO_MEMORY, where a
   call answered so before; or CDDLSEQ_CLOSED. Takes no memory. */
uint32_t cddlseq_finish(
    struct cddlseq_session *session,
    struct cddlseq_end *end);

/* Writes to the front of the buffer the CDDLSEQ_PATH or the CDDLSEQ_NOTATION of the mismatch by which the stream has failed, and
   nothing of another stream; or the item that the last call of cddlseq_feed told, in encoding CDDLSEQ_PREFERRED or
   CDDLSEQ_DETERMINISTIC, and nothing where that was not CDDLSEQ_ITEM, or another stream has begun, or a piece was fed whole since:
   CDDLSEQ_OK, _NO_ROOM, _BAD_WANTED or _NO_MEMORY, with 'needed' as cddlseq_write has it; or _CLOSED. */
uint32_t cddlseq_show(
    struct cddlseq_session *session,
    uint32_t wanted,
    uint8_t *buffer, size_t buffer_length,
    size_t *needed);

/* Begins another stream by the same specification, whatever has come of the one before. Takes no memory. */
void cddlseq_restart(struct cddlseq_session *session);

/* Frees what the session holds, if it holds anything. It holds nothing then. */
void cddlseq_discard(struct cddlseq_session *session);

#ifdef __cplusplus
}
#endif

#endif

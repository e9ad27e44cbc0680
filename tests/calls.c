// Tests of the calls of include/cddlseq.h: what each answers where nothing is said of a stream, what it leaves as it was, and what
// comes of each request for memory that is refused: of all, or of each that comes after so many. Linked with --wrap for malloc and realloc.
#include "cddlseq.h"
#include <pthread.h>
#include <stdio.h>
#include <stdlib.h>
#include <string.h>

#define TEXT(it) (const uint8_t *)(it), strlen(it)
#define BYTES(it) (const uint8_t *)(it), sizeof(it) - 1
#define EXPECT(it) expect(it, #it, __LINE__)
// How much stack a call may need.
#ifndef STACK
#define STACK (256 * 1024)
#endif

static long before_refusal = -1;
static int was_refused, wrong;

void *__real_malloc(size_t size);
void *__real_realloc(void *block, size_t size);

static int is_refused(void) {
    if (before_refusal < 0) {
        return 0;
    }
    if (before_refusal == 0) {
        was_refused = 1;
        return 1;
    }
    before_refusal--;
    return 0;
}

void *__wrap_malloc(size_t size) {
    return is_refused() ? NULL : __real_malloc(size);
}

void *__wrap_realloc(void *block, size_t size) {
    return is_refused() ? NULL : __real_realloc(block, size);
}

static void expect(int holds, const char *what, int line) {
    if (!holds) {
        wrong++;
        printf("calls.c:%d: %s\n", line, what);
    }
}

static const struct cddlseq_limits limits = CDDLSEQ_LIMITS;
static const struct cddlseq_end untold = {7, 7, 7, 7};
static const char map[] = "m = {a: [* n], b: bstr .cbor n}\nn = uint .lt 10\n";

static int is_untold(const struct cddlseq_end *end) {
    return end->items == 7 && end->offset == 7 && end->cause == 7 && end->place == 7;
}

static int is_end(const struct cddlseq_end *end, uint64_t items, uint64_t offset, uint32_t cause, uint64_t place) {
    return end->items == items && end->offset == offset && end->cause == cause && end->place == place;
}

static int is_refusal(const struct cddlseq_refusal *refusal, uint32_t code, size_t offset, size_t line, size_t column) {
    return refusal->code == code && refusal->offset == offset && refusal->line == line && refusal->column == column;
}

static void check(void) {
    struct cddlseq_refusal refusal = {9, 9, 9, 9};
    EXPECT(cddlseq_check(TEXT(map), TEXT(""), &refusal) == CDDLSEQ_OK);
    EXPECT(is_refusal(&refusal, CDDLSEQ_NOT_REFUSED, 0, 0, 0));
    EXPECT(cddlseq_check(TEXT(map), TEXT("n"), &refusal) == CDDLSEQ_OK);
    EXPECT(cddlseq_check(TEXT(map), TEXT("no"), &refusal) == CDDLSEQ_REFUSED);
    EXPECT(refusal.code == CDDLSEQ_C5_NO_ROOT);
    EXPECT(cddlseq_check(TEXT("a = b\n"), TEXT(""), &refusal) == CDDLSEQ_REFUSED);
    EXPECT(is_refusal(&refusal, CDDLSEQ_C3_UNDEFINED, 4, 1, 5));
    EXPECT(cddlseq_check(TEXT(map), TEXT("\xff"), &refusal) == CDDLSEQ_BAD_ROOT);
    EXPECT(is_refusal(&refusal, CDDLSEQ_NOT_REFUSED, 0, 0, 0));
    EXPECT(cddlseq_check(TEXT("a = \"\xe2\x82\xac\" /\r\n  b\n"), TEXT(""), &refusal) == CDDLSEQ_REFUSED);
    EXPECT(is_refusal(&refusal, CDDLSEQ_C3_UNDEFINED, 15, 2, 3));
    EXPECT(cddlseq_check(TEXT("a = int\n;\xc3\xa9\x80\n"), TEXT(""), &refusal) == CDDLSEQ_REFUSED);
    EXPECT(is_refusal(&refusal, CDDLSEQ_S1_NOT_UTF8, 11, 2, 3));
}

static int is_position(const char *text, size_t length, size_t offset, size_t line, size_t column) {
    struct cddlseq_position position = {9, 9};
    cddlseq_position((const uint8_t *)text, length, offset, &position);
    return position.line == line && position.column == column;
}

static void position(void) {
    const char text[] = "a = \"\xc3\xa9\" / b\r\n\xe2\x82\xac\n";
    EXPECT(is_position("", 0, 0, 1, 1) && is_position("", 0, 5, 1, 1));
    EXPECT(is_position(text, 17, 0, 1, 1) && is_position(text, 17, 5, 1, 6) && is_position(text, 17, 7, 1, 7));
    EXPECT(is_position(text, 17, 6, 1, 7));
    EXPECT(is_position(text, 17, 12, 1, 12) && is_position(text, 17, 13, 1, 13) && is_position(text, 17, 14, 2, 1));
    EXPECT(is_position(text, 17, 17, 2, 2) && is_position(text, 18, 18, 3, 1) && is_position(text, 18, (size_t)-1, 3, 1));
    EXPECT(is_position("\n\x80\xff", 3, 1, 2, 1) && is_position("\n\x80\xff", 3, 2, 2, 1) && is_position("\n\x80\xff", 3, 3, 2, 2));
}

static void validate(void) {
    struct cddlseq_refusal refusal = {9, 9, 9, 9};
    struct cddlseq_end end = untold;
    EXPECT(cddlseq_validate(TEXT("a = b\n"), TEXT(""), BYTES("\x01"), &limits, &refusal, &end) == CDDLSEQ_REFUSED && is_untold(&end));
    EXPECT(is_refusal(&refusal, CDDLSEQ_C3_UNDEFINED, 4, 1, 5));
    EXPECT(cddlseq_validate(TEXT(map), TEXT("\x80"), BYTES("\x01"), &limits, &refusal, &end) == CDDLSEQ_BAD_ROOT && is_untold(&end));
    for (int number = 0; number < 4; number++) {
        const struct cddlseq_limits bad[] = {{0, 1, 1}, {257, 1, 1}, {1, 0, 1}, {1, 67108865, 1}};
        EXPECT(cddlseq_validate(TEXT(map), TEXT(""), BYTES("\x01"), &bad[number], &refusal, &end) == CDDLSEQ_BAD_LIMITS);
        EXPECT(is_untold(&end) && refusal.code == CDDLSEQ_NOT_REFUSED);
    }
    EXPECT(cddlseq_validate(TEXT(map), TEXT("n"), BYTES(""), &limits, &refusal, &end) == CDDLSEQ_OK && is_end(&end, 0, 0, 0, 0));
    EXPECT(cddlseq_validate(TEXT(map), TEXT("n"), BYTES("\x01\x18\x09"), &limits, &refusal, &end) == CDDLSEQ_OK);
    EXPECT(is_end(&end, 2, 3, CDDLSEQ_CLEAN, 0));
    EXPECT(cddlseq_validate(TEXT(map), TEXT("n"), BYTES("\x01\x0a\x01"), &limits, &refusal, &end) == CDDLSEQ_FAILED);
    EXPECT(is_end(&end, 1, 1, CDDLSEQ_MISMATCH, 0));
    EXPECT(cddlseq_validate(TEXT(map), TEXT("n"), BYTES("\x01\x1c"), &limits, &refusal, &end) == CDDLSEQ_FAILED);
    EXPECT(is_end(&end, 1, 1, CDDLSEQ_RESERVED_INFO, 1));
    EXPECT(cddlseq_validate(TEXT(map), TEXT("n"), BYTES("\x01\xa2\x01\x02\x01\x03"), &limits, &refusal, &end) == CDDLSEQ_FAILED);
    EXPECT(is_end(&end, 1, 1, CDDLSEQ_DUPLICATE_KEY, 3));
    const struct cddlseq_limits few = {256, 16777216, 1};
    EXPECT(cddlseq_validate(TEXT("a = [* [* int]]\n"), TEXT(""), BYTES("\x81\x81\x01"), &few, &refusal, &end) == CDDLSEQ_FAILED);
    EXPECT(is_end(&end, 0, 0, CDDLSEQ_STEP_LIMIT, 0));
}

// Whether the call writes these bytes, and nothing behind them, and none where there is room for one less.
static int writes(const char *stream, size_t length, uint32_t wanted, uint32_t status, const char *bytes) {
    struct cddlseq_refusal refusal;
    struct cddlseq_end end = untold;
    uint8_t buffer[256], kept[256];
    size_t needed = 99, size = strlen(bytes);
    memset(buffer, 0xee, sizeof buffer);
    memset(kept, 0xee, sizeof kept);
    uint32_t told = cddlseq_write(
        TEXT("a = {? a: uint, ? b: uint}\n"), TEXT(""), (const uint8_t *)stream, length, &limits, wanted, &refusal, &end, buffer, sizeof buffer, &needed);
    if (told != status || needed != size || memcmp(buffer, bytes, size) || memcmp(buffer + size, kept, sizeof buffer - size)) {
        return 0;
    }
    if (size == 0) {
        return 1;
    }
    memset(buffer, 0xee, sizeof buffer);
    end = untold;
    told = cddlseq_write(
        TEXT("a = {? a: uint, ? b: uint}\n"), TEXT(""), (const uint8_t *)stream, length, &limits, wanted, &refusal, &end, buffer, size - 1, &needed);
    return told == CDDLSEQ_NO_ROOM && needed == size && !is_untold(&end) && !memcmp(buffer, kept, sizeof buffer);
}

static void write_wanted(void) {
    static const char good[] = "\xa2\x61\x62\x18\x01\x61\x61\x02", bad[] = "\xa0\xa1\x61\x61\x20";
    struct cddlseq_refusal refusal;
    struct cddlseq_end end = untold;
    uint8_t buffer[4] = "abcd";
    size_t needed = 99;
    EXPECT(writes(good, sizeof good - 1, CDDLSEQ_REPORT, CDDLSEQ_OK, "item 1 at 0: {\"b\": 1, \"a\": 2}\nclean: 1 items, 8 bytes\n"));
    EXPECT(writes(good, sizeof good - 1, CDDLSEQ_END_LINE, CDDLSEQ_OK, "clean: 1 items, 8 bytes\n"));
    EXPECT(writes(good, sizeof good - 1, CDDLSEQ_PREFERRED, CDDLSEQ_OK, "\xa2\x61\x62\x01\x61\x61\x02"));
    EXPECT(writes(good, sizeof good - 1, CDDLSEQ_DETERMINISTIC, CDDLSEQ_OK, "\xa2\x61\x61\x02\x61\x62\x01"));
    EXPECT(writes(good, sizeof good - 1, CDDLSEQ_PATH, CDDLSEQ_OK, ""));
    EXPECT(writes(good, sizeof good - 1, CDDLSEQ_NOTATION, CDDLSEQ_OK, ""));
    EXPECT(writes(bad, sizeof bad - 1, CDDLSEQ_PATH, CDDLSEQ_FAILED, "${\"a\"}"));
    EXPECT(writes(bad, sizeof bad - 1, CDDLSEQ_NOTATION, CDDLSEQ_FAILED, "-1"));
    EXPECT(writes(bad, sizeof bad - 1, CDDLSEQ_END_LINE, CDDLSEQ_FAILED, "failed: 1 items, offset 1: mismatch at ${\"a\"}: -1\n"));
    EXPECT(cddlseq_write(TEXT(map), TEXT("n"), BYTES("\x01"), &limits, 6, &refusal, &end, buffer, 4, &needed) == CDDLSEQ_BAD_WANTED);
    EXPECT(is_untold(&end) && needed == 0 && !memcmp(buffer, "abcd", 4));
    needed = 99;
    EXPECT(cddlseq_write(TEXT("a"), TEXT(""), BYTES("\x01"), &limits, CDDLSEQ_REPORT, &refusal, &end, buffer, 4, &needed) == CDDLSEQ_REFUSED);
    EXPECT(is_untold(&end) && needed == 0 && !memcmp(buffer, "abcd", 4) && is_refusal(&refusal, CDDLSEQ_S10_UNEXPECTED, 1, 1, 2));
}

static void validate_many(void) {
    struct cddlseq_refusal refusal;
    struct cddlseq_end ends[3] = {untold, untold, untold};
    const size_t offsets[] = {0, 2, 2, 3}, falling[] = {1, 2, 1, 3}, beyond[] = {0, 1, 4, 4}, late[] = {1, 2, 3, 3};
    size_t done = 99;
    EXPECT(cddlseq_validate_many(TEXT(map), TEXT("n"), BYTES("\x01\x02\x20"), offsets, 4, &limits, &refusal, ends, 3, &done) == CDDLSEQ_OK);
    EXPECT(done == 3 && is_end(&ends[0], 2, 2, 0, 0) && is_end(&ends[1], 0, 0, 0, 0) && is_end(&ends[2], 0, 0, CDDLSEQ_MISMATCH, 0));
    ends[0] = ends[1] = ends[2] = untold;
    EXPECT(cddlseq_validate_many(TEXT(map), TEXT("n"), BYTES("\x01\x02\x20"), falling, 4, &limits, &refusal, ends, 3, &done) == CDDLSEQ_BAD_OFFSETS);
    EXPECT(done == 1 && is_end(&ends[0], 1, 1, 0, 0) && is_untold(&ends[1]) && is_untold(&ends[2]));
    ends[0] = untold;
    EXPECT(cddlseq_validate_many(TEXT(map), TEXT("n"), BYTES("\x01\x02\x20"), beyond, 4, &limits, &refusal, ends, 3, &done) == CDDLSEQ_BAD_OFFSETS);
    EXPECT(done == 1 && is_untold(&ends[1]));
    EXPECT(cddlseq_validate_many(TEXT(map), TEXT("n"), BYTES("\x01\x02\x20"), late, 4, &limits, &refusal, ends, 3, &done) == CDDLSEQ_OK);
    EXPECT(done == 3 && is_end(&ends[0], 1, 1, 0, 0) && is_end(&ends[1], 0, 0, CDDLSEQ_MISMATCH, 0));
    ends[0] = untold;
    EXPECT(cddlseq_validate_many(TEXT(map), TEXT("n"), BYTES("\x01"), offsets, 4, &limits, &refusal, ends, 2, &done) == CDDLSEQ_BAD_OFFSETS);
    EXPECT(done == 0 && is_untold(&ends[0]));
    EXPECT(cddlseq_validate_many(TEXT(map), TEXT("n"), BYTES("\x01"), offsets, 0, &limits, &refusal, ends, 0, &done) == CDDLSEQ_BAD_OFFSETS);
    EXPECT(cddlseq_validate_many(TEXT(map), TEXT("n"), BYTES("\x01"), offsets, 1, &limits, &refusal, ends, 0, &done) == CDDLSEQ_OK && done == 0);
    EXPECT(cddlseq_validate_many(TEXT("a"), TEXT(""), BYTES("\x01"), offsets, 4, &limits, &refusal, ends, 3, &done) == CDDLSEQ_REFUSED);
    EXPECT(done == 0 && is_untold(&ends[0]) && is_refusal(&refusal, CDDLSEQ_S10_UNEXPECTED, 1, 1, 2));
}

static void handles(void) {
    struct cddlseq_refusal refusal = {9, 9, 9, 9};
    struct cddlseq_end end = untold;
    struct cddlseq_handle handle = CDDLSEQ_NOTHING;
    uint8_t buffer[64];
    size_t needed = 99;
    EXPECT(cddlseq_open(TEXT("a = b\n"), TEXT(""), &limits, &refusal, &handle) == CDDLSEQ_REFUSED);
    EXPECT(is_refusal(&refusal, CDDLSEQ_C3_UNDEFINED, 4, 1, 5) && handle.at == NULL);
    const struct cddlseq_limits bad = {0, 1, 1}, shallow = {1, 3, 100};
    EXPECT(cddlseq_open(TEXT(map), TEXT(""), &bad, &refusal, &handle) == CDDLSEQ_BAD_LIMITS && handle.at == NULL);
    EXPECT(cddlseq_open(TEXT("a = [* any]\n"), TEXT(""), &shallow, &refusal, &handle) == CDDLSEQ_OK && refusal.code == 0);
    void *at = handle.at;
    EXPECT(at != NULL);
    for (int time = 0; time < 3; time++) {
        EXPECT(cddlseq_validate_by(&handle, BYTES("\x80\x81\x01"), &end) == CDDLSEQ_OK && handle.at == at);
        EXPECT(is_end(&end, 2, 3, CDDLSEQ_CLEAN, 0));
        EXPECT(cddlseq_validate_by(&handle, BYTES("\x80\x81\x80"), &end) == CDDLSEQ_FAILED && handle.at == at);
        EXPECT(is_end(&end, 1, 1, CDDLSEQ_TOO_DEEP, 2));
        EXPECT(cddlseq_write_by(&handle, BYTES("\x9f\x01\xff\x01"), CDDLSEQ_PREFERRED, &end, buffer, 64, &needed) == CDDLSEQ_FAILED);
        EXPECT(handle.at == at && needed == 2 && !memcmp(buffer, "\x81\x01", 2) && is_end(&end, 1, 3, CDDLSEQ_MISMATCH, 0));
        EXPECT(cddlseq_write_by(&handle, BYTES("\x80"), CDDLSEQ_REPORT, &end, buffer, 8, &needed) == CDDLSEQ_NO_ROOM && handle.at == at);
        end = untold;
        EXPECT(cddlseq_write_by(&handle, BYTES("\x80"), 6, &end, buffer, 64, &needed) == CDDLSEQ_BAD_WANTED);
        EXPECT(handle.at == at && needed == 0 && is_untold(&end));
    }
    // What it held is freed, whatever it is to hold; and where the text is refused it holds it still.
    EXPECT(cddlseq_open(TEXT("a = b\n"), TEXT(""), &limits, &refusal, &handle) == CDDLSEQ_REFUSED && handle.at == at);
    EXPECT(cddlseq_validate_by(&handle, BYTES("\x80"), &end) == CDDLSEQ_OK);
    EXPECT(cddlseq_open(TEXT("a = uint\n"), TEXT(""), &limits, &refusal, &handle) == CDDLSEQ_OK);
    EXPECT(cddlseq_validate_by(&handle, BYTES("\x80"), &end) == CDDLSEQ_FAILED && is_end(&end, 0, 0, CDDLSEQ_MISMATCH, 0));
    cddlseq_close(&handle);
    EXPECT(handle.at == NULL);
}

// A handle and a session that hold nothing, from the beginning or since they were closed.
static void closed(void) {
    struct cddlseq_refusal refusal;
    struct cddlseq_end end = untold;
    struct cddlseq_handle handle = CDDLSEQ_NOTHING, other = CDDLSEQ_NOTHING;
    struct cddlseq_session session = CDDLSEQ_NOTHING;
    uint8_t buffer[4] = "abcd";
    for (int time = 0; time < 2; time++) {
        size_t used = 99, needed = 99;
        EXPECT(cddlseq_validate_by(&handle, BYTES("\x80"), &end) == CDDLSEQ_CLOSED && is_untold(&end));
        EXPECT(cddlseq_write_by(&handle, BYTES("\x80"), CDDLSEQ_PREFERRED, &end, buffer, 4, &needed) == CDDLSEQ_CLOSED && is_untold(&end));
        EXPECT(needed == 0 && !memcmp(buffer, "abcd", 4));
        EXPECT(cddlseq_share(&handle, &other) == CDDLSEQ_CLOSED && other.at == NULL);
        EXPECT(cddlseq_begin_by(&handle, &session) == CDDLSEQ_CLOSED && session.at == NULL);
        EXPECT(cddlseq_feed(&session, BYTES("\x80"), &used, &end) == CDDLSEQ_CLOSED && used == 0 && is_untold(&end));
        EXPECT(cddlseq_feed_all(&session, BYTES("\x80"), &end) == CDDLSEQ_CLOSED && is_untold(&end));
        EXPECT(cddlseq_finish(&session, &end) == CDDLSEQ_CLOSED && is_untold(&end));
        needed = 99;
        EXPECT(cddlseq_show(&session, CDDLSEQ_PATH, buffer, 4, &needed) == CDDLSEQ_CLOSED && needed == 0 && !memcmp(buffer, "abcd", 4));
        cddlseq_restart(&session);
        EXPECT(handle.at == NULL && session.at == NULL);
        EXPECT(cddlseq_open(TEXT("a = uint\n"), TEXT(""), &limits, &refusal, &handle) == CDDLSEQ_OK && handle.at != NULL);
        EXPECT(cddlseq_begin_by(&handle, &session) == CDDLSEQ_OK && session.at != NULL);
        EXPECT(cddlseq_share(&handle, &other) == CDDLSEQ_OK && other.at != NULL);
        // What they held before is freed.
        EXPECT(cddlseq_begin_by(&handle, &session) == CDDLSEQ_OK && cddlseq_share(&handle, &other) == CDDLSEQ_OK);
        for (int again = 0; again < 2; again++) {
            cddlseq_close(&handle);
            cddlseq_close(&other);
            cddlseq_discard(&session);
            EXPECT(handle.at == NULL && other.at == NULL && session.at == NULL);
        }
    }
}

// Whether a refusal is explained by these lines, and nothing behind them is written, and nothing where there is room for one less.
static int explains(const char *text, const char *root, const struct cddlseq_refusal *refusal, const char *lines) {
    uint8_t buffer[512], kept[512];
    size_t needed = 99, size = strlen(lines);
    memset(buffer, 0xee, sizeof buffer);
    memset(kept, 0xee, sizeof kept);
    uint32_t told = cddlseq_explain(TEXT(text), TEXT(root), TEXT("it.cddl"), refusal, buffer, sizeof buffer, &needed);
    if (told != CDDLSEQ_OK || needed != size || memcmp(buffer, lines, size) || memcmp(buffer + size, kept, sizeof buffer - size)) {
        return 0;
    }
    memset(buffer, 0xee, sizeof buffer);
    told = cddlseq_explain(TEXT(text), TEXT(root), TEXT("it.cddl"), refusal, buffer, size - 1, &needed);
    return told == CDDLSEQ_NO_ROOM && needed == size && !memcmp(buffer, kept, sizeof buffer);
}

static void explain(void) {
    static const char text[] = "a = \"\xe2\x82\xac\" /\n  b\n";
    struct cddlseq_refusal refusal = {9, 9, 9, 9};
    uint8_t buffer[4] = "abcd";
    size_t needed = 99;
    EXPECT(cddlseq_check(TEXT(text), TEXT(""), &refusal) == CDDLSEQ_REFUSED);
    EXPECT(explains(text, "", &refusal,
        "refused: C3 Undefined at byte 14\nit.cddl:2:3: Undefined\n  b\n  ^\n`b` is no rule, no parameter, none of the prelude and no socket\n"));
    EXPECT(cddlseq_check(TEXT(map), TEXT("no"), &refusal) == CDDLSEQ_REFUSED);
    EXPECT(explains(map, "no", &refusal,
        "refused: C5 NoRoot at byte 0\nit.cddl:1:1: NoRoot\nm = {a: [* n], b: bstr .cbor n}\n^\n"
        "`no`, which --root asks for, is no rule and none of the prelude\n"));
    EXPECT(cddlseq_explain(TEXT(map), TEXT("no"), TEXT("\xff"), &refusal, buffer, 4, &needed) == CDDLSEQ_BAD_FILE && needed == 0);
    needed = 99;
    EXPECT(cddlseq_explain(TEXT(map), TEXT("\xff"), TEXT(""), &refusal, buffer, 4, &needed) == CDDLSEQ_BAD_ROOT && needed == 0);
    const uint32_t none[] = {0, 30, UINT32_MAX};
    for (int at = 0; at < 3; at++) {
        needed = 99;
        refusal.code = none[at];
        EXPECT(cddlseq_explain(TEXT(map), TEXT(""), TEXT(""), &refusal, buffer, 4, &needed) == CDDLSEQ_BAD_REFUSAL && needed == 0);
    }
    EXPECT(!memcmp(buffer, "abcd", 4));
}

static const char bad_text[] =
    "text is not UTF-8: a text string, or a chunk of one, is not UTF-8; the byte is the first of its head\n"
    "Example, by the specification a = any and the bytes 61 ff:\n\nfailed: 0 items, offset 0: text is not UTF-8 at byte 0\n";

// Whether a word is explained by these lines, and nothing behind them is written, and nothing where there is room for one less.
static int explains_word(const char *word, const char *lines) {
    uint8_t buffer[512], kept[512];
    size_t needed = 99, size = strlen(lines);
    memset(buffer, 0xee, sizeof buffer);
    memset(kept, 0xee, sizeof kept);
    uint32_t told = cddlseq_explain_word(TEXT(word), buffer, sizeof buffer, &needed);
    int is_put = told == CDDLSEQ_OK && needed == size && !memcmp(buffer, lines, size) && !memcmp(buffer + size, kept, sizeof buffer - size);
    memset(buffer, 0xee, sizeof buffer);
    told = cddlseq_explain_word(TEXT(word), buffer, size - 1, &needed);
    return is_put && told == CDDLSEQ_NO_ROOM && needed == size && !memcmp(buffer, kept, sizeof buffer);
}

static void explain_word(void) {
    uint8_t buffer[4] = "abcd";
    EXPECT(explains_word("text is not UTF-8", bad_text) && explains_word("TEXT is not utf-8", bad_text));
    size_t needed = 99;
    EXPECT(cddlseq_explain_word(BYTES("C3\0"), buffer, 4, &needed) == CDDLSEQ_BAD_WORD && needed == 0);
    const char *const none[] = {"", "C19", "c03", "C3\n", "\xff", "C3\xff", "text is not UTF-8 "};
    for (int at = 0; at < 7; at++, needed = 99) {
        EXPECT(cddlseq_explain_word(TEXT(none[at]), buffer, 4, &needed) == CDDLSEQ_BAD_WORD && needed == 0);
    }
    EXPECT(cddlseq_explain_word(TEXT("C3"), buffer, 4, &needed) == CDDLSEQ_NO_ROOM && needed > 4 && !memcmp(buffer, "abcd", 4));
}

static void sessions(void) {
    struct cddlseq_refusal refusal = {9, 9, 9, 9};
    struct cddlseq_end end = untold;
    struct cddlseq_session session = CDDLSEQ_NOTHING;
    uint8_t buffer[16];
    size_t used = 99, needed = 99;
    const struct cddlseq_limits bad = {0, 1, 1};
    EXPECT(cddlseq_begin(TEXT("a = b\n"), TEXT(""), &limits, &refusal, &session) == CDDLSEQ_REFUSED);
    EXPECT(is_refusal(&refusal, CDDLSEQ_C3_UNDEFINED, 4, 1, 5) && session.at == NULL);
    EXPECT(cddlseq_begin(TEXT(map), TEXT("\xff"), &limits, &refusal, &session) == CDDLSEQ_BAD_ROOT && refusal.code == 0);
    EXPECT(cddlseq_begin(TEXT(map), TEXT(""), &bad, &refusal, &session) == CDDLSEQ_BAD_LIMITS && session.at == NULL);
    EXPECT(cddlseq_begin(TEXT("a = [* uint]\n"), TEXT(""), &limits, &refusal, &session) == CDDLSEQ_OK && refusal.code == 0);
    void *at = session.at;
    EXPECT(at != NULL);
    for (int time = 0; time < 2; time++) {
        EXPECT(cddlseq_feed(&session, BYTES(""), &used, &end) == CDDLSEQ_OK && used == 0 && is_end(&end, 0, 0, 0, 0));
        EXPECT(cddlseq_feed(&session, BYTES("\x80\x81"), &used, &end) == CDDLSEQ_ITEM && used == 1 && is_end(&end, 1, 1, 0, 0));
        EXPECT(cddlseq_feed(&session, BYTES("\x81"), &used, &end) == CDDLSEQ_OK && used == 1 && is_end(&end, 1, 1, 0, 0));
        EXPECT(cddlseq_show(&session, CDDLSEQ_PATH, buffer, 16, &needed) == CDDLSEQ_OK && needed == 0);
        EXPECT(cddlseq_feed(&session, BYTES("\x18\x20\x80"), &used, &end) == CDDLSEQ_ITEM && used == 2 && is_end(&end, 2, 4, 0, 0));
        EXPECT(cddlseq_feed_all(&session, BYTES("\x80\x80\x82\x01"), &end) == CDDLSEQ_OK && is_end(&end, 4, 6, 0, 0));
        EXPECT(cddlseq_feed(&session, BYTES("\x60\x80"), &used, &end) == CDDLSEQ_FAILED && used == 2);
        EXPECT(is_end(&end, 4, 6, CDDLSEQ_MISMATCH, 2) && session.at == at);
        end = untold;
        EXPECT(cddlseq_feed(&session, BYTES("\x80"), &used, &end) == CDDLSEQ_FAILED && is_end(&end, 4, 6, CDDLSEQ_MISMATCH, 2));
        end = untold;
        EXPECT(cddlseq_finish(&session, &end) == CDDLSEQ_FAILED && is_end(&end, 4, 6, CDDLSEQ_MISMATCH, 2));
        memset(buffer, 0xee, sizeof buffer);
        EXPECT(cddlseq_show(&session, CDDLSEQ_PATH, buffer, 16, &needed) == CDDLSEQ_OK && needed == 4 && !memcmp(buffer, "$[1]\xee", 5));
        EXPECT(cddlseq_show(&session, CDDLSEQ_NOTATION, buffer, 1, &needed) == CDDLSEQ_NO_ROOM && needed == 2 && buffer[0] == '$');
        EXPECT(cddlseq_show(&session, CDDLSEQ_NOTATION, buffer, 2, &needed) == CDDLSEQ_OK && !memcmp(buffer, "\"\"1]", 4));
        EXPECT(cddlseq_show(&session, CDDLSEQ_REPORT, buffer, 16, &needed) == CDDLSEQ_BAD_WANTED && needed == 0);
        cddlseq_restart(&session);
        EXPECT(session.at == at);
    }
    EXPECT(cddlseq_feed_all(&session, BYTES("\x80\x82\x01"), &end) == CDDLSEQ_OK && is_end(&end, 1, 1, 0, 0));
    EXPECT(cddlseq_finish(&session, &end) == CDDLSEQ_FAILED && is_end(&end, 1, 1, CDDLSEQ_TRUNCATED, 3));
    EXPECT(cddlseq_show(&session, CDDLSEQ_PATH, buffer, 16, &needed) == CDDLSEQ_OK && needed == 0);
    cddlseq_restart(&session);
    EXPECT(cddlseq_feed_all(&session, BYTES("\x80"), &end) == CDDLSEQ_OK && is_end(&end, 1, 1, 0, 0));
    for (int time = 0; time < 2; time++) {
        EXPECT(cddlseq_finish(&session, &end) == CDDLSEQ_OK && is_end(&end, 1, 1, 0, 0));
        EXPECT(cddlseq_feed(&session, BYTES("\x80"), &used, &end) == CDDLSEQ_ENDED && is_end(&end, 1, 1, 0, 0));
        EXPECT(cddlseq_feed_all(&session, BYTES("\x80"), &end) == CDDLSEQ_ENDED && is_end(&end, 1, 1, 0, 0));
    }
    cddlseq_discard(&session);
}

// Whether the call shows these bytes of a session, and nothing behind them, and none where there is room for one less.
static int shows(struct cddlseq_session *session, uint32_t wanted, const char *bytes, size_t size) {
    uint8_t buffer[64], kept[64];
    size_t needed = 99;
    memset(buffer, 0xee, sizeof buffer);
    memset(kept, 0xee, sizeof kept);
    uint32_t status = cddlseq_show(session, wanted, buffer, sizeof buffer, &needed);
    if (status != CDDLSEQ_OK || needed != size || memcmp(buffer, bytes, size) || memcmp(buffer + size, kept, sizeof buffer - size)) {
        return 0;
    }
    if (size == 0) {
        return 1;
    }
    memset(buffer, 0xee, sizeof buffer);
    status = cddlseq_show(session, wanted, buffer, size - 1, &needed);
    return status == CDDLSEQ_NO_ROOM && needed == size && !memcmp(buffer, kept, sizeof buffer);
}

static int shows_item(struct cddlseq_session *session, const char *preferred, const char *deterministic, size_t size) {
    return shows(session, CDDLSEQ_PREFERRED, preferred, size) && shows(session, CDDLSEQ_DETERMINISTIC, deterministic, size);
}

// The item that was told last, in each encoding.
static void items(void) {
    static const char item[] = "\xbf\x61\x62\x18\x01\x61\x61\x02\xff\xa0";
    struct cddlseq_refusal refusal;
    struct cddlseq_end end = untold;
    struct cddlseq_session session = CDDLSEQ_NOTHING;
    size_t used = 99;
    EXPECT(cddlseq_begin(TEXT("m = {* tstr => uint}\n"), TEXT(""), &limits, &refusal, &session) == CDDLSEQ_OK);
    for (int time = 0; time < 2; time++) {
        EXPECT(shows_item(&session, "", "", 0));
        EXPECT(cddlseq_feed(&session, (const uint8_t *)item, 3, &used, &end) == CDDLSEQ_OK && shows_item(&session, "", "", 0));
        EXPECT(cddlseq_feed(&session, (const uint8_t *)item + 3, 7, &used, &end) == CDDLSEQ_ITEM && used == 6);
        EXPECT(shows_item(&session, "\xa2\x61\x62\x01\x61\x61\x02", "\xa2\x61\x61\x02\x61\x62\x01", 7) && shows(&session, CDDLSEQ_PATH, "", 0));
        EXPECT(cddlseq_feed(&session, BYTES("\xa0\xa1"), &used, &end) == CDDLSEQ_ITEM && used == 1 && shows_item(&session, "\xa0", "\xa0", 1));
        EXPECT(cddlseq_feed(&session, BYTES("\xa1"), &used, &end) == CDDLSEQ_OK && shows_item(&session, "", "", 0));
        EXPECT(cddlseq_feed(&session, BYTES("\x60\x20"), &used, &end) == CDDLSEQ_FAILED && shows_item(&session, "", "", 0));
        EXPECT(shows(&session, CDDLSEQ_PATH, "$<\"\">", 5) && shows(&session, CDDLSEQ_NOTATION, "\"\"", 2));
        cddlseq_restart(&session);
        EXPECT(cddlseq_feed(&session, BYTES("\xbf\xff"), &used, &end) == CDDLSEQ_ITEM && shows_item(&session, "\xa0", "\xa0", 1));
        EXPECT(cddlseq_finish(&session, &end) == CDDLSEQ_OK && shows_item(&session, "\xa0", "\xa0", 1));
        EXPECT(cddlseq_feed_all(&session, BYTES("\xa0"), &end) == CDDLSEQ_ENDED && shows_item(&session, "", "", 0));
        cddlseq_restart(&session);
        EXPECT(cddlseq_feed(&session, BYTES("\xa0"), &used, &end) == CDDLSEQ_ITEM);
        cddlseq_restart(&session);
    }
    EXPECT(cddlseq_feed(&session, BYTES("\xa0"), &used, &end) == CDDLSEQ_ITEM);
    cddlseq_discard(&session);
}

// Sessions over one handle, fed by turns and used after the handles are closed.
static void shared(void) {
    struct cddlseq_refusal refusal;
    struct cddlseq_end end = untold;
    struct cddlseq_handle handle = CDDLSEQ_NOTHING, other = CDDLSEQ_NOTHING;
    struct cddlseq_session one = CDDLSEQ_NOTHING, two = CDDLSEQ_NOTHING;
    const struct cddlseq_limits shallow = {2, 16, 1000};
    size_t used = 99;
    EXPECT(cddlseq_open(TEXT("a = [* uint] / tstr\n"), TEXT(""), &shallow, &refusal, &handle) == CDDLSEQ_OK);
    void *at = handle.at;
    EXPECT(cddlseq_begin_by(&handle, &one) == CDDLSEQ_OK && handle.at == at && one.at != NULL);
    EXPECT(cddlseq_share(&handle, &other) == CDDLSEQ_OK && handle.at == at && other.at != NULL && other.at != at);
    EXPECT(cddlseq_feed(&one, BYTES("\x80\x82"), &used, &end) == CDDLSEQ_ITEM && used == 1 && is_end(&end, 1, 1, 0, 0));
    cddlseq_close(&handle);
    at = other.at;
    EXPECT(cddlseq_validate_by(&other, BYTES("\x60\x81\x05"), &end) == CDDLSEQ_OK && other.at == at && is_end(&end, 2, 3, 0, 0));
    EXPECT(cddlseq_begin_by(&other, &two) == CDDLSEQ_OK && other.at == at && two.at != one.at);
    EXPECT(cddlseq_feed_all(&two, BYTES("\x60\x61"), &end) == CDDLSEQ_OK && is_end(&end, 1, 1, 0, 0));
    cddlseq_close(&other);
    EXPECT(cddlseq_feed(&one, BYTES("\x82\x01"), &used, &end) == CDDLSEQ_OK && used == 2 && is_end(&end, 1, 1, 0, 0));
    EXPECT(cddlseq_feed(&two, BYTES("\x62\x20"), &used, &end) == CDDLSEQ_ITEM && used == 1 && is_end(&end, 2, 3, 0, 0));
    EXPECT(cddlseq_feed(&one, BYTES("\x02\x80"), &used, &end) == CDDLSEQ_ITEM && used == 1 && is_end(&end, 2, 4, 0, 0));
    EXPECT(cddlseq_feed(&two, BYTES("\x20"), &used, &end) == CDDLSEQ_FAILED && is_end(&end, 2, 3, CDDLSEQ_MISMATCH, 0));
    EXPECT(cddlseq_feed(&one, BYTES("\x81\x81\x81"), &used, &end) == CDDLSEQ_FAILED && is_end(&end, 2, 4, CDDLSEQ_TOO_DEEP, 6));
    cddlseq_restart(&two);
    EXPECT(cddlseq_feed_all(&two, BYTES("\x60\x80"), &end) == CDDLSEQ_OK && is_end(&end, 2, 2, 0, 0));
    cddlseq_restart(&one);
    EXPECT(cddlseq_finish(&two, &end) == CDDLSEQ_OK && is_end(&end, 2, 2, 0, 0));
    cddlseq_discard(&two);
    EXPECT(cddlseq_feed_all(&one, BYTES("\x81\x18\x20\x81"), &end) == CDDLSEQ_OK && is_end(&end, 1, 3, 0, 0));
    EXPECT(cddlseq_finish(&one, &end) == CDDLSEQ_FAILED && is_end(&end, 1, 3, CDDLSEQ_TRUNCATED, 4));
    cddlseq_discard(&one);
}

// What a thread works on: a handle that the other one has too, by turns, and a handle and a session of its own by the same specification,
// which it frees.
struct work {
    pthread_mutex_t *turn;
    struct cddlseq_handle *common;
    struct cddlseq_handle own;
    struct cddlseq_session session;
    int wrong;
};

static void *work(void *given) {
    struct work *it = given;
    struct cddlseq_handle other = CDDLSEQ_NOTHING;
    struct cddlseq_end end = untold;
    size_t used = 99;
    for (int time = 0; time < 300; time++) {
        pthread_mutex_lock(it->turn);
        it->wrong += cddlseq_validate_by(it->common, BYTES("\x60\x81\x05"), &end) != CDDLSEQ_OK || !is_end(&end, 2, 3, 0, 0);
        pthread_mutex_unlock(it->turn);
        it->wrong += cddlseq_share(&it->own, &other) != CDDLSEQ_OK;
        it->wrong += cddlseq_validate_by(&other, BYTES("\x80\x20"), &end) != CDDLSEQ_FAILED || !is_end(&end, 1, 1, CDDLSEQ_MISMATCH, 0);
        cddlseq_close(&other);
        it->wrong += cddlseq_feed(&it->session, BYTES("\x9f\x18"), &used, &end) != CDDLSEQ_OK;
        it->wrong += cddlseq_feed(&it->session, BYTES("\x05\xff"), &used, &end) != CDDLSEQ_ITEM || !is_end(&end, 1, 4, 0, 0);
        it->wrong += !shows(&it->session, CDDLSEQ_PREFERRED, "\x81\x05", 2);
        cddlseq_restart(&it->session);
    }
    cddlseq_close(&it->own);
    cddlseq_discard(&it->session);
    return NULL;
}

// Two threads over one handle, by turns, and over handles and sessions of its specification, at once.
static void threads(void) {
    pthread_mutex_t turn = PTHREAD_MUTEX_INITIALIZER;
    pthread_t made[2];
    struct work works[2];
    struct cddlseq_refusal refusal;
    struct cddlseq_end end = untold;
    struct cddlseq_handle common = CDDLSEQ_NOTHING;
    EXPECT(cddlseq_open(TEXT("a = [* uint .size (0..2)] / tstr\n"), TEXT(""), &limits, &refusal, &common) == CDDLSEQ_OK);
    for (int at = 0; at < 2; at++) {
        works[at] = (struct work){&turn, &common, CDDLSEQ_NOTHING, CDDLSEQ_NOTHING, 0};
        EXPECT(cddlseq_share(&common, &works[at].own) == CDDLSEQ_OK);
        EXPECT(cddlseq_begin_by(&common, &works[at].session) == CDDLSEQ_OK);
    }
    for (int at = 0; at < 2; at++) {
        EXPECT(pthread_create(&made[at], NULL, work, &works[at]) == 0);
    }
    for (int at = 0; at < 2; at++) {
        EXPECT(pthread_join(made[at], NULL) == 0 && works[at].wrong == 0);
    }
    EXPECT(cddlseq_validate_by(&common, BYTES("\x81\x19\xff\xff\x81\x1a\x00\x01\x00\x00"), &end) == CDDLSEQ_FAILED);
    EXPECT(is_end(&end, 1, 4, CDDLSEQ_MISMATCH, 1));
    cddlseq_close(&common);
}

// Has nothing be left of bytes that were passed to a call.
static void taken_back(void *at, size_t length) {
    memset(at, 0xff, length);
    free(at);
}

// What was passed to a call is gone after it, and what it made is of use all the same.
static void lent_bytes(void) {
    static const char stream[] = "\xbf\x61\x62\x18\x01\xff\xa1\x61\x61\x20";
    struct cddlseq_limits *passed = memcpy(malloc(sizeof limits), &limits, sizeof limits);
    struct cddlseq_refusal refusal;
    struct cddlseq_end end = untold;
    struct cddlseq_handle handle = CDDLSEQ_NOTHING;
    struct cddlseq_session session = CDDLSEQ_NOTHING;
    char *text = strdup("m = {* tstr => uint}\n"), *root = strdup("m");
    size_t used = 99;
    EXPECT(cddlseq_open(TEXT(text), TEXT(root), passed, &refusal, &handle) == CDDLSEQ_OK);
    taken_back(text, strlen(text)), taken_back(root, 1), taken_back(passed, sizeof *passed);
    EXPECT(cddlseq_begin_by(&handle, &session) == CDDLSEQ_OK);
    for (size_t at = 0; at < 10; at++) {
        uint8_t *piece = memcpy(malloc(1), stream + at, 1);
        uint32_t status = cddlseq_feed(&session, piece, 1, &used, &end);
        taken_back(piece, 1);
        EXPECT(used == 1 && status == (at == 5 ? CDDLSEQ_ITEM : at == 9 ? CDDLSEQ_FAILED : CDDLSEQ_OK));
        EXPECT(at != 5 || (is_end(&end, 1, 6, 0, 0) && shows_item(&session, "\xa1\x61\x62\x01", "\xa1\x61\x62\x01", 4)));
    }
    EXPECT(is_end(&end, 1, 6, CDDLSEQ_MISMATCH, 1) && shows(&session, CDDLSEQ_PATH, "$<\"a\">", 6));
    EXPECT(cddlseq_validate_by(&handle, BYTES("\xa0"), &end) == CDDLSEQ_OK && is_end(&end, 1, 1, 0, 0));
    cddlseq_close(&handle);
    cddlseq_discard(&session);
}

// A text with as many brackets in each other as it may have, a stream of as many maps that are keys of each other, the innermost with a
// key twice, and what is told of both.
struct deep {
    char text[4096];
    uint8_t stream[1024];
    size_t length;
    uint32_t of_text, of_stream;
    struct cddlseq_refusal refusal, none;
    struct cddlseq_end end;
};

static void *tell_deep(void *given) {
    struct deep *it = given;
    it->of_text = cddlseq_check(TEXT(it->text), TEXT("a"), &it->refusal);
    it->of_stream = cddlseq_validate(TEXT("a = any\n"), TEXT(""), it->stream, it->length, &limits, &it->none, &it->end);
    return NULL;
}

// As much stack as the header says is enough, also for what takes most of it.
static void stack(void) {
    struct deep deep = {.text = "b = int\na = ", .length = 255 + 5 + 255}, again;
    pthread_attr_t little;
    pthread_t made;
    for (int at = 0; at < 257; at++) {
        strcat(deep.text, at < 128 ? "{1: b // 1 => b / " : at == 128 ? "int" : "}");
    }
    memset(deep.stream, 0xa1, 255);
    memcpy(deep.stream + 255, "\xa2\x01\x01\x01\x01", 5);
    memset(deep.stream + 260, 0x01, 255);
    again = deep;
    tell_deep(&deep);
    EXPECT(deep.of_text <= CDDLSEQ_REFUSED && deep.of_stream == CDDLSEQ_FAILED && is_end(&deep.end, 0, 0, CDDLSEQ_DUPLICATE_KEY, 258));
    EXPECT(pthread_attr_init(&little) == 0 && pthread_attr_setstacksize(&little, STACK) == 0);
    EXPECT(pthread_create(&made, &little, tell_deep, &again) == 0 && pthread_join(made, NULL) == 0);
    pthread_attr_destroy(&little);
    EXPECT(again.of_text == deep.of_text && again.refusal.code == deep.refusal.code && again.refusal.offset == deep.refusal.offset);
    EXPECT(again.of_stream == CDDLSEQ_FAILED && is_end(&again.end, 0, 0, CDDLSEQ_DUPLICATE_KEY, 258));
}

// With the request for memory refused that comes after so many: whether a handle and a session are made of one that is open, or nothing
// is. The one that is open is of use after that.
static int is_shared_without_memory(long number) {
    struct cddlseq_refusal refusal;
    struct cddlseq_end end = untold;
    struct cddlseq_handle handle = CDDLSEQ_NOTHING, other = CDDLSEQ_NOTHING;
    struct cddlseq_session session = CDDLSEQ_NOTHING;
    EXPECT(cddlseq_open(TEXT(map), TEXT("n"), &limits, &refusal, &handle) == CDDLSEQ_OK);
    void *at = handle.at;
    before_refusal = number, was_refused = 0;
    uint32_t status = cddlseq_share(&handle, &other);
    int any = was_refused;
    before_refusal = -1;
    EXPECT(status == (any ? CDDLSEQ_NO_MEMORY : CDDLSEQ_OK) && (other.at == NULL) == any && handle.at == at);
    before_refusal = number, was_refused = 0;
    status = cddlseq_begin_by(&handle, &session);
    int no_session = was_refused;
    before_refusal = -1;
    EXPECT(status == (no_session ? CDDLSEQ_NO_MEMORY : CDDLSEQ_OK) && (session.at == NULL) == no_session && handle.at == at);
    EXPECT(cddlseq_validate_by(&handle, BYTES("\x01"), &end) == CDDLSEQ_OK && is_end(&end, 1, 1, 0, 0));
    cddlseq_close(&handle);
    if (!any) {
        EXPECT(cddlseq_validate_by(&other, BYTES("\x02\x03"), &end) == CDDLSEQ_OK && is_end(&end, 2, 2, 0, 0));
        cddlseq_close(&other);
    }
    if (!no_session) {
        EXPECT(cddlseq_feed_all(&session, BYTES("\x04"), &end) == CDDLSEQ_OK && is_end(&end, 1, 1, 0, 0));
        cddlseq_discard(&session);
    }
    return any || no_session;
}

// With the request for memory refused that comes after so many: whether a session is begun, fed and freed, or says so from then on.
static int is_session_told_without_memory(long number) {
    static const char stream[] = "\xa2\x61\x61\x82\x01\x02\x61\x62\x41\x05\xa2\x61\x62\x41\x05\x61\x61\x81\x60";
    struct cddlseq_refusal refusal;
    struct cddlseq_end end = untold;
    struct cddlseq_session session = CDDLSEQ_NOTHING;
    size_t used = 0;
    before_refusal = number, was_refused = 0;
    uint32_t status = cddlseq_begin(TEXT(map), TEXT(""), &limits, &refusal, &session);
    int any = was_refused;
    before_refusal = -1;
    EXPECT(status == (any ? CDDLSEQ_NO_MEMORY : CDDLSEQ_OK) && (session.at == NULL) == any);
    if (any) {
        return 1;
    }
    for (long later = 0; later == 0 || was_refused; later++) {
        status = CDDLSEQ_ITEM;
        before_refusal = later, was_refused = 0;
        for (size_t at = 0; at < sizeof stream - 1 && status <= CDDLSEQ_ITEM && status != CDDLSEQ_FAILED && status != CDDLSEQ_NO_MEMORY; at += used) {
            end = untold;
            size_t left = sizeof stream - 1 - at;
            status = cddlseq_feed(&session, (const uint8_t *)stream + at, left < 3 ? left : 3, &used, &end);
        }
        before_refusal = -1;
        if (was_refused) {
            EXPECT(status == CDDLSEQ_NO_MEMORY && used == 0 && is_untold(&end));
            EXPECT(cddlseq_feed(&session, BYTES("\xa0"), &used, &end) == CDDLSEQ_NO_MEMORY && is_untold(&end));
            EXPECT(cddlseq_feed_all(&session, BYTES("\xa0"), &end) == CDDLSEQ_NO_MEMORY && is_untold(&end));
            EXPECT(cddlseq_finish(&session, &end) == CDDLSEQ_NO_MEMORY && is_untold(&end));
        } else {
            EXPECT(status == CDDLSEQ_FAILED && is_end(&end, 1, 10, CDDLSEQ_MISMATCH, 5));
        }
        cddlseq_restart(&session);
    }
    EXPECT(cddlseq_feed(&session, BYTES(stream), &used, &end) == CDDLSEQ_ITEM);
    for (uint32_t wanted = CDDLSEQ_PREFERRED; wanted <= CDDLSEQ_DETERMINISTIC; wanted++) {
        for (long later = 0; later == 0 || was_refused; later++) {
            uint8_t buffer[64];
            size_t needed = 99;
            before_refusal = later, was_refused = 0;
            status = cddlseq_show(&session, wanted, buffer, sizeof buffer, &needed);
            before_refusal = -1;
            EXPECT(status == (was_refused ? CDDLSEQ_NO_MEMORY : CDDLSEQ_OK) && needed == (was_refused ? 0 : 10));
        }
    }
    cddlseq_restart(&session);
    for (long later = 0; later == 0 || was_refused; later++) {
        before_refusal = later, was_refused = 0;
        status = cddlseq_feed_all(&session, BYTES(stream), &end);
        EXPECT(status == (was_refused ? CDDLSEQ_NO_MEMORY : CDDLSEQ_FAILED));
        if (!was_refused) {
            uint8_t buffer[64];
            size_t needed = 99;
            for (long last = 0; last == 0 || was_refused; last++) {
                before_refusal = last, was_refused = 0;
                status = cddlseq_show(&session, CDDLSEQ_PATH, buffer, sizeof buffer, &needed);
                EXPECT(status == (was_refused ? CDDLSEQ_NO_MEMORY : CDDLSEQ_OK) && needed == (was_refused ? 0 : 9));
            }
        }
        before_refusal = -1;
        cddlseq_restart(&session);
    }
    cddlseq_discard(&session);
    return 0;
}

// With the request for memory refused that comes after so many: whether a handle is opened, used and freed, or nothing is told.
static int is_handle_told_without_memory(long number) {
    struct cddlseq_refusal refusal;
    struct cddlseq_end end = untold;
    struct cddlseq_handle handle = CDDLSEQ_NOTHING;
    before_refusal = number, was_refused = 0;
    uint32_t status = cddlseq_open(TEXT(map), TEXT("n"), &limits, &refusal, &handle);
    int any = was_refused;
    before_refusal = -1;
    EXPECT(status == (any ? CDDLSEQ_NO_MEMORY : CDDLSEQ_OK) && (handle.at == NULL) == any);
    if (any) {
        return 1;
    }
    void *at = handle.at;
    for (long later = 0; later == 0 || was_refused; later++) {
        end = untold;
        before_refusal = later, was_refused = 0;
        status = cddlseq_validate_by(&handle, BYTES("\x01\x18\x20"), &end);
        before_refusal = -1;
        EXPECT(handle.at == at && (was_refused ? status == CDDLSEQ_NO_MEMORY && is_untold(&end) : is_end(&end, 1, 1, CDDLSEQ_MISMATCH, 0)));
    }
    cddlseq_close(&handle);
    return 0;
}

// With the request for memory refused that comes after so many: whether each call says so, and tells nothing. Returns whether one
// was refused.
static int is_told_without_memory(long number) {
    static const char stream[] = "\xa2\x61\x61\x82\x01\x02\x61\x62\x41\x05\xa2\x61\x62\x41\x05\x61\x61\x80";
    const size_t offsets[] = {0, 10, 18};
    struct cddlseq_refusal refusal = {9, 9, 9, 9};
    struct cddlseq_end end = untold, ends[2] = {untold, untold};
    uint8_t buffer[256];
    size_t needed = 99, done = 99;
    int any = 0;
    before_refusal = number, was_refused = 0;
    uint32_t status = cddlseq_check(TEXT(map), TEXT("m"), &refusal);
    EXPECT(status == (was_refused ? CDDLSEQ_NO_MEMORY : CDDLSEQ_OK) && is_refusal(&refusal, CDDLSEQ_NOT_REFUSED, 0, 0, 0));
    any |= was_refused;
    before_refusal = number, was_refused = 0;
    status = cddlseq_validate(TEXT(map), TEXT(""), BYTES(stream), &limits, &refusal, &end);
    EXPECT(was_refused ? status == CDDLSEQ_NO_MEMORY && is_untold(&end) : status == CDDLSEQ_OK && is_end(&end, 2, 18, 0, 0));
    any |= was_refused;
    for (uint32_t wanted = CDDLSEQ_REPORT; wanted <= CDDLSEQ_NOTATION; wanted++) {
        end = untold;
        before_refusal = number, was_refused = 0;
        status = cddlseq_write(TEXT(map), TEXT("n"), BYTES("\x01\x18\x20"), &limits, wanted, &refusal, &end, buffer, sizeof buffer, &needed);
        EXPECT(was_refused ? status == CDDLSEQ_NO_MEMORY && is_untold(&end) && needed == 0 : status == CDDLSEQ_FAILED && is_end(&end, 1, 1, CDDLSEQ_MISMATCH, 0));
        any |= was_refused;
    }
    before_refusal = number, was_refused = 0;
    status = cddlseq_validate_many(TEXT(map), TEXT("m"), BYTES(stream), offsets, 3, &limits, &refusal, ends, 2, &done);
    EXPECT(status == (was_refused ? CDDLSEQ_NO_MEMORY : CDDLSEQ_OK) && (was_refused ? done < 2 : done == 2));
    EXPECT(done == 0 ? is_untold(&ends[0]) : is_end(&ends[0], 1, 10, 0, 0));
    EXPECT(done == 2 ? is_end(&ends[1], 1, 8, 0, 0) : is_untold(&ends[1]));
    any |= was_refused;
    const struct cddlseq_refusal told = {CDDLSEQ_C5_NO_ROOT, 0, 1, 1};
    before_refusal = number, was_refused = 0;
    status = cddlseq_explain(TEXT(map), TEXT("no"), TEXT("it.cddl"), &told, buffer, sizeof buffer, &needed);
    EXPECT(status == (was_refused ? CDDLSEQ_NO_MEMORY : CDDLSEQ_OK) && (needed == 0) == was_refused);
    any |= was_refused;
    for (int of_cause = 0; of_cause < 2; of_cause++) {
        before_refusal = number, was_refused = 0;
        status = cddlseq_explain_word(TEXT(of_cause ? "mismatch" : "C3"), buffer, 0, &needed);
        EXPECT(status == (was_refused ? CDDLSEQ_NO_MEMORY : CDDLSEQ_NO_ROOM) && (needed == 0) == was_refused);
        any |= was_refused;
    }
    before_refusal = -1;
    return any;
}

// Whether nothing went wrong in a test.
static int passes(void (*test)(void)) {
    int before = wrong;
    test();
    return wrong == before;
}

static long step = 1;

static void refuse_memory(void) {
    long number = 0, refusals = 0;
    for (; is_told_without_memory(number); number += step) {
        refusals++;
    }
    for (number = 0; is_handle_told_without_memory(number); number += step) {
        refusals++;
    }
    for (number = 0; is_session_told_without_memory(number); number += step) {
        refusals++;
    }
    for (number = 0; is_shared_without_memory(number); number++) {
        refusals++;
    }
    printf("calls with %ld requests for memory refused in turn\n", refusals);
}

int main(int count, char **words) {
    void (*const tests[])(void) = {
        check, position, validate, write_wanted, validate_many, explain, explain_word, handles, closed, sessions, items, shared, lent_bytes,
        threads, stack, refuse_memory};
    int number = sizeof tests / sizeof *tests, passed = 0;
    if (count > 1) {
        step = atol(words[1]);
    }
    for (int at = 0; at < number; at++) {
        passed += passes(tests[at]);
    }
    printf("%d passed, %d failed\n", passed, number - passed);
    return passed < number;
}

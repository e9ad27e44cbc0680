// For libFuzzer: of a text and a stream the library has to answer what the program prints, and a session what is said of the stream whole.
// An input is the text, a byte 0, and the stream. CDDLSEQ_PROGRAM names the program, and CDDLSEQ_WORK a folder for files.
#include "cddlseq.h"
#include <errno.h>
#include <fcntl.h>
#include <spawn.h>
#include <stdio.h>
#include <stdlib.h>
#include <string.h>
#include <sys/stat.h>
#include <sys/wait.h>
#include <unistd.h>

// An item may take so many questions, so that none takes long.
#define STEPS "20000"

enum { COUNTERS = 4096 };

extern char **environ;

// What answers there have been. The library's own branches are not counted, so these lead the fuzzer.
__attribute__((section("__libfuzzer_extra_counters"))) static uint8_t counters[COUNTERS];

static const struct cddlseq_limits limits = {256, 16777216, 20000};
static const char *program, *spec_file, *out_file, *in_file;

static const char *const codes[] = {
    "", "S1 NotUtf8", "S2 BadCharacter", "S3 Unclosed", "S4 BadEscape", "S5 BadNumber", "S6 FloatLiteral", "S7 NumberTooLarge",
    "S8 BadBytes", "S9 SourceTooLong", "S10 Unexpected", "S11 TooNested", "C1 Duplicate", "C2 KindClash", "C3 Undefined",
    "C4 Arity", "C5 NoRoot", "C6 BadRoot", "C7 GroupAsType", "C8 HashForm", "C9 UnknownControl", "C10 TooManyInstances",
    "C11 NotUnwrappable", "C12 Recursion", "C13 NotLiteral", "C14 BadRange", "C15 BadController", "C16 NoKey", "C17 MapShape",
    "C18 TooManyAlternatives",
};

static char *path_in(const char *folder, const char *name) {
    char *path = malloc(strlen(folder) + strlen(name) + 2);
    sprintf(path, "%s/%s", folder, name);
    return path;
}

int LLVMFuzzerInitialize(int *count, char ***words) {
    (void)count, (void)words;
    const char *folder = getenv("CDDLSEQ_WORK");
    program = getenv("CDDLSEQ_PROGRAM");
    if (!program || !folder) {
        fprintf(stderr, "CDDLSEQ_PROGRAM and CDDLSEQ_WORK are to be set\n");
        exit(2);
    }
    spec_file = path_in(folder, "SPEC"), in_file = path_in(folder, "in"), out_file = path_in(folder, "out");
    return 0;
}

static void stop(const char *why) {
    fprintf(stderr, "%s\n", why);
    abort();
}

static void save(const char *name, const uint8_t *bytes, size_t length) {
    FILE *file = fopen(name, "wb");
    if (!file || fwrite(bytes, 1, length, file) < length || fclose(file)) {
        stop("cannot write a file");
    }
}

// Runs the program on the files, and gives what it printed, standard error too.
static int run_program(uint8_t **printed, size_t *length) {
    char *const words[] = {(char *)program, "validate", "--steps", STEPS, (char *)spec_file, (char *)in_file, NULL};
    posix_spawn_file_actions_t actions;
    struct stat about;
    pid_t child;
    int status = 0;
    posix_spawn_file_actions_init(&actions);
    posix_spawn_file_actions_addopen(&actions, 1, out_file, O_WRONLY | O_CREAT | O_TRUNC, 0600);
    posix_spawn_file_actions_adddup2(&actions, 1, 2);
    if (posix_spawn(&child, program, &actions, NULL, words, environ)) {
        stop("the program does not start");
    }
    // libFuzzer's own timer may break a wait off.
    while (waitpid(child, &status, 0) < 0) {
        if (errno != EINTR) {
            stop("the program is lost");
        }
    }
    if (!WIFEXITED(status)) {
        stop("the program is ended by a signal");
    }
    posix_spawn_file_actions_destroy(&actions);
    FILE *file = fopen(out_file, "rb");
    if (!file || fstat(fileno(file), &about)) {
        stop("cannot read a file");
    }
    *length = (size_t)about.st_size;
    *printed = malloc(*length + 1);
    *length = fread(*printed, 1, *length, file);
    fclose(file);
    return WEXITSTATUS(status);
}

static void expect_line(const struct cddlseq_refusal *refusal, const uint8_t *printed, size_t length) {
    char line[128];
    size_t size = (size_t)snprintf(line, sizeof line, "refused: %s at byte %zu\n", codes[refusal->code], refusal->offset);
    if (size != length || memcmp(line, printed, size)) {
        stop("the refusals differ");
    }
}

// What the library writes of the stream is what the program printed.
static void expect_report(
    const uint8_t *text, size_t text_length, const uint8_t *stream, size_t stream_length, uint32_t status, const uint8_t *printed, size_t length) {
    struct cddlseq_refusal refusal;
    struct cddlseq_end end;
    uint8_t *buffer = malloc(length + 1);
    size_t needed = 0;
    uint32_t told = cddlseq_write(
        text, text_length, (const uint8_t *)"", 0, stream, stream_length, &limits, CDDLSEQ_REPORT, &refusal, &end, buffer, length, &needed);
    if (told != status || needed != length || memcmp(buffer, printed, length)) {
        stop("the reports differ");
    }
    free(buffer);
}

// A session that is given so many bytes at once says the same.
static void expect_session(
    const uint8_t *text, size_t text_length, const uint8_t *stream, size_t stream_length, uint32_t status, const struct cddlseq_end *wanted) {
    struct cddlseq_refusal refusal;
    struct cddlseq_session session = CDDLSEQ_NOTHING;
    struct cddlseq_end end;
    size_t size = 1 + stream_length % 7, used = 0;
    uint32_t told = cddlseq_begin(text, text_length, (const uint8_t *)"", 0, &limits, &refusal, &session);
    if (told != CDDLSEQ_OK) {
        stop("a session is not begun");
    }
    for (size_t at = 0; at < stream_length && (told == CDDLSEQ_OK || told == CDDLSEQ_ITEM); at += used) {
        size_t left = stream_length - at;
        told = cddlseq_feed(&session, stream + at, left < size ? left : size, &used, &end);
    }
    if (told == CDDLSEQ_OK || told == CDDLSEQ_ITEM) {
        told = cddlseq_finish(&session, &end);
    }
    if (told != status || end.items != wanted->items || end.offset != wanted->offset || end.cause != wanted->cause || end.place != wanted->place) {
        stop("the session differs");
    }
    cddlseq_discard(&session);
}

static void count(uint32_t status, const struct cddlseq_refusal *refusal, const struct cddlseq_end *end) {
    uint32_t number = status * 7 + refusal->code * 64 + end->cause * 512;
    number += status == CDDLSEQ_REFUSED ? 0 : (uint32_t)(end->items < 6 ? end->items : 6) * 8 + (uint32_t)(end->place < 7 ? end->place : 7);
    counters[number % COUNTERS] = 1;
}

int LLVMFuzzerTestOneInput(const uint8_t *data, size_t size) {
    const uint8_t *zero = memchr(data, 0, size);
    size_t text_length = zero ? (size_t)(zero - data) : size;
    const uint8_t *stream = zero ? zero + 1 : data + size;
    size_t stream_length = (size_t)(data + size - stream), length;
    struct cddlseq_refusal refusal;
    struct cddlseq_end end = {0};
    uint8_t *printed;
    uint32_t status = cddlseq_validate(
        data, text_length, (const uint8_t *)"", 0, stream, stream_length, &limits, &refusal, &end);
    count(status, &refusal, &end);
    save(spec_file, data, text_length);
    save(in_file, stream, stream_length);
    int told = run_program(&printed, &length);
    if (status > CDDLSEQ_REFUSED || told != (int)status) {
        stop("the statuses differ");
    }
    if (status == CDDLSEQ_REFUSED) {
        expect_line(&refusal, printed, length);
    } else {
        expect_report(data, text_length, stream, stream_length, status, printed, length);
        expect_session(data, text_length, stream, stream_length, status, &end);
    }
    free(printed);
    return 0;
}

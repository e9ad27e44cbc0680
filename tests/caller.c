// The commands check, validate, rewrite, show and explain over the calls of include/cddlseq.h, so that the rows and the tests of the
// program can be run on the library. It says what the program says, but for misuse, and reads a stream whole before it writes. What
// validate says of a stream has to be what a session says of it, however it is cut into pieces.
#include "cddlseq.h"
#include <fcntl.h>
#include <signal.h>
#include <stdint.h>
#include <stdio.h>
#include <stdlib.h>
#include <string.h>
#include <unistd.h>

enum { BROKEN = 3, LONGEST_TEXT = 1048577, LONGEST_IN_PIECES = 1 << 17 };

// The specification that show reads.
static const char any[] = "a = any";

// 'is_cut': a read failed behind them.
struct bytes {
    uint8_t *at;
    size_t length, room;
    int is_cut;
};

// Of 'explain' the specification is the word.
struct options {
    const char *command, *spec, *stream, *root;
    int quiet, deterministic, explain;
    struct cddlseq_limits limits;
};

static const char *const codes[] = {
    "", "S1 NotUtf8", "S2 BadCharacter", "S3 Unclosed", "S4 BadEscape", "S5 BadNumber", "S6 FloatLiteral", "S7 NumberTooLarge",
    "S8 BadBytes", "S9 SourceTooLong", "S10 Unexpected", "S11 TooNested", "C1 Duplicate", "C2 KindClash", "C3 Undefined",
    "C4 Arity", "C5 NoRoot", "C6 BadRoot", "C7 GroupAsType", "C8 HashForm", "C9 UnknownControl", "C10 TooManyInstances",
    "C11 NotUnwrappable", "C12 Recursion", "C13 NotLiteral", "C14 BadRange", "C15 BadController", "C16 NoKey", "C17 MapShape",
    "C18 TooManyAlternatives",
};

// Writes the bytes, and returns how many the device took: fewer where a write failed.
static size_t put(int device, const uint8_t *bytes, size_t length) {
    size_t written = 0;
    while (written < length) {
        ssize_t taken = write(device, bytes + written, length - written);
        if (taken <= 0) {
            break;
        }
        written += (size_t)taken;
    }
    return written;
}

// A failed write of what is said is passed over.
static void say(const char *text) {
    put(2, (const uint8_t *)text, strlen(text));
}

// Says how far it came.
static int broken_after(const char *what, uint64_t number, const char *of) {
    char line[64];
    snprintf(line, sizeof line, "%s failed after %llu %s\n", what, (unsigned long long)number, of);
    say(line);
    return BROKEN;
}

// Writes the bytes to standard output. Returns this status, or that of a failed write.
static int answer(const uint8_t *bytes, size_t length, int status) {
    size_t written = put(1, bytes, length);
    return written == length ? status : broken_after("write", written, "bytes");
}

static int no_memory(void) {
    say("out of memory\n");
    return BROKEN;
}

static int misuse(void) {
    say("usage: caller check|validate|rewrite|show|explain [OPTION..] SPEC [FILE]\n");
    return BROKEN;
}

// The character at the front of a word, and how many bytes it has: none where they are no UTF-8.
static size_t character(const char *word, uint32_t *it) {
    const unsigned char *bytes = (const unsigned char *)word;
    static const uint32_t least[] = {0, 0, 0x80, 0x800, 0x10000};
    size_t length = *bytes < 0x80 ? 1 : *bytes < 0xc0 ? 0 : *bytes < 0xe0 ? 2 : *bytes < 0xf0 ? 3 : *bytes < 0xf8 ? 4 : 0;
    *it = length == 1 ? *bytes : *bytes & (0x7fu >> length);
    for (size_t at = 1; at < length; at++) {
        if ((bytes[at] & 0xc0) != 0x80) {
            return 0;
        }
        *it = *it << 6 | (bytes[at] & 0x3f);
    }
    int is_surrogate = *it >= 0xd800 && *it < 0xe000;
    return *it < least[length] || *it > 0x10ffff || is_surrogate ? 0 : length;
}

// Whether a character is shown as its number: a control character, or one that changes the order of others.
static int is_escaped(uint32_t it) {
    return it < 0x20 || (it >= 0x7f && it < 0xa0) || (it >= 0x202a && it <= 0x202e) || (it >= 0x2066 && it <= 0x2069);
}

// Says a line that ends with a word, some of whose characters are shown as their numbers.
static int say_of(const char *what, const char *word) {
    uint32_t it;
    say(what);
    for (size_t length; *word; word += length) {
        char shown[8];
        length = character(word, &it);
        if (is_escaped(it)) {
            snprintf(shown, sizeof shown, "\\u%04x", (unsigned)it);
        } else {
            snprintf(shown, sizeof shown, "%.*s", (int)length, word);
        }
        say(shown);
    }
    say("\n");
    return BROKEN;
}

static int has_room(struct bytes *it, size_t room) {
    if (it->room < room) {
        uint8_t *at = realloc(it->at, room);
        if (!at) {
            return 0;
        }
        it->at = at;
        it->room = room;
    }
    return 1;
}

// Reads at most so many bytes of a file, or of standard input where it has no name. Returns 0, or the status.
static int read_file(const char *name, size_t most, struct bytes *into) {
    int device = name ? open(name, O_RDONLY) : 0, status = 0;
    if (device < 0) {
        return say_of("cannot open ", name);
    }
    while (into->length < most) {
        if (into->length == into->room && !has_room(into, 2 * into->room + 4096)) {
            status = no_memory();
            break;
        }
        size_t left = into->room - into->length;
        ssize_t count = read(device, into->at + into->length, left < most - into->length ? left : most - into->length);
        into->is_cut = count < 0;
        if (count <= 0) {
            break;
        }
        into->length += (size_t)count;
    }
    if (name) {
        close(device);
    }
    return status;
}

// The status of the program for what a call answers where there is no end.
static int refused(uint32_t status, const struct cddlseq_refusal *refusal) {
    char line[128];
    if (status == CDDLSEQ_NO_MEMORY) {
        return no_memory();
    }
    if (status != CDDLSEQ_REFUSED) {
        return misuse();
    }
    snprintf(line, sizeof line, "refused: %s at byte %zu\n", codes[refusal->code], refusal->offset);
    say(line);
    return 2;
}

// The status of the program for a text that is refused, which is explained where the options say so.
static int refused_text(const struct options *options, const struct bytes *text, uint32_t status, const struct cddlseq_refusal *refusal, struct bytes *told) {
    const char *root = options->root ? options->root : "";
    size_t needed = 64;
    if (status != CDDLSEQ_REFUSED || !options->explain) {
        return refused(status, refusal);
    }
    do {
        if (!has_room(told, needed)) {
            return no_memory();
        }
        status = cddlseq_explain(
            text->at, text->length, (const uint8_t *)root, strlen(root), (const uint8_t *)options->spec, strlen(options->spec), refusal,
            told->at, told->room, &needed);
    } while (status == CDDLSEQ_NO_ROOM);
    if (status != CDDLSEQ_OK) {
        return refused(status, refusal);
    }
    put(2, told->at, needed);
    return 2;
}

// Has the library write what is wanted, to a buffer that is made larger where it has to be.
static uint32_t ask(
    const struct options *options, const struct bytes *text, const struct bytes *stream, uint32_t wanted,
    struct cddlseq_refusal *refusal, struct bytes *told) {
    const uint8_t *root = (const uint8_t *)(options->root ? options->root : "");
    struct cddlseq_end end;
    uint32_t status;
    size_t needed = 64;
    do {
        if (!has_room(told, needed)) {
            return CDDLSEQ_NO_MEMORY;
        }
        status = cddlseq_write(
            text->at, text->length, root, strlen((const char *)root), stream->at, stream->length, &options->limits, wanted, refusal,
            &end, told->at, told->room, &needed);
    } while (status == CDDLSEQ_NO_ROOM);
    told->length = needed;
    return status;
}

// The same by a handle.
static uint32_t ask_by(struct cddlseq_handle *handle, const struct bytes *stream, uint32_t wanted, struct bytes *told) {
    struct cddlseq_end end;
    uint32_t status;
    size_t needed = 64;
    do {
        if (!has_room(told, needed)) {
            return CDDLSEQ_NO_MEMORY;
        }
        status = cddlseq_write_by(
            handle, stream->at, stream->length, wanted, &end, told->at, told->room, &needed);
    } while (status == CDDLSEQ_NO_ROOM);
    told->length = needed;
    return status;
}

// Feeds the stream in pieces of this size, each item by item or whole, and ends it.
static uint32_t feed_pieces(
    struct cddlseq_session *session, const struct bytes *stream, size_t size, int is_whole, struct cddlseq_end *end) {
    for (size_t at = 0; at < stream->length; at += size) {
        size_t length = stream->length - at < size ? stream->length - at : size;
        for (size_t used = 0, from = 0; from < length; from += used) {
            struct cddlseq_end before = *end;
            uint32_t status;
            if (is_whole) {
                used = length;
                status = cddlseq_feed_all(session, stream->at + at, length, end);
            } else {
                status = cddlseq_feed(session, stream->at + at + from, length - from, &used, end);
            }
            int is_item = status == CDDLSEQ_ITEM && end->items == before.items + 1 && end->offset == at + from + used;
            if (status != CDDLSEQ_OK && !is_item) {
                return status;
            }
        }
    }
    return cddlseq_finish(session, end);
}

// Whether a session shows this of the place of its mismatch.
static int shows(struct cddlseq_session *session, uint32_t wanted, const struct bytes *told) {
    uint8_t *shown = malloc(told->length + 1);
    size_t needed = 0;
    uint32_t status = shown ? cddlseq_show(session, wanted, shown, told->length, &needed) : CDDLSEQ_NO_MEMORY;
    int is_same = status == CDDLSEQ_OK && needed == told->length && !memcmp(shown, told->at, needed);
    free(shown);
    return is_same;
}

// Whether a session says of the stream, byte by byte and in longer pieces, what is said of it whole.
static int is_same_in_pieces(
    const struct options *options, const struct bytes *text, const struct bytes *stream, struct bytes *path, struct bytes *notation) {
    const uint8_t *root = (const uint8_t *)(options->root ? options->root : "");
    struct cddlseq_refusal refusal;
    struct cddlseq_session session = CDDLSEQ_NOTHING;
    struct cddlseq_end end, wanted = {0};
    uint32_t status = cddlseq_validate(
        text->at, text->length, root, strlen((const char *)root), stream->at, stream->length, &options->limits, &refusal, &wanted);
    if (status > CDDLSEQ_FAILED || ask(options, text, stream, CDDLSEQ_PATH, &refusal, path) != status ||
        ask(options, text, stream, CDDLSEQ_NOTATION, &refusal, notation) != status) {
        return status > CDDLSEQ_FAILED;
    }
    if (cddlseq_begin(text->at, text->length, root, strlen((const char *)root), &options->limits, &refusal, &session) != CDDLSEQ_OK) {
        return 0;
    }
    int is_same = 1;
    for (int is_whole = 0; is_whole < 2 && is_same; is_whole++) {
        end = (struct cddlseq_end){0};
        uint32_t told = feed_pieces(&session, stream, is_whole ? 1021 : 1, is_whole, &end);
        is_same = told == status && end.items == wanted.items && end.offset == wanted.offset && end.cause == wanted.cause &&
                  end.place == wanted.place && shows(&session, CDDLSEQ_PATH, path) && shows(&session, CDDLSEQ_NOTATION, notation);
        cddlseq_restart(&session);
    }
    cddlseq_discard(&session);
    return is_same;
}

// Whether a read failed before the end of the stream was known, and how far it was taken.
static int is_cut_off(const struct options *options, const struct bytes *text, const struct bytes *stream, struct cddlseq_end *end) {
    const uint8_t *root = (const uint8_t *)(options->root ? options->root : "");
    struct cddlseq_refusal refusal;
    struct cddlseq_session session = CDDLSEQ_NOTHING;
    cddlseq_begin(text->at, text->length, root, strlen((const char *)root), &options->limits, &refusal, &session);
    int is_open = cddlseq_feed_all(&session, stream->at, stream->length, end) == CDDLSEQ_OK;
    cddlseq_discard(&session);
    return stream->is_cut && is_open;
}

// How long the lines are but for the last one.
static size_t before_last_line(const struct bytes *lines) {
    size_t length = lines->length ? lines->length - 1 : 0;
    while (length > 0 && lines->at[length - 1] != '\n') {
        length--;
    }
    return length;
}

static int validate(
    const struct options *options, const struct bytes *text, const struct bytes *stream, struct bytes *told, struct bytes *more) {
    struct cddlseq_refusal refusal;
    struct cddlseq_end end;
    // Of a stream that comes byte by byte there is a call for each, so a long one is left out.
    if (stream->length < LONGEST_IN_PIECES && !is_same_in_pieces(options, text, stream, told, more)) {
        say("a session says something else\n");
        return BROKEN;
    }
    uint32_t status = ask(options, text, stream, options->quiet ? CDDLSEQ_END_LINE : CDDLSEQ_REPORT, &refusal, told);
    if (status > CDDLSEQ_FAILED) {
        return refused(status, &refusal);
    }
    if (!is_cut_off(options, text, stream, &end)) {
        return answer(told->at, told->length, (int)status);
    }
    // The line of the end is the last one.
    int broken = answer(told->at, before_last_line(told), 0);
    return broken ? broken : broken_after("read", end.items, "items");
}

// Asks by a handle for the items and for the line of the end.
static int rewrite(
    const struct options *options, const struct bytes *text, const struct bytes *stream, struct bytes *told, struct bytes *line) {
    const uint8_t *root = (const uint8_t *)(options->root ? options->root : "");
    struct cddlseq_refusal refusal;
    struct cddlseq_end end;
    struct cddlseq_handle handle = CDDLSEQ_NOTHING;
    uint32_t status = cddlseq_open(
        text->at, text->length, root, strlen((const char *)root), &options->limits, &refusal, &handle);
    if (status != CDDLSEQ_OK) {
        return refused(status, &refusal);
    }
    status = ask_by(&handle, stream, options->deterministic ? CDDLSEQ_DETERMINISTIC : CDDLSEQ_PREFERRED, told);
    if (status <= CDDLSEQ_FAILED) {
        status = ask_by(&handle, stream, CDDLSEQ_END_LINE, line);
    }
    cddlseq_close(&handle);
    if (status > CDDLSEQ_FAILED) {
        return refused(status, &refusal);
    }
    int broken = answer(told->at, told->length, 0);
    if (!broken && is_cut_off(options, text, stream, &end)) {
        broken = broken_after("read", end.items, "items");
    }
    if (broken) {
        return broken;
    }
    put(2, line->at, line->length);
    return (int)status;
}

// Writes what the word means.
static int explain(const char *word, struct bytes *told) {
    uint32_t status;
    size_t needed = 64;
    do {
        if (!has_room(told, needed)) {
            return no_memory();
        }
        status = cddlseq_explain_word((const uint8_t *)word, strlen(word), told->at, told->room, &needed);
    } while (status == CDDLSEQ_NO_ROOM);
    if (status == CDDLSEQ_BAD_WORD) {
        return say_of("no such code or cause (cddlseq explain --help lists them): ", word);
    }
    return status == CDDLSEQ_OK ? answer(told->at, needed, 0) : no_memory();
}

// Reads the files, and does what the command says.
static int perform(const struct options *options, struct bytes *text, struct bytes *stream, struct bytes *told, struct bytes *line) {
    const uint8_t *root = (const uint8_t *)(options->root ? options->root : "");
    struct cddlseq_refusal refusal;
    int status = has_room(text, sizeof any) && has_room(stream, 1) ? 0 : no_memory();
    if (!status && options->spec) {
        status = read_file(options->spec, LONGEST_TEXT, text);
        status = text->is_cut ? say_of("cannot read ", options->spec) : status;
    } else if (!status) {
        text->length = sizeof any - 1;
        memcpy(text->at, any, text->length);
    }
    if (status) {
        return status;
    }
    uint32_t checked = cddlseq_check(text->at, text->length, root, strlen((const char *)root), &refusal);
    if (checked != CDDLSEQ_OK) {
        return refused_text(options, text, checked, &refusal, told);
    }
    if (!strcmp(options->command, "check")) {
        return answer((const uint8_t *)"accepted\n", 9, 0);
    }
    status = read_file(options->stream, SIZE_MAX, stream);
    if (status) {
        return status;
    }
    return strcmp(options->command, "rewrite") ? validate(options, text, stream, told, line)
                                               : rewrite(options, text, stream, told, line);
}

// The value of this option, if the word begins with its name: behind '=', or the next word.
static const char *value_of(const char *option, char ***words) {
    size_t length = strlen(option);
    if (strncmp(**words, option, length)) {
        return NULL;
    }
    if ((**words)[length] == '=') {
        return **words + length + 1;
    }
    return !(**words)[length] && (*words)[1] ? *++*words : NULL;
}

static int is_option(char ***words, struct options *into) {
    const char *value;
    if (!strcmp(**words, "--quiet")) {
        into->quiet = 1;
    } else if (!strcmp(**words, "--deterministic")) {
        into->deterministic = 1;
    } else if (!strcmp(**words, "--explain")) {
        into->explain = 1;
    } else if ((value = value_of("--root", words))) {
        into->root = value;
    } else if ((value = value_of("--depth", words))) {
        into->limits.depth = (uint32_t)strtoul(value, NULL, 10);
    } else if ((value = value_of("--item-bytes", words))) {
        into->limits.item_bytes = (uint32_t)strtoul(value, NULL, 10);
    } else if ((value = value_of("--steps", words))) {
        into->limits.steps = strtoull(value, NULL, 10);
    } else {
        return 0;
    }
    return 1;
}

static int is_read(char **words, struct options *into) {
    int all_are_names = 0;
    for (; *words; words++) {
        if (all_are_names || !is_option(&words, into)) {
            if (!all_are_names && !strcmp(*words, "--")) {
                all_are_names = 1;
            } else if (!into->spec) {
                into->spec = *words;
            } else if (!into->stream) {
                into->stream = *words;
            } else {
                return 0;
            }
        }
    }
    return 1;
}

// Whether all words are UTF-8; the first that is not is told.
static int are_characters(char **words) {
    char line[64];
    uint32_t it;
    for (int number = 1; words[number]; number++) {
        for (size_t at = 0, length; words[number][at]; at += length) {
            length = character(words[number] + at, &it);
            if (!length) {
                snprintf(line, sizeof line, "argument %d is not UTF-8\n", number);
                say(line);
                return 0;
            }
        }
    }
    return 1;
}

// Of show the first file is the stream.
static int are_named(struct options *options) {
    if (strcmp(options->command, "show")) {
        return options->spec != NULL;
    }
    int is_one = !options->stream;
    options->stream = options->spec;
    options->spec = NULL;
    return is_one;
}

int main(int count, char **words) {
    struct options options = {0};
    struct bytes text = {0}, stream = {0}, told = {0}, line = {0};
    options.limits = (struct cddlseq_limits)CDDLSEQ_LIMITS;
    options.command = count < 2 ? "" : words[1];
    // A failed write is told.
    signal(SIGPIPE, SIG_IGN);
    if (!are_characters(words)) {
        return BROKEN;
    }
    if (count < 2 || !is_read(words + 2, &options) || !are_named(&options)) {
        return misuse();
    }
    if (options.stream && !strcmp(options.stream, "-")) {
        options.stream = NULL;
    }
    int is_word = !strcmp(options.command, "explain");
    int status = is_word ? explain(options.spec, &told) : perform(&options, &text, &stream, &told, &line);
    free(text.at);
    free(stream.at);
    free(told.at);
    free(line.at);
    return status;
}

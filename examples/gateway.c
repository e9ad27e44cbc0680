// A gateway: it takes frames from a socket, passes on those that a specification accepts, and drops the others.
//
//     gateway SPEC < SOCKET > SOCKET
//
// A frame is two bytes, which are its length, the high one first, and as many bytes, which have to be one item or more. Those that
// match are written to standard output as they came. Of each other one a line on standard error says why. The specification is read
// once. The socket may give any number of bytes at once.
//
//     cc gateway.c $(pkg-config --cflags --libs cddlseq) -o gateway
#include <cddlseq.h>
#include <stdio.h>
#include <stdlib.h>
#include <string.h>
#include <unistd.h>

enum { LONGEST_TEXT = 1 << 20, LONGEST_FRAME = 65535, LONGEST_LINE = 512 };

// Reads as many bytes, and answers how many came: fewer only where no more do.
static size_t take(uint8_t *into, size_t length) {
    size_t taken = 0;
    while (taken < length) {
        ssize_t count = read(0, into + taken, length - taken);
        if (count <= 0) {
            break;
        }
        taken += (size_t)count;
    }
    return taken;
}

static int pass_on(const uint8_t *bytes, size_t length) {
    while (length > 0) {
        ssize_t count = write(1, bytes, length);
        if (count <= 0) {
            return 0;
        }
        bytes += count;
        length -= (size_t)count;
    }
    return 1;
}

// Says why a frame is dropped, which ends so: in the words of the program, the line of its end, or where there is no memory for
// that by the offset alone.
static void say_dropped(struct cddlseq_handle *handle, unsigned long number, const uint8_t *frame, size_t length, const struct cddlseq_end *end) {
    static uint8_t line[LONGEST_LINE];
    struct cddlseq_end again;
    size_t needed;
    uint32_t status =
        cddlseq_write_by(handle, frame, length, CDDLSEQ_END_LINE, &again, line, sizeof line, &needed);
    if (status == CDDLSEQ_FAILED) {
        fprintf(stderr, "frame %lu dropped: %.*s", number, (int)needed, (const char *)line);
    } else {
        fprintf(stderr, "frame %lu dropped at byte %llu\n", number, (unsigned long long)end->offset);
    }
}

// Takes frames until no more come, and answers the program's status.
static int run(struct cddlseq_handle *handle) {
    static uint8_t bytes[2 + LONGEST_FRAME];
    for (unsigned long number = 1;; number++) {
        struct cddlseq_end end;
        size_t count = take(bytes, 2);
        size_t length = (size_t)bytes[0] << 8 | bytes[1];
        if (count == 0) {
            return 0;
        }
        if (count < 2 || take(bytes + 2, length) < length) {
            fprintf(stderr, "frame %lu is cut\n", number);
            return 1;
        }
        uint32_t status = cddlseq_validate_by(handle, bytes + 2, length, &end);
        if (status == CDDLSEQ_NO_MEMORY) {
            fprintf(stderr, "frame %lu dropped: out of memory\n", number);
        } else if (status == CDDLSEQ_OK && end.items == 0) {
            fprintf(stderr, "frame %lu dropped: it is empty\n", number);
        } else if (status == CDDLSEQ_FAILED) {
            say_dropped(handle, number, bytes + 2, length, &end);
        } else if (!pass_on(bytes, 2 + length)) {
            return 1;
        }
    }
}

static int open_specification(const char *name, struct cddlseq_handle *handle) {
    const struct cddlseq_limits limits = CDDLSEQ_LIMITS;
    static uint8_t text[LONGEST_TEXT + 1];
    struct cddlseq_refusal refusal;
    FILE *file = fopen(name, "rb");
    if (!file) {
        fprintf(stderr, "cannot open %s\n", name);
        return 0;
    }
    size_t length = fread(text, 1, sizeof text, file);
    fclose(file);
    uint32_t status = cddlseq_open(text, length, (const uint8_t *)"", 0, &limits, &refusal, handle);
    if (status != CDDLSEQ_OK) {
        fprintf(stderr, "%s: status %u, code %u at byte %zu\n", name, (unsigned)status, (unsigned)refusal.code, refusal.offset);
    }
    return status == CDDLSEQ_OK;
}

int main(int count, char **words) {
    struct cddlseq_handle handle = CDDLSEQ_NOTHING;
    if (count != 2) {
        fprintf(stderr, "usage: gateway SPEC\n");
        return 2;
    }
    if (!open_specification(words[1], &handle)) {
        return 2;
    }
    int status = run(&handle);
    cddlseq_close(&handle);
    return status;
}

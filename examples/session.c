/* A session file replayed from C: reads it in pieces, as they come from a file or a pipe, runs record by record and writes the listing to standard output. */
#include <errno.h>
#include <fcntl.h>
#include <stdio.h>
#include <string.h>
#include <unistd.h>

#include <bulitampaw.h>

/* How many bytes are asked for at a time. */
#ifndef PIECE
#define PIECE 4096
#endif

/* What was read of a file: so many bytes, of which those from a place on have not been run. Any record has room. */
typedef struct {
    uint8_t bytes[BULITAMPAW_RECORD_BYTES];
    size_t length, place;
    uint32_t last; /* whether the file ends with them */
} buffer;

/* Moves what was not run to the front and reads on behind it. Answers whether that could be done.
   Only where no whole record is left does a step ask for more, so there is room. */
static int refill(buffer *b, int file)
{
    size_t room;
    ssize_t got;
    b->length -= b->place;
    memmove(b->bytes, b->bytes + b->place, b->length);
    b->place = 0;
    room = sizeof b->bytes - b->length;
    do {
        got = read(file, b->bytes + b->length, room < PIECE ? room : PIECE);
    } while (got < 0 && errno == EINTR);
    if (got < 0) {
        return 0;
    }
    b->length += (size_t)got;
    b->last = got == 0;
    return 1;
}

/* Lists an open file, and answers the exit status. */
static int list(const char *name, int file)
{
    static buffer b;
    static bulitampaw_rooms rooms;
    bulitampaw_session session;
    bulitampaw_step_result step;
    bulitampaw_session_begin(&session, &rooms);
    do {
        step = bulitampaw_session_step(&session, &rooms, b.bytes, b.length, &b.place, b.last);
        if (step.status == BULITAMPAW_STATUS_MORE && !refill(&b, file)) {
            perror(name);
            return 1;
        }
        if (fwrite(rooms.text, 1, step.text, stdout) != step.text) {
            perror("standard output");
            return 1;
        }
    } while (step.status == BULITAMPAW_STATUS_LISTED || step.status == BULITAMPAW_STATUS_MORE);
    if (step.status != BULITAMPAW_STATUS_END) {
        fprintf(stderr, "%s: record %u: %s\n", name, (unsigned)session.records, bulitampaw_refusal_name(step.refusal.number));
    }
    return 0;
}

int main(int count, char **words)
{
    int file, status;
    if (count != 2) {
        fprintf(stderr, "usage: session FILE\n");
        return 2;
    }
    file = open(words[1], O_RDONLY);
    if (file < 0) {
        perror(words[1]);
        return 1;
    }
    status = list(words[1], file);
    close(file);
    if (fclose(stdout) != 0 && status == 0) {
        perror("standard output");
        status = 1;
    }
    return status;
}

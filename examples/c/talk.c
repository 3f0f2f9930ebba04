/* What two pipes say to each other in a session.
 *
 * Flows are known by their numbers, as no entry tells a flow's metadata: an end opens 0 for
 * lines, 1 for words, and 2 for a file, whose messages are its pieces, in their order. The words,
 * which each end says of its own side:
 *
 *     end N     in flows 0 and 2 go N messages in all
 *     has N     so many of the other's were handed over, and are written
 *     bye       both ends have all. The end that was called says it; the other one closes
 *
 * The library tells of no acknowledgement, and one would say nothing of what the other program
 * did with a message. So the other end tells it, and nobody closes a session in which something
 * is under way. */
#define _GNU_SOURCE
#include "talk.h"
#include "host.h"

#include <errno.h>
#include <fcntl.h>
#include <inttypes.h>
#include <stdlib.h>
#include <string.h>
#include <sys/stat.h>
#include <unistd.h>

enum { LINES, WORDS, PIECES, FLOWS };

/* A message of a file, what is read of lines at a time, and the longest line with its end. */
#define PIECE 32768
#define SOME 65536
#define ROOM (RTMFP_MAX_MESSAGE + 1)
/* So often the other end is told what is here, and the bar is drawn. */
#define TELL_EACH 100
#define BAR 40
#define LONGEST_WORD 32

/* ---- the files */

void talk_prepare(struct talk *talk, const char *file, const char *out) {
    struct stat about;
    talk->file = file;
    talk->out = out;
    talk->input = file ? open(file, O_RDONLY | O_CLOEXEC) : STDIN_FILENO;
    if (talk->input < 0) fail(BAD_WORDS, "%s: %s", file, strerror(errno));
    if (file && (fstat(talk->input, &about) < 0 || !S_ISREG(about.st_mode)))
        fail(BAD_WORDS, "%s is no file", file);
    talk->size = file ? (uint64_t)about.st_size : 0;
    talk->text = malloc(ROOM);
    if (!talk->text) fail(NO_MEANS, "out of memory");
    talk->to = out ? NULL : stdout;
}

/* The name that the file has until all is there. */
static char *name_of_part(const struct talk *talk) {
    char *name;
    if (asprintf(&name, "%s.part", talk->out) < 0) fail(NO_MEANS, "out of memory");
    return name;
}

/* Begins the file that is written, from nothing. */
static void begin_out(struct talk *talk) {
    char *part = name_of_part(talk);
    if (talk->to) fclose(talk->to);
    talk->to = fopen(part, "we");
    if (!talk->to) fail(NO_MEANS, "%s: %s", part, strerror(errno));
    free(part);
}

/* All is there: the file gets its name. */
static void finish_out(struct talk *talk) {
    char *part = name_of_part(talk);
    int is_closed = fclose(talk->to) == 0;
    talk->to = NULL;
    if (!is_closed || rename(part, talk->out) < 0)
        fail(NO_MEANS, "%s: %s", talk->out, strerror(errno));
    free(part);
}

_Noreturn static void fail_to_write(void) {
    fail(NO_MEANS, "what came can't be written: %s", strerror(errno));
}

static void put(struct talk *talk, const void *bytes, size_t len) {
    if (fwrite(bytes, 1, len, talk->to) != len) fail_to_write();
}

/* Draws how much of the file the other end has, on a terminal. */
static void show_bar(const struct talk *talk) {
    static uint64_t shown_at;
    uint64_t there = talk->known * PIECE < talk->size ? talk->known * PIECE : talk->size;
    uint64_t share = talk->size ? 100 * there / talk->size : 100;
    char bar[BAR + 1] = "";
    if (!talk->file || !isatty(STDERR_FILENO) || now() < shown_at + TELL_EACH) return;
    shown_at = now();
    for (uint64_t i = 0; i < BAR; i++) bar[i] = i * 100 < share * BAR ? '#' : '.';
    fprintf(stderr, "\r[%s] %3" PRIu64 " %%", bar, share);
}

static void tell_arrival(const struct talk *talk) {
    if (!talk->file) return;
    double seconds = (double)(now() - talk->began) / 1000;
    tell("%s has arrived: %" PRIu64 " bytes in %.2f s", talk->file, talk->size, seconds);
}

/* ---- a session */

void talk_begin(struct talk *talk, uint32_t near, int is_own) {
    if (talk->is_open) talk_end(talk);
    talk->is_open = 1;
    talk->is_own = is_own;
    talk->near = near;
    talk->began = now();
    talk->has_flows = talk->is_counted = talk->has_ended = talk->has_left = 0;
    talk->queued = talk->known = talk->handed = talk->told = talk->told_at = talk->wanted = 0;
    if (talk->out) begin_out(talk);
    if (!talk->file) return;
    talk->len = 0;
    talk->is_over = 0;
    if (lseek(talk->input, 0, SEEK_SET) < 0) fail(NO_MEANS, "%s: %s", talk->file, strerror(errno));
}

/* Whether all is here that the other end sends. */
static int has_all(const struct talk *talk) {
    return talk->is_counted && talk->handed == talk->wanted;
}

/* Whether the other end has told that it has all that is sent. */
static int is_heard(const struct talk *talk) {
    return talk->has_ended && talk->known == talk->queued;
}

/* What was handed over is where it belongs, before the other end is told. */
static void settle_out(struct talk *talk) {
    if (talk->to && fflush(talk->to) != 0) fail_to_write();
    if (talk->out && talk->to && has_all(talk)) finish_out(talk);
}

void talk_end(struct talk *talk) {
    uint64_t left = talk->queued - talk->known;
    settle_out(talk);
    if (talk->file && isatty(STDERR_FILENO)) fputc('\n', stderr); /* (behind the bar) */
    talk->is_open = 0;
    if (is_heard(talk) && has_all(talk)) talk->is_done = 1;
    if (talk->is_done || talk->file || left == 0) return;
    talk->lost += left;
    tell("%" PRIu64 " lines may not have arrived", left);
}

static void open_flows(struct talk *talk, rtmfp_end *end) {
    /* (metadata that begin with an a would ask for messages in the order of arrival) */
    static const char *const metadata[FLOWS] = {"lines", "words", "pieces"};
    static const uint8_t priorities[FLOWS] = {3, 4, 3};
    for (uint64_t flow = 0; flow < FLOWS; flow++) {
        uint64_t number = flow;
        const uint8_t *bytes = (const uint8_t *)metadata[flow];
        size_t len = strlen(metadata[flow]);
        int32_t answer =
            rtmfp_open_flow(end, talk->near, priorities[flow], bytes, len, 0, 0, &number);
        if (answer != RTMFP_OK)
            fail(NO_MEANS, "a flow isn't opened: %s", rtmfp_answer_text(answer));
    }
    talk->has_flows = 1;
}

/* Whether a message could be queued; else the flow is full, or memory is short, and it is to be
 * tried again. */
static int queue(
    const struct talk *talk, rtmfp_end *end, uint64_t flow, const char *bytes, size_t len) {
    uint64_t seq = 0;
    const uint8_t *message = (const uint8_t *)bytes;
    int32_t answer =
        rtmfp_queue(end, talk->near, flow, message, len, RTMFP_NEVER, RTMFP_ALWAYS, &seq);
    return answer == RTMFP_OK;
}

static int say(const struct talk *talk, rtmfp_end *end, const char *word, uint64_t number) {
    char text[LONGEST_WORD];
    int len = snprintf(text, sizeof text, "%s %" PRIu64, word, number);
    return queue(talk, end, WORDS, text, (size_t)len);
}

/* ---- input */

/* Reads as much as has room, and notes the end. */
static void read_some(struct talk *talk, size_t most) {
    size_t room = ROOM - talk->len;
    ssize_t got = read(talk->input, talk->text + talk->len, room < most ? room : most);
    if (got < 0 && errno != EINTR && errno != EAGAIN)
        fail(NO_MEANS, "the input can't be read: %s", strerror(errno));
    talk->is_over = got == 0;
    talk->len += got > 0 ? (size_t)got : 0;
}

/* The length of the line that stands first in what was read, or -1 where its end isn't there yet.
 * One that is too long for a message goes in several. */
static ssize_t line_length(
    const struct talk *talk, const char *from, size_t left, int *has_newline) {
    const char *newline = memchr(from, '\n', left);
    *has_newline = newline != NULL;
    if (newline) return newline - from;
    if (left == ROOM) return RTMFP_MAX_MESSAGE;
    return talk->is_over && left > 0 ? (ssize_t)left : -1;
}

static void queue_lines(struct talk *talk, rtmfp_end *end) {
    size_t at = 0;
    int has_newline;
    ssize_t length;
    talk->is_full = 0;
    while ((length = line_length(talk, talk->text + at, talk->len - at, &has_newline)) >= 0) {
        talk->is_full = !queue(talk, end, LINES, talk->text + at, (size_t)length);
        if (talk->is_full) break;
        at += (size_t)length + (size_t)has_newline;
        talk->queued++;
    }
    talk->len -= at;
    memmove(talk->text, talk->text + at, talk->len);
}

static void queue_pieces(struct talk *talk, rtmfp_end *end) {
    talk->is_full = 0;
    while (!talk->is_full) {
        while (talk->len < PIECE && !talk->is_over) read_some(talk, PIECE - talk->len);
        if (talk->len == 0) return;
        talk->is_full = !queue(talk, end, PIECES, talk->text, talk->len);
        if (talk->is_full) return;
        talk->queued++;
        talk->len = 0;
    }
}

/* ---- words */

static void hear(struct talk *talk, const rtmfp_entry *entry) {
    char text[LONGEST_WORD] = "";
    uint64_t number;
    if (entry->len >= sizeof text) return;
    memcpy(text, entry->data, entry->len);
    if (sscanf(text, "end %" SCNu64, &number) == 1) {
        talk->wanted = number;
        talk->is_counted = 1;
    } else if (sscanf(text, "has %" SCNu64, &number) == 1) {
        if (number > talk->known && number <= talk->queued) talk->known = number;
    } else if (strncmp(text, "bye", 3) == 0 && talk->is_own && is_heard(talk)) {
        talk->is_done = 1;
    }
}

static void say_words(struct talk *talk, rtmfp_end *end) {
    int is_time = now() >= talk->told_at + TELL_EACH || has_all(talk);
    int is_read = talk->is_over && talk->len == 0;
    if (is_read && !talk->has_ended) talk->has_ended = say(talk, end, "end", talk->queued);
    if (talk->handed > talk->told && is_time && say(talk, end, "has", talk->handed)) {
        talk->told = talk->handed;
        talk->told_at = now();
    }
    int may_leave = !talk->is_own && is_heard(talk) && has_all(talk) && talk->told == talk->wanted;
    if (may_leave && !talk->has_left) talk->has_left = say(talk, end, "bye", 0);
}

/* ---- what the pipe calls */

void talk_hand(struct talk *talk, const rtmfp_entry *entry) {
    if (entry->flow == WORDS) hear(talk, entry);
    if (entry->flow == WORDS || entry->flow >= FLOWS || !talk->to) return;
    put(talk, entry->data, entry->len);
    if (entry->flow == LINES) put(talk, "\n", 1);
    talk->handed++;
}

void talk_act(struct talk *talk, rtmfp_end *end, int has_input) {
    if (!talk->is_open || talk->is_done) return;
    if (!talk->has_flows) open_flows(talk, end);
    if (has_input && !talk->is_over) read_some(talk, SOME);
    if (talk->file) queue_pieces(talk, end);
    else queue_lines(talk, end);
    settle_out(talk);
    say_words(talk, end);
    show_bar(talk);
}

int talk_input(const struct talk *talk) {
    int has_room = !talk->is_full && talk->len < ROOM;
    return talk->is_open && !talk->file && !talk->is_over && has_room ? talk->input : -1;
}

int talk_is_busy(const struct talk *talk) {
    int sends = talk->known < talk->queued, takes = talk->handed < talk->wanted;
    return talk->is_open && (sends || takes || talk->told < talk->handed);
}

int talk_is_done(const struct talk *talk) {
    return talk->is_done;
}

uint64_t talk_close(struct talk *talk) {
    if (talk->is_done) tell_arrival(talk);
    if (talk->out && talk->to) fclose(talk->to);
    if (talk->file) close(talk->input);
    free(talk->text);
    return talk->lost;
}

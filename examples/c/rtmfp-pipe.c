/* rtmfp-pipe: lines, or a file, from one end to another and back.
 *
 *     rtmfp-pipe SETUP [--file PATH] [--out PATH]
 *
 * SETUP is a file of mode 600 with these lines, in any order:
 *
 *     group 64 digits             the secret of the group, which all its ends have
 *     name alice                  1 to 64 letters
 *     address 127.0.0.1:40102     where it stands
 *     card alice.card             where it writes its fingerprint and its address (if wanted)
 *     meet inn 127.0.0.1:40100    an introducer with which it keeps a session
 *     call bob 127.0.0.1:40101    whom it calls, at 1 to 16 addresses
 *
 * Who is met or called is told by a name, by a fingerprint of 64 digits, or by @FILE, whose first
 * word is one, as a card. The addresses of a call are the end's own, or those of an introducer
 * that it has met, which passes on calls by fingerprint alone. With no line `call` it waits to be
 * called.
 *
 * It speaks with one other end: the one that it calls, or the last one that calls it. Each line
 * of standard input is a message, and each message that comes is printed as a line, or written to
 * --out. With --file it sends a file in place of lines; that goes, as it is, to the other's
 * standard output or --out, which has its name once all is there.
 *
 * It ends once both inputs are over and have arrived. Where a session ends before that, the one
 * that calls opens another one: a file begins anew there, and lines that weren't known to have
 * arrived are told as lost.
 *
 * Ends with 0 where all arrived, 1 where it was stopped or lines may be lost, 2 for bad words, 3
 * where the machine refuses something. `make` builds it, or in one line:
 *
 *     cc -std=c11 -O2 -o rtmfp-pipe rtmfp-pipe.c talk.c host.c setup.c \
 *         $(pkg-config --cflags --libs rtmfp)
 */
#define _GNU_SOURCE
#include "host.h"
#include "talk.h"

#include <string.h>

/* How long it waits before it calls again, and at most for an answer to its close, which goes
 * twice in that time. */
#define PAUSE 1000
#define FAREWELL 6000
/* How often it looks around where nothing comes: flow data and repeats go out then. */
#define BUSY 10
#define QUIET 50

enum stage { IDLE, UNDER_WAY, OPEN };

/* Another end that is met or called, and how far that is. */
struct link {
    const struct called *to;
    enum stage stage;
    uint32_t near;
    uint64_t number, again;
};

struct pipe {
    struct host host;
    struct talk talk;
    struct link links[MAX_LINKS];
    size_t count;
    uint32_t closing; /* how many sessions it closes */
};

static struct link *link_of(struct pipe *pipe, uint32_t near) {
    for (size_t i = 0; i < pipe->count; i++)
        if (pipe->links[i].stage != IDLE && pipe->links[i].near == near) return &pipe->links[i];
    return NULL;
}

static const char *why_text(uint32_t code) {
    switch (code) {
        case RTMFP_WHY_CANCELLED: return "given up";
        case RTMFP_WHY_EXPIRED: return "nobody answered";
        case RTMFP_WHY_GLARE: return "the other one's call goes first";
        case RTMFP_WHY_OVERRIDE: return "the other one began anew";
        case RTMFP_WHY_UNCONFIRMED: return "nothing came after the answer";
        case RTMFP_WHY_NEAR: return "closed here";
        case RTMFP_WHY_FAR: return "closed there";
        case RTMFP_WHY_IDLE: return "nothing came for two minutes";
        default: return "?";
    }
}

/* An attempt has begun: only its number tells which one, unless it came of a search. */
static void note_start(struct pipe *pipe, const rtmfp_entry *entry) {
    for (size_t i = 0; i < pipe->count; i++) {
        struct link *link = &pipe->links[i];
        if (link->stage == UNDER_WAY && link->number == entry->number) link->near = entry->near;
    }
}

static void close_session(struct pipe *pipe, uint32_t near) {
    if (rtmfp_close(&pipe->host.end, near, now()) == RTMFP_OK) pipe->closing++;
}

/* A session is there, by an own call or by another's. It takes the place of the one before, unless
 * that was called for. */
static void begin_in(struct pipe *pipe, const rtmfp_entry *entry, int is_own) {
    uint32_t before = pipe->talk.near;
    int is_second = pipe->talk.is_open, is_kept = is_second && pipe->talk.is_own;
    if (!is_kept) {
        tell("a session with %s", print_text(entry->peer));
        talk_begin(&pipe->talk, entry->near, is_own);
    }
    if (is_second) close_session(pipe, is_kept ? entry->near : before);
}

static void note_open(struct pipe *pipe, const rtmfp_entry *entry) {
    struct link *link = link_of(pipe, entry->near);
    if (!link) return;
    link->stage = OPEN;
    if (!link->to->is_met) begin_in(pipe, entry, 1);
}

static void note_end(struct pipe *pipe, const rtmfp_entry *entry) {
    struct link *link = link_of(pipe, entry->near);
    int is_talk = pipe->talk.is_open && pipe->talk.near == entry->near;
    if (link) {
        link->stage = IDLE;
        link->again = now() + PAUSE;
    }
    if (is_talk) talk_end(&pipe->talk);
    const char *what = is_talk || !link ? "the session is over" : link->to->who;
    if (is_talk || link) tell("%s: %s", what, why_text(entry->code));
}

static void heed(void *self, const rtmfp_entry *entry, const rtmfp_address *from) {
    struct pipe *pipe = self;
    (void)from;
    switch (entry->kind) {
        case RTMFP_STARTED: note_start(pipe, entry); break;
        case RTMFP_OPENED: note_open(pipe, entry); break;
        case RTMFP_CONFIRMED: begin_in(pipe, entry, 0); break;
        case RTMFP_ENDED:
        case RTMFP_UNSOUGHT: note_end(pipe, entry); break;
        case RTMFP_CLOSED: pipe->closing -= pipe->closing > 0; break;
        case RTMFP_HANDED:
            if (pipe->talk.is_open && pipe->talk.near == entry->near) talk_hand(&pipe->talk, entry);
            break;
        default: break;
    }
}

/* Meets and calls whom it has to, again where a session or an attempt is over. */
static void call_all(struct pipe *pipe) {
    for (size_t i = 0; i < pipe->count; i++) {
        struct link *link = &pipe->links[i];
        int is_wanted = link->to->is_met || !pipe->talk.is_open;
        if (link->stage != IDLE || !is_wanted || now() < link->again) continue;
        int32_t answer = call_end(&pipe->host, link->to, &link->number, &link->near);
        if (answer == RTMFP_OK) link->stage = UNDER_WAY;
        else if (!link->again) tell("%s can't be called yet: %s", link->to->who, call_text(answer));
        link->again = now() + PAUSE;
    }
}

/* Gives up searches for whom it doesn't need any more, since another one has called. */
static void drop_searches(struct pipe *pipe) {
    for (size_t i = 0; i < pipe->count; i++) {
        const struct link *link = &pipe->links[i];
        int is_search = link->stage == UNDER_WAY && link->number == 0;
        if (is_search && !link->to->is_met) rtmfp_unseek(&pipe->host.end, link->near);
    }
}

/* Does what isn't done by entries: calls, and what is said. */
static void act(struct pipe *pipe, int has_input) {
    if (pipe->talk.is_open) drop_searches(pipe);
    call_all(pipe);
    talk_act(&pipe->talk, &pipe->host.end, has_input);
}

/* Closes all sessions, and waits a while until the others have answered. */
static void say_farewell(struct pipe *pipe) {
    uint64_t until = now() + FAREWELL;
    if (pipe->talk.is_open) close_session(pipe, pipe->talk.near);
    for (size_t i = 0; i < pipe->count; i++)
        if (pipe->links[i].stage == OPEN && pipe->links[i].to->is_met)
            close_session(pipe, pipe->links[i].near);
    do {
        take_all(&pipe->host, heed, pipe);
        tick(&pipe->host, heed, pipe);
        wait_for(&pipe->host, -1, BUSY);
    } while (pipe->closing > 0 && now() < until);
}

static void run(struct pipe *pipe) {
    int has_input = 0;
    while (!is_stopped && !talk_is_done(&pipe->talk)) {
        take_all(&pipe->host, heed, pipe);
        act(pipe, has_input);
        tick(&pipe->host, heed, pipe);
        int pause = talk_is_busy(&pipe->talk) ? BUSY : QUIET;
        has_input = wait_for(&pipe->host, talk_input(&pipe->talk), pause);
    }
}

static const char *const usage = "use it as rtmfp-pipe SETUP [--file PATH] [--out PATH]";

/* The words of the command: the setup, the file that is sent, and the one that is written. */
static const char *read_words(int count, char **words, const char **file, const char **out) {
    const char *setup = NULL;
    for (int i = 1; i < count; i++) {
        const char **to = &setup;
        if (strcmp(words[i], "--file") == 0) to = file;
        if (strcmp(words[i], "--out") == 0) to = out;
        int is_option = to != &setup;
        if (is_option) i++;
        if (*to || i == count || (!is_option && words[i][0] == '-')) fail(BAD_WORDS, "%s", usage);
        *to = words[i];
    }
    if (!setup) fail(BAD_WORDS, "%s", usage);
    return setup;
}

int main(int count, char **words) {
    static struct pipe pipe;
    const rtmfp_config config = {.max_peers = 4096, .max_sessions = 64};
    const char *file = NULL, *out = NULL;
    struct setup setup;
    read_setup(read_words(count, words, &file, &out), &setup);
    for (size_t i = 0; i < setup.count; i++) pipe.links[pipe.count++].to = &setup.links[i];
    talk_prepare(&pipe.talk, file, out);
    catch_signals();
    begin(&pipe.host, &setup, &config);
    run(&pipe);
    int is_done = talk_is_done(&pipe.talk);
    say_farewell(&pipe);
    uint64_t lost = talk_close(&pipe.talk);
    end_host(&pipe.host);
    forget_setup(&setup);
    return is_done && lost == 0 ? ENDS_WELL : ENDS_EARLY;
}

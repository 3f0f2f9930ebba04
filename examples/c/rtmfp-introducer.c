/* rtmfp-introducer: an end that introduces others to each other.
 *
 *     rtmfp-introducer SETUP
 *
 * SETUP is a file as rtmfp-pipe.c tells, of mode 600, with the lines group, name, address and, if
 * wanted, card.
 *
 * Who has met it can be called at its place: it passes a call on to the end that is called, which
 * answers to where the call came from. It also keeps a row with the address at which it saw each
 * end, and tells that to the caller, which then calls there itself. So a call also gets through
 * where only one of the two translators lets strangers in.
 *
 * A row can't be taken away, and there are at most 1,024, each for one run of an end. Whoever
 * comes after that many is introduced without a row.
 *
 * Ends with 0 when it is stopped by SIGINT or SIGTERM, 2 for bad words, 3 where the machine
 * refuses something.
 *
 *     cc -std=c11 -O2 -o rtmfp-introducer rtmfp-introducer.c host.c setup.c \
 *         $(pkg-config --cflags --libs rtmfp)
 */
#define _GNU_SOURCE
#include "host.h"

#include <stdio.h>
#include <stdlib.h>
#include <string.h>

#define MAX_SESSIONS 4096
/* Whoever was met stays known, so this many runs of ends are met. */
#define MAX_PEERS 1048576
#define PAUSE 50
#define OBSERVED 2

/* An end that it keeps a session with. */
struct guest {
    uint32_t near; /* 0 where there is none, as no session has it */
    uint8_t print[PRINT_LEN];
};

struct inn {
    struct host host;
    struct guest guests[MAX_SESSIONS];
};

static struct guest *guest_of(struct inn *inn, uint32_t near) {
    for (size_t i = 0; i < MAX_SESSIONS; i++)
        if (inn->guests[i].near == near) return &inn->guests[i];
    return NULL;
}

/* Tells callers that the end is at this address from now on. */
static void give_row(struct inn *inn, const struct guest *guest, const rtmfp_address *address) {
    char text[ADDRESS_TEXT];
    rtmfp_address place = *address;
    place.origin = OBSERVED;
    int32_t answer = rtmfp_add_row(&inn->host.end, guest->print, &place, 1);
    write_address(address, text);
    tell("%s is at %s", print_text(guest->print), text);
    if (answer != RTMFP_OK) tell("without a row: %s", rtmfp_answer_text(answer));
}

/* The first datagram of a session has brought this, so it came from where the end is. */
static void welcome(struct inn *inn, const rtmfp_entry *entry, const rtmfp_address *from) {
    struct guest *guest = guest_of(inn, 0);
    if (!guest || !from) return;
    guest->near = entry->near;
    memcpy(guest->print, entry->peer, PRINT_LEN);
    give_row(inn, guest, from);
}

static void follow(struct inn *inn, const rtmfp_entry *entry) {
    const struct guest *guest = guest_of(inn, entry->near);
    if (guest) give_row(inn, guest, &entry->to);
}

static void forget(struct inn *inn, const rtmfp_entry *entry) {
    struct guest *guest = guest_of(inn, entry->near);
    if (guest) guest->near = 0;
}

static void heed(void *self, const rtmfp_entry *entry, const rtmfp_address *from) {
    switch (entry->kind) {
        case RTMFP_CONFIRMED: welcome(self, entry, from); break;
        case RTMFP_MOVED: follow(self, entry); break;
        case RTMFP_ENDED: forget(self, entry); break;
        default: break;
    }
}

/* Closes all sessions, so that the guests needn't wait two minutes to meet the next one. */
static void say_farewell(struct inn *inn) {
    for (size_t i = 0; i < MAX_SESSIONS; i++)
        if (inn->guests[i].near != 0) rtmfp_close(&inn->host.end, inn->guests[i].near, now());
    tick(&inn->host, heed, inn);
}

int main(int count, char **words) {
    static struct inn inn;
    const rtmfp_config config = {MAX_PEERS, MAX_SESSIONS, .introduces = 1};
    struct setup setup;
    if (count != 2 || words[1][0] == '-') fail(BAD_WORDS, "use it as rtmfp-introducer SETUP");
    read_setup(words[1], &setup);
    if (setup.count > 0) fail(BAD_WORDS, "%s: an introducer calls nobody", words[1]);
    catch_signals();
    begin(&inn.host, &setup, &config);
    while (!is_stopped) {
        wait_for(&inn.host, -1, PAUSE);
        take_all(&inn.host, heed, &inn);
        tick(&inn.host, heed, &inn);
    }
    say_farewell(&inn);
    end_host(&inn.host);
    forget_setup(&setup);
    return ENDS_WELL;
}

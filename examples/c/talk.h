/* What two pipes say to each other in a session: flow 0 has lines, flow 1 words, flow 2 a file. */
#ifndef TALK_H
#define TALK_H

#include <rtmfp.h>
#include <stdint.h>
#include <stdio.h>

struct talk {
    /* Where it comes from and goes to, over all sessions. */
    const char *file, *out;
    int input;   /* what is read, -1 for nothing */
    int is_over; /* nothing more is to be read */
    int is_full; /* what was read waits until the flow has room */
    char *text;  /* what was read and isn't queued yet */
    size_t len;
    uint64_t size, lost; /* of the file in bytes; lines that may not have arrived */
    FILE *to;
    int is_done; /* both ends have all */

    /* Of the session. */
    int is_open, has_flows;
    int is_own; /* an own call opened it, and closes it */
    uint32_t near;
    uint64_t began;
    uint64_t queued, known; /* messages that were queued; that the other end has */
    uint64_t handed, told;  /* messages that were handed over; that it was told of */
    uint64_t told_at;
    uint64_t wanted;         /* how many messages the other end sends in all .. */
    int is_counted;          /* .. once it has told that */
    int has_ended, has_left; /* which words were said: `end`, `bye` */
};

/* Opens the files, or fails. */
void talk_prepare(struct talk *talk, const char *file, const char *out);
void talk_begin(struct talk *talk, uint32_t near, int is_own);
void talk_end(struct talk *talk);

/* Takes a message that was handed over. */
void talk_hand(struct talk *talk, const rtmfp_entry *entry);

/* Reads, where input is there, and queues what is to be said. */
void talk_act(struct talk *talk, rtmfp_end *end, int has_input);

/* What is to be read next, or -1 while nothing is to be. */
int talk_input(const struct talk *talk);
int talk_is_busy(const struct talk *talk);

/* Whether both inputs are over and have arrived, and the session may be closed. */
int talk_is_done(const struct talk *talk);

/* Frees what it has; how many lines may not have arrived. */
uint64_t talk_close(struct talk *talk);

#endif

/*
 * rtmfp.h: one end of the Secure Real-Time Media Flow Protocol (RFC 7016, with a cryptography
 * profile of its own), without sockets, clocks, threads, random numbers or output.
 *
 * The program gives an end datagrams, moments and random values, and does what the end's entries
 * say. A loop looks like this:
 *
 *     rtmfp_end end = RTMFP_END_INIT;
 *     rtmfp_new(&end, &config, certificate, sizeof certificate, 0, group, cookie_secret);
 *     for (;;) {
 *         poll(socket, 20 ms);
 *         while (a datagram is there)                    // at most RTMFP_MAX_DATAGRAM bytes
 *             rtmfp_receive(&end, &from, now, bytes, len, &draws);
 *         rtmfp_tick(&end, now, &draws);                 // some times a second
 *         rtmfp_entry e = {0};
 *         for (size_t i = 0; rtmfp_entry_at(&end, i, &e) == RTMFP_OK; i++)
 *             if (e.kind == RTMFP_OUT) sendto(socket, e.data, e.len, .. e.to ..);
 *             else if (e.kind == RTMFP_HANDED) take(e.near, e.flow, e.data, e.len);
 *         rtmfp_clear(&end);
 *     }
 *     rtmfp_free(&end);
 *
 * Every number, length and byte that a call is given may be what it will: a call does what is said
 * here, or it is refused by a number, and then all is as before but for the moment that was told.
 *
 * RULES. No call can test these, and where one is broken, nothing is promised.
 *
 *   Handles    An rtmfp_end is all zero bytes (RTMFP_END_INIT), or what the last call left in it.
 *              It may be moved in memory, and must not be used twice: after a copy only one of the
 *              two may be passed again. Nothing but this library writes it.
 *   Pointers   Each pointer is valid for the call, properly aligned, and never null, also where a
 *              length is 0. What a pointer that isn't `const` leads to is reached by no other
 *              argument of the call. What a call writes to is initialised memory.
 *   Entries    `data` of an entry stays valid until the next call with the same end, other than
 *              rtmfp_entries, rtmfp_entry_at, rtmfp_entry_bytes and rtmfp_keeps. Don't write there,
 *              don't free it.
 *   Draws      Fresh for each call, from a cryptographic source: who foresees them can forge.
 *   Threads    No two calls at a time with one end, nor an end in two threads: make, use and free
 *              it in one thread. Different ends are independent: the library has no globals.
 *              No call from a signal handler, or in the forked child of a process with threads.
 *   Memory     malloc, realloc and free come from one allocator, and align blocks as C asks.
 *   Stack      Some 64 KiB are enough (measured, not proved).
 *
 * Moments are milliseconds of a clock of the program's choice. One that goes back counts as the last
 * one. The library never blocks, aborts, prints, sets errno or calls back. Where a request for memory
 * fails, the call's answer tells it.
 */
#ifndef RTMFP_H
#define RTMFP_H

#include <stddef.h>
#include <stdint.h>

#ifdef __cplusplus
extern "C" {
#endif

/* The version of this header: 0x00MMmmpp. A library of another major number (while that is 0, of
 * another minor number) isn't to be used with it. */
#define RTMFP_VERSION 0x000400u
uint32_t rtmfp_version(void);

#define RTMFP_MAX_DATAGRAM 2048u   /* the most bytes that rtmfp_receive takes */
#define RTMFP_MAX_SENT 1200u       /* the most bytes of a datagram that goes out */
#define RTMFP_MAX_MESSAGE 1048576u /* the most bytes of a message */
#define RTMFP_MAX_METADATA 64u     /* the most bytes of a flow's metadata */
#define RTMFP_MAX_CANDIDATES 16u   /* the most addresses of an attempt or a row */
#define RTMFP_MAX_ROWS 1024u       /* the most rows of addresses */
#define RTMFP_MIN_CERTIFICATE 17u  /* 16 instance bytes and a name .. */
#define RTMFP_MAX_CERTIFICATE 80u  /* .. of 1 to 64 ASCII bytes */

/* What a call answers: X(name, number, text). Of rtmfp_tick a part may have been done where no memory
 * was found, and the rest is still due. */
#define RTMFP_ANSWERS(X) \
    X(OK, 0, "done") \
    X(E_MEMORY, -1, "out of memory") \
    X(E_EMPTY, -2, "the handle holds no end") \
    X(E_FULL, -3, "the handle holds an end already") \
    X(E_CONFIG, -4, "a limit of the end is out of its range") \
    X(E_CERTIFICATE, -5, "the bytes are no certificate") \
    X(E_TOO_LONG, -6, "the datagram has more than 2,048 bytes") \
    X(E_INDEX, -7, "there is no such entry") \
    X(E_PARTLY, -8, "out of memory for a part of what the datagram does") \
    X(E_ADDRESS, -9, "an address has an unknown family or origin") \
    /* rtmfp_open, rtmfp_seek and rtmfp_add_row, the first that stands in this order */ \
    X(E_CANDIDATES, -10, "there are no addresses, or more than 16") \
    X(E_OPENING, -11, "an attempt towards the peer is held") \
    X(E_OPEN, -12, "a session with the peer is held") \
    X(E_PEERS_FULL, -13, "as many peers are known as may be") \
    X(E_ATTEMPTS_SPENT, -14, "no number of an attempt is left") \
    X(E_OWN_PRINT, -15, "the peer is this end") \
    X(E_SESSIONS_FULL, -16, "there are as many attempts, searches and sessions as may be") \
    X(E_ROWS_FULL, -17, "there are as many rows of addresses as may be") \
    X(E_SIZE, -18, "the room has another length than the entry's bytes") \
    X(E_NAME, -19, "the bytes are no service name") \
    /* the other calls */ \
    X(E_NO_ATTEMPT, -20, "no attempt has this number, or no search this ID") \
    X(E_NO_SESSION, -21, "no session has this ID") \
    X(E_NO_FLOW, -22, "the session opened no such flow") \
    X(E_FLOWS_FULL, -23, "the session has as many flows as may be") \
    X(E_WIDE, -24, "the metadata or the priority passes its limit") \
    X(E_NOT_QUEUED, -25, "no message that waits begins at the number") \
    X(E_FINISHED, -26, "the flow is finished") \
    X(E_MESSAGE, -27, "the message has more than 1,048,576 bytes") \
    X(E_BACKLOG, -28, "the flow has no room until acknowledgements come") \
    X(E_SEQUENCE_SPENT, -29, "the flow has no numbers left") \
    X(E_NEXT_KNOWN, -30, "the next generation is known already") \
    X(E_GENERATIONS_SPENT, -31, "no generation follows the last number") \
    X(E_SAME_SECRET, -32, "the secret is the current one") \
    X(E_NO_NEXT, -33, "the next generation isn't known")

enum {
#define RTMFP_ANSWER_(name, number, text) RTMFP_##name = number,
    RTMFP_ANSWERS(RTMFP_ANSWER_)
#undef RTMFP_ANSWER_
    RTMFP_ANSWERS_END_ = 1
};

static inline const char *rtmfp_answer_text(int32_t answer) {
    switch (answer) {
#define RTMFP_ANSWER_(name, number, text) case number: return text;
        RTMFP_ANSWERS(RTMFP_ANSWER_)
#undef RTMFP_ANSWER_
        default: return "no answer of this library";
    }
}

/* An end, or nothing. Its fields are the library's own. */
typedef struct rtmfp_end {
    uint64_t live_;
    void *held_;
} rtmfp_end;
#define RTMFP_END_INIT {0, 0}

typedef struct rtmfp_config {
    uint32_t max_peers;    /* 1 to 1,048,576: the most peers that are ever known */
    uint32_t max_sessions; /* 1 to 65,536: the most attempts and sessions at a time */
    uint32_t introduces;   /* not 0: it passes hellos on between those with whom it has sessions */
} rtmfp_config;

/* The random values of one call. */
typedef struct rtmfp_draws {
    uint8_t nonce[16];
    uint8_t tag[16];
    uint8_t token[16];
    uint32_t word;
} rtmfp_draws;

/* A transport address. */
typedef struct rtmfp_address {
    uint8_t family;   /* 4 or 6; 0 in an entry without an address */
    uint8_t origin;   /* 0 unknown, 1 local, 2 observed, 3 relay */
    uint16_t port;    /* in the machine's byte order */
    uint8_t host[16]; /* most significant byte first; of IPv4 the first four bytes count */
} rtmfp_address;

/* What an entry is: X(name, number). The fields that each has:
 *
 *   OUT          to, data, len: send this datagram there
 *   HANDED       near, flow, seq, data, len: a message of the peer, whole, at most once
 *   STARTED      near, peer, number, ni: an attempt
 *   BORN         near, far, peer, number, k, ni, nr: a session of the peer's attempt, which is
 *                half-open until CONFIRMED
 *   OPENED       the same fields: the session of an own attempt
 *   CONFIRMED    near, peer
 *   ENDED        near, peer, code (RTMFP_WHY_..): an attempt or a session is over
 *   CLOSED       near: a session that was closing is over, and its ID is free
 *   SOUGHT       near, data, len: a search began, for an end of this name. Once one answers, an
 *                attempt towards it has the search's ID, and STARTED tells it
 *   UNSOUGHT     near, code (RTMFP_WHY_..): a search is over, and no attempt came of it
 *   MOVED        near, to: the session's datagrams go there from now on
 *   LEARNT       number: the secret of this generation of the group was learnt
 *   ADVANCED     number: this generation became the current one
 *   FLOW_OPENED  near, flow
 *   QUEUED       near, flow, seq, data, len
 *   FINISHED     near, flow, seq
 *   ABANDONED    near, flow, seq: the message is sent no longer
 *   DISCARD      seq (the place in the plain packet, 0 for the whole datagram), code (a cause),
 *                number (its value), k (of a piece, the number of its refusal: 1 too many, 2 conflict,
 *                3 too long, 4 packets full): a datagram or a part of one was discarded
 *
 * Each other field is 0. */
#define RTMFP_KINDS(X) \
    X(OUT, 1) X(HANDED, 2) X(STARTED, 3) X(BORN, 4) X(OPENED, 5) X(CONFIRMED, 6) X(ENDED, 7) \
    X(CLOSED, 8) X(MOVED, 9) X(FLOW_OPENED, 10) X(QUEUED, 11) X(FINISHED, 12) X(ABANDONED, 13) \
    X(DISCARD, 14) X(SOUGHT, 15) X(UNSOUGHT, 16) X(LEARNT, 17) X(ADVANCED, 18)

/* Why an attempt, a search or a session ended: X(name, number). */
#define RTMFP_WHYS(X) \
    X(WHY_CANCELLED, 1) X(WHY_EXPIRED, 2) X(WHY_GLARE, 3) X(WHY_OVERRIDE, 4) \
    X(WHY_UNCONFIRMED, 5) X(WHY_NEAR, 6) X(WHY_FAR, 7) X(WHY_IDLE, 8)

enum {
#define RTMFP_NUMBER_(name, number) RTMFP_##name = number,
    RTMFP_KINDS(RTMFP_NUMBER_)
    RTMFP_WHYS(RTMFP_NUMBER_)
#undef RTMFP_NUMBER_
    RTMFP_NUMBERS_END_ = 0
};

typedef struct rtmfp_entry {
    uint32_t kind;
    uint32_t near;   /* a session's ID here */
    uint32_t far;    /* .. and at the peer */
    uint32_t code;
    uint64_t flow;
    uint64_t seq;    /* the number of a message's first fragment */
    uint64_t number; /* the number of an attempt, or a cause's value */
    uint64_t k;      /* how many attempts the responder had started, or a piece's refusal */
    const uint8_t *data;
    size_t len;
    rtmfp_address to;
    uint8_t peer[32]; /* a fingerprint */
    uint8_t ni[16];   /* the initiator's nonce */
    uint8_t nr[16];   /* the responder's nonce */
} rtmfp_entry;

/* The causes of a discard: X(number, name). */
#define RTMFP_CAUSES(X) \
    X(1, "short") X(2, "unknown-session") X(3, "bad-tag") X(4, "repeated") X(5, "bad-packet") \
    X(6, "unknown-chunk") X(7, "malformed") X(8, "wrong-place") X(9, "not-selected") \
    X(10, "no-attempt") X(11, "wrong-peer") X(12, "wrong-state") X(13, "bad-cookie") \
    X(14, "bad-signature") X(15, "wrong-responder") X(16, "own-certificate") X(17, "stale") \
    X(18, "glare") X(19, "peers-full") X(20, "sessions-full") X(21, "second-keying") \
    X(22, "unknown-flow") X(23, "beyond-buffer") X(24, "after-final") X(25, "ack-beyond") \
    X(26, "candidates-full") X(27, "fragment") X(28, "flows-full") X(29, "wide") \
    X(30, "already-held") X(31, "attempts-spent") X(32, "piece") X(33, "bad-whole")

static inline const char *rtmfp_cause_name(uint32_t code) {
    switch (code) {
#define RTMFP_CASE_(number, name) case number: return name;
        RTMFP_CAUSES(RTMFP_CASE_)
#undef RTMFP_CASE_
        default: return "?";
    }
}

/* Writes the fingerprint of a certificate: RTMFP_OK or RTMFP_E_CERTIFICATE. */
int32_t rtmfp_fingerprint(const uint8_t *certificate, size_t len, uint8_t print[32]);

/* Makes an end in a handle that holds none. `group` is the secret that all ends of the group have,
 * `generation` the number of that secret in the group's succession of secrets, about which they agree
 * too (0 in a group that never had another one); `cookies` is a secret that this end alone has. The
 * first that stands: RTMFP_E_FULL, RTMFP_E_CONFIG, RTMFP_E_CERTIFICATE, RTMFP_E_MEMORY. */
int32_t rtmfp_new(rtmfp_end *end, const rtmfp_config *config, const uint8_t *certificate, size_t len,
                  uint64_t generation, const uint8_t group[32], const uint8_t cookies[32]);

/* Frees the end, if the handle holds one; the handle is then empty. Nothing goes out: close the
 * sessions first, if the peers are to know. Secrets aren't wiped from the memory. */
void rtmfp_free(rtmfp_end *end);

/* Opens an attempt towards the end with this fingerprint, at 1 to 16 addresses, its own or those
 * of an introducer; *number is the attempt's number. RTMFP_OPENED or RTMFP_ENDED follows. */
int32_t rtmfp_open(rtmfp_end *end, const uint8_t print[32], const rtmfp_address *candidates, size_t count,
                   uint64_t moment, const rtmfp_draws *draws, uint64_t *number);

/* Begins a search for an end of this name, 1 to 64 ASCII bytes, at 1 to 16 addresses of its own, since
 * introducers pass on no call for a name; *near is the search's session ID. RTMFP_STARTED or
 * RTMFP_UNSOUGHT follows.
 * The first that stands: RTMFP_E_NAME, RTMFP_E_ADDRESS, RTMFP_E_MEMORY, RTMFP_E_EMPTY, and then
 * what the end refuses. */
int32_t rtmfp_seek(rtmfp_end *end, const uint8_t *name, size_t len, const rtmfp_address *candidates, size_t count,
                   uint64_t moment, const rtmfp_draws *draws, uint32_t *near);

/* Gives a search up: RTMFP_UNSOUGHT comes at once. */
int32_t rtmfp_unseek(rtmfp_end *end, uint32_t near);

/* Gives an attempt up: RTMFP_ENDED comes at once. */
int32_t rtmfp_cancel(rtmfp_end *end, uint64_t number);

/* Closes a session: RTMFP_ENDED comes at once, RTMFP_CLOSED when its ID is free. */
int32_t rtmfp_close(rtmfp_end *end, uint32_t near, uint64_t moment);

/* Opens a flow, with a priority of 0 to 7, the highest. Metadata that begins with 0x61 asks that
 * messages are handed over as they arrive; else they come in order. If `answers` isn't 0, the flow
 * answers the peer's flow `answered`. */
int32_t rtmfp_open_flow(rtmfp_end *end, uint32_t near, uint8_t priority, const uint8_t *metadata, size_t len,
                        uint32_t answers, uint64_t answered, uint64_t *flow);

/* Queues a message, which is copied; *seq is the number of its first fragment. It goes out at
 * ticks, and is sent again until it is acknowledged, or `deadline` is past (RTMFP_NEVER: none), or
 * a lost fragment was sent again `resends` times (RTMFP_ALWAYS: no limit). */
#define RTMFP_NEVER UINT64_MAX
#define RTMFP_ALWAYS UINT32_MAX
int32_t rtmfp_queue(rtmfp_end *end, uint32_t near, uint64_t flow, const uint8_t *message, size_t len,
                    uint64_t deadline, uint32_t resends, uint64_t *seq);

/* Abandons a message that waits: it is sent no longer. */
int32_t rtmfp_abandon(rtmfp_end *end, uint32_t near, uint64_t flow, uint64_t seq);

/* Finishes a flow: nothing is queued in it any more. */
int32_t rtmfp_finish(rtmfp_end *end, uint32_t near, uint64_t flow);

/* Adds a row of 1 to 16 addresses for the end with this fingerprint, in the place of one that is
 * there: hellos for that end are answered with them. At most RTMFP_MAX_ROWS. */
int32_t rtmfp_add_row(rtmfp_end *end, const uint8_t print[32], const rtmfp_address *addresses, size_t count);

/* Has the end introduce others from now on, as `introduces` of its config does. */
int32_t rtmfp_introduce(rtmfp_end *end);

/* From now on a packet of a session that has more than `limit` bytes before it is sealed goes out in
 * pieces, each in a datagram of its own, of `limit` and 36 bytes at most: for paths on which long
 * datagrams get lost. A new end has RTMFP_MAX_LIMIT, and sends none in pieces; packets that open
 * sessions never go out so. RTMFP_E_CONFIG: `limit` is below RTMFP_MIN_LIMIT or above the other. */
#define RTMFP_MIN_LIMIT 96u
#define RTMFP_MAX_LIMIT 1164u
int32_t rtmfp_narrow(rtmfp_end *end, uint16_t limit);

/* Learns the secret of the generation after the current one; *generation is its number. Packets of it
 * are understood from now on, and the end goes on sending in the current one. The first that stands:
 * RTMFP_E_NEXT_KNOWN, RTMFP_E_GENERATIONS_SPENT, RTMFP_E_SAME_SECRET. */
int32_t rtmfp_learn(rtmfp_end *end, const uint8_t secret[32], uint64_t *generation);

/* Goes over to the generation that was learnt, once all ends of the group know it; *generation is its
 * number. Sessions go on; an attempt whose keying went out before keeps the old secret until it ends,
 * so cancel it and open again if its peer has gone over, too. RTMFP_E_NO_NEXT: none was learnt. */
int32_t rtmfp_advance(rtmfp_end *end, uint64_t *generation);

/* 1 if the end keeps a session with this peer, one that is no longer half-open, and else 0; or
 * RTMFP_E_EMPTY. */
int32_t rtmfp_keeps(rtmfp_end *end, const uint8_t print[32]);

/* Takes a datagram, which it deciphers in place: the bytes are changed, but where it answers
 * RTMFP_E_TOO_LONG or RTMFP_E_ADDRESS. After RTMFP_E_MEMORY it may be called again with a copy of the
 * bytes as they came. What is refused of a datagram is told by RTMFP_DISCARD, and is no error. */
int32_t rtmfp_receive(rtmfp_end *end, const rtmfp_address *from, uint64_t moment, uint8_t *datagram, size_t len,
                      const rtmfp_draws *draws);

/* Does all that is due: what is queued goes out, what was lost goes again, what is over ends. */
int32_t rtmfp_tick(rtmfp_end *end, uint64_t moment, const rtmfp_draws *draws);

/* How many entries calls added since rtmfp_clear; 0 of a handle that holds no end. */
size_t rtmfp_entries(rtmfp_end *end);

/* Writes one of them, in their order: RTMFP_OK, RTMFP_E_INDEX or RTMFP_E_EMPTY. */
int32_t rtmfp_entry_at(rtmfp_end *end, size_t index, rtmfp_entry *entry);

/* Copies the bytes of one of them, for a program that wants to keep them, into room of just `len` of
 * the entry: RTMFP_OK, RTMFP_E_SIZE, RTMFP_E_INDEX or RTMFP_E_EMPTY. */
int32_t rtmfp_entry_bytes(rtmfp_end *end, size_t index, uint8_t *room, size_t len);

/* Drops the entries, and nothing else: RTMFP_OK or RTMFP_E_EMPTY. */
int32_t rtmfp_clear(rtmfp_end *end);

#ifdef __cplusplus
}
#endif
#endif

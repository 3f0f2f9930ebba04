/* Two ends in one program, over rtmfp.h alone: a search finds the other end, messages go over, and the session is closed.
   It reads as C and as C++. It prints where the fields of the structs stand, for scripts/try-library to compare, and a
   line for each thing that isn't as it should be; with one of those it ends with 1.

   With REFUSES its allocations are counted (the linker wraps malloc, realloc and free), and it goes through the session
   once for each of them, which gets nothing. Each call that says so is made again. */
#include <rtmfp.h>
#include <stddef.h>
#include <stdio.h>
#include <stdlib.h>
#include <string.h>

#define MESSAGES 5

static int failed;
static long counted, refused, blocks, longest;

static void expect(int is_so, const char *text) {
    if (!is_so) {
        printf("allocation %ld: %s\n", refused, text);
        failed = 1;
    }
}

#ifdef REFUSES
#ifdef __cplusplus
extern "C" {
#endif
void *__real_malloc(size_t size);
void *__real_realloc(void *old, size_t size);
void __real_free(void *block);
void *__wrap_malloc(size_t size);
void *__wrap_realloc(void *old, size_t size);
void __wrap_free(void *block);

void *__wrap_malloc(size_t size) {
    void *block = ++counted == refused ? NULL : __real_malloc(size);
    blocks += block != NULL;
    return block;
}

void *__wrap_realloc(void *old, size_t size) {
    void *block = ++counted == refused ? NULL : __real_realloc(old, size);
    blocks += old == NULL && block != NULL;
    return block;
}

void __wrap_free(void *block) {
    blocks -= block != NULL;
    __real_free(block);
}
#ifdef __cplusplus
}
#endif
#endif

/* One of the two ends, and what its entries told. */
struct side {
    rtmfp_end end;
    rtmfp_address place;
    uint32_t near;
    int sought, opened, born, ended, closed, handed, strange;
};

static const size_t lengths[MESSAGES] = {0, 1, 1000, 5000, 100000};
static uint8_t message[100000];
static uint64_t moment;

/* A program draws from a cryptographic source; here each draw is another one. */
static rtmfp_draws draw(void) {
    static uint32_t drawn;
    rtmfp_draws draws;
    memset(&draws, 0, sizeof draws);
    drawn++;
    memcpy(draws.nonce, &drawn, sizeof drawn);
    memcpy(draws.tag, &drawn, sizeof drawn);
    memcpy(draws.token, &drawn, sizeof drawn);
    draws.word = drawn * 2654435761u;
    return draws;
}

static uint8_t byte_at(int which, size_t index) { return (uint8_t)(which + index % 251); }

static void begin(struct side *it, uint8_t number, const char *name) {
    static const uint8_t group[32] = {1};
    uint8_t certificate[RTMFP_MAX_CERTIFICATE] = {0};
    const rtmfp_config config = {8, 8, 0};
    const rtmfp_end none = RTMFP_END_INIT;
    int32_t answer;
    memset(it, 0, sizeof *it);
    it->end = none;
    it->place.family = 4;
    it->place.port = number;
    certificate[0] = number;
    memcpy(certificate + 16, name, strlen(name));
    do answer = rtmfp_new(&it->end, &config, certificate, 16 + strlen(name), 7, group, group);
    while (answer == RTMFP_E_MEMORY);
    expect(answer == RTMFP_OK, rtmfp_answer_text(answer));
}

static void bring(struct side *from, struct side *to, const rtmfp_entry *entry) {
    uint8_t datagram[RTMFP_MAX_DATAGRAM];
    int32_t answer;
    expect(entry->len <= RTMFP_MAX_SENT, "a datagram is too long");
    do {
        const rtmfp_draws draws = draw();
        memcpy(datagram, entry->data, entry->len);
        answer = rtmfp_receive(&to->end, &from->place, moment, datagram, entry->len, &draws);
    } while (answer == RTMFP_E_MEMORY);
    expect(answer == RTMFP_OK || answer == RTMFP_E_PARTLY, rtmfp_answer_text(answer));
}

static void take(struct side *it, const rtmfp_entry *entry) {
    size_t index;
    int is_so = it->handed < MESSAGES && entry->len == lengths[it->handed];
    for (index = 0; is_so && index < entry->len; index++) is_so = entry->data[index] == byte_at(it->handed, index);
    expect(is_so, "another message is handed over");
    it->handed++;
}

/* Does what one entry says. */
static void heed(struct side *it, struct side *other, const rtmfp_entry *entry) {
    switch (entry->kind) {
        case RTMFP_OUT: bring(it, other, entry); break;
        case RTMFP_HANDED: take(it, entry); break;
        case RTMFP_SOUGHT:
            it->sought++;
            expect(entry->len == 3 && memcmp(entry->data, "bob", 3) == 0, "another name is sought");
            break;
        case RTMFP_OPENED:
            it->opened++;
            it->near = entry->near;
            break;
        case RTMFP_BORN: it->born++; break;
        case RTMFP_ENDED: it->ended++; break;
        case RTMFP_CLOSED: it->closed++; break;
        case RTMFP_UNSOUGHT: it->strange++; break;
        default: break;
    }
}

/* An end ticks, and its entries are done. It may be moved in memory between calls. */
static void tick(struct side *it, struct side *other) {
    rtmfp_entry entry;
    size_t index;
    int32_t answer;
    rtmfp_end moved = it->end;
    memset(&entry, 0, sizeof entry);
    memset(&it->end, 0xff, sizeof it->end);
    do {
        const rtmfp_draws draws = draw();
        answer = rtmfp_tick(&moved, moment, &draws);
    } while (answer == RTMFP_E_MEMORY);
    expect(answer == RTMFP_OK, rtmfp_answer_text(answer));
    it->end = moved;
    for (index = 0; (answer = rtmfp_entry_at(&it->end, index, &entry)) == RTMFP_OK; index++) heed(it, other, &entry);
    expect(answer == RTMFP_E_INDEX && index == rtmfp_entries(&it->end), "another count of entries");
    expect(rtmfp_clear(&it->end) == RTMFP_OK && rtmfp_entries(&it->end) == 0, "entries aren't dropped");
}

static void turn(struct side *one, struct side *other, int count) {
    while (count-- > 0) {
        moment += 100;
        tick(one, other);
        tick(other, one);
    }
}

static void seek(struct side *alice, const struct side *bob) {
    const rtmfp_draws draws = draw();
    uint32_t near = 0;
    int32_t answer;
    do answer = rtmfp_seek(&alice->end, (const uint8_t *)"bob", 3, &bob->place, 1, moment, &draws, &near);
    while (answer == RTMFP_E_MEMORY);
    expect(answer == RTMFP_OK && near != 0, rtmfp_answer_text(answer));
}

static void send_messages(struct side *alice) {
    uint64_t flow = 0, seq = 0, earlier = 0;
    size_t index;
    int32_t answer;
    int which;
    do answer = rtmfp_open_flow(&alice->end, alice->near, 3, message, 0, 0, 0, &flow);
    while (answer == RTMFP_E_MEMORY);
    expect(answer == RTMFP_OK, rtmfp_answer_text(answer));
    for (which = 0; which < MESSAGES; which++) {
        for (index = 0; index < lengths[which]; index++) message[index] = byte_at(which, index);
        do answer = rtmfp_queue(&alice->end, alice->near, flow, message, lengths[which], RTMFP_NEVER, RTMFP_ALWAYS, &seq);
        while (answer == RTMFP_E_MEMORY);
        expect(answer == RTMFP_OK && seq > earlier, rtmfp_answer_text(answer));
        earlier = seq;
    }
    expect(rtmfp_queue(&alice->end, alice->near, flow + 1, message, 1, RTMFP_NEVER, RTMFP_ALWAYS, &seq) == RTMFP_E_NO_FLOW
        && seq == earlier, "a flow that isn't there");
}

static void go(void) {
    struct side alice, bob;
    int32_t answer;
    moment = 0;
    begin(&alice, 1, "alice");
    begin(&bob, 2, "bob");
    seek(&alice, &bob);
    turn(&alice, &bob, 100);
    expect(alice.sought == 1 && alice.strange == 0 && alice.opened == 1 && bob.born == 1, "no session");
    if (alice.opened == 1) {
        send_messages(&alice);
        turn(&alice, &bob, 300);
        expect(bob.handed == MESSAGES, "not all messages are handed over");
        do answer = rtmfp_close(&alice.end, alice.near, moment);
        while (answer == RTMFP_E_MEMORY);
        expect(answer == RTMFP_OK, rtmfp_answer_text(answer));
        turn(&alice, &bob, 1000);
        expect(alice.ended == 1 && alice.closed == 1 && bob.ended == 1 && bob.closed == 1, "the session isn't over");
    }
    rtmfp_free(&alice.end);
    rtmfp_free(&bob.end);
    expect(rtmfp_introduce(&alice.end) == RTMFP_E_EMPTY, "an end is left in a handle");
    expect(blocks == 0, "a block isn't freed");
}

#define PLACE(type, field) printf("%s.%s %u\n", #type, #field, (unsigned)offsetof(type, field))
#define SIZE(type) printf("%s %u\n", #type, (unsigned)sizeof(type))

static void print_places(void) {
    SIZE(rtmfp_end); PLACE(rtmfp_end, live_); PLACE(rtmfp_end, held_);
    SIZE(rtmfp_config); PLACE(rtmfp_config, max_peers); PLACE(rtmfp_config, max_sessions); PLACE(rtmfp_config, introduces);
    SIZE(rtmfp_draws); PLACE(rtmfp_draws, nonce); PLACE(rtmfp_draws, tag); PLACE(rtmfp_draws, token); PLACE(rtmfp_draws, word);
    SIZE(rtmfp_address); PLACE(rtmfp_address, family); PLACE(rtmfp_address, origin); PLACE(rtmfp_address, port);
    PLACE(rtmfp_address, host);
    SIZE(rtmfp_entry); PLACE(rtmfp_entry, kind); PLACE(rtmfp_entry, near); PLACE(rtmfp_entry, far); PLACE(rtmfp_entry, code);
    PLACE(rtmfp_entry, flow); PLACE(rtmfp_entry, seq); PLACE(rtmfp_entry, number); PLACE(rtmfp_entry, k);
    PLACE(rtmfp_entry, data); PLACE(rtmfp_entry, len); PLACE(rtmfp_entry, to); PLACE(rtmfp_entry, peer);
    PLACE(rtmfp_entry, ni); PLACE(rtmfp_entry, nr);
}

int main(void) {
    print_places();
    expect(rtmfp_version() == RTMFP_VERSION, "another version");
    go();
    longest = counted;
    for (refused = 1; refused <= longest; refused++) {
        counted = 0;
        go();
    }
    printf("allocations %ld\n", longest);
    return failed;
}

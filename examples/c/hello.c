/* hello: a line from one end to another at 127.0.0.1. Who gets it closes the session, so the other
 * one knows.   (umask 77; head -c 32 /dev/urandom > group.secret)
 *              cc -std=c11 -O2 -o hello hello.c $(pkg-config --cflags --libs rtmfp)
 *              ./hello bob 40101 & ./hello alice 40102 bob 40101 "hello, Bob" */
#define _DEFAULT_SOURCE
#include <arpa/inet.h>
#include <poll.h>
#include <rtmfp.h>
#include <stdio.h>
#include <stdlib.h>
#include <string.h>
#include <sys/random.h>
#include <time.h>
#define BYTES(text) (const uint8_t *)(text), strlen(text)
#define FROM (struct sockaddr *)&at, &(socklen_t){sizeof at}
static rtmfp_end end; /* all zero: it holds nothing yet */
static struct sockaddr_in at = {.sin_family = AF_INET};
static void draw(void *room, size_t n) { if (getrandom(room, n, 0) != (ssize_t)n) exit(3); }
static rtmfp_draws *draws(void) { static rtmfp_draws it; draw(&it, sizeof it); return &it; }
static uint64_t now(void) {
    struct timespec t;
    clock_gettime(CLOCK_MONOTONIC, &t);
    return (uint64_t)t.tv_sec * 1000 + (uint64_t)t.tv_nsec / 1000000;
}
static int heed(int udp, const rtmfp_entry *e, const char *line) { /* 1 once all is over */
    uint64_t flow = 0, seq = 0;
    at.sin_port = htons(e->to.port);
    if (e->kind == RTMFP_OUT) sendto(udp, e->data, e->len, 0, (struct sockaddr *)&at, sizeof at);
    if (e->kind == RTMFP_HANDED && printf("%.*s\n", (int)e->len, (const char *)e->data) > 0)
        rtmfp_close(&end, e->near, now());
    if (e->kind == RTMFP_OPENED) { /* the own call has opened a session */
        if (rtmfp_open_flow(&end, e->near, 3, BYTES("line"), 0, 0, &flow) != RTMFP_OK) exit(3);
        rtmfp_queue(&end, e->near, flow, BYTES(line), RTMFP_NEVER, RTMFP_ALWAYS, &seq);
    }
    return e->kind == RTMFP_ENDED || e->kind == RTMFP_UNSOUGHT;
}
int main(int count, char **words) {
    uint8_t cert[80], group[32], cookies[32], bytes[RTMFP_MAX_DATAGRAM + 1];
    size_t len = count == 3 || count == 6 ? strlen(words[1]) : 0;
    FILE *file = fopen("group.secret", "r");
    if (len < 1 || len > 64 || !file || fread(group, 1, 32, file) != 32) return 2;
    draw(cert, 16), draw(cookies, 32); /* each run has to be another end */
    memcpy(cert + 16, words[1], len);
    if (rtmfp_new(&end, &(rtmfp_config){16, 16, 0}, cert, 16 + len, 0, group, cookies)) return 2;
    struct pollfd udp = {.fd = socket(AF_INET, SOCK_DGRAM, 0), .events = POLLIN};
    at.sin_port = htons(atoi(words[2])), at.sin_addr.s_addr = htonl(INADDR_LOOPBACK);
    if (bind(udp.fd, (struct sockaddr *)&at, sizeof at) < 0) return 3;
    rtmfp_address it = {.family = 4, .host = {127, 0, 0, 1}, .port = atoi(words[count - 2])};
    if (count == 6) rtmfp_seek(&end, BYTES(words[3]), &it, 1, now(), draws(), &(uint32_t){0});
    for (int is_over = 0; !is_over; rtmfp_clear(&end)) {
        ssize_t got = poll(&udp, 1, 20) > 0 ? recvfrom(udp.fd, bytes, sizeof bytes, 0, FROM) : -1;
        it.port = ntohs(at.sin_port);
        if (got >= 0) rtmfp_receive(&end, &it, now(), bytes, (size_t)got, draws());
        rtmfp_tick(&end, now(), draws());
        rtmfp_entry e = {0};
        for (size_t i = 0; rtmfp_entry_at(&end, i, &e) == RTMFP_OK; i++)
            is_over |= heed(udp.fd, &e, words[count - 1]);
    }
    rtmfp_free(&end);
}

/* An end with a UDP socket, and what it needs of the system. */
#define _GNU_SOURCE
#include "host.h"

#include <arpa/inet.h>
#include <errno.h>
#include <netinet/in.h>
#include <poll.h>
#include <stdarg.h>
#include <stdio.h>
#include <stdlib.h>
#include <string.h>
#include <sys/random.h>
#include <sys/socket.h>
#include <time.h>
#include <unistd.h>

/* A window of a megabyte may come at once. The system gives less, unless its limit (rmem_max) is
 * raised. */
#define SOCKET_ROOM (4 << 20)
/* So many datagrams are taken before the end ticks again. */
#define MOST_AT_ONCE 64

volatile sig_atomic_t is_stopped;

static void stop(int number) {
    (void)number;
    is_stopped = 1;
}

void catch_signals(void) {
    struct sigaction action = {.sa_handler = stop, .sa_flags = SA_RESTART}; /* (poll ends) */
    sigaction(SIGINT, &action, NULL);
    sigaction(SIGTERM, &action, NULL);
    signal(SIGPIPE, SIG_IGN); /* what can't be written is told by the call that writes */
}

static void tell_words(const char *format, va_list words) {
    fprintf(stderr, "%s: ", program_invocation_short_name);
    vfprintf(stderr, format, words);
    fputc('\n', stderr);
}

void tell(const char *format, ...) {
    va_list words;
    va_start(words, format);
    tell_words(format, words);
    va_end(words);
}

void fail(int status, const char *format, ...) {
    va_list words;
    va_start(words, format);
    tell_words(format, words);
    va_end(words);
    exit(status);
}

uint64_t now(void) {
    struct timespec moment;
    clock_gettime(CLOCK_MONOTONIC, &moment);
    return (uint64_t)moment.tv_sec * 1000 + (uint64_t)moment.tv_nsec / 1000000;
}

void draw_bytes(void *room, size_t len) {
    uint8_t *at = room;
    while (len > 0) {
        ssize_t got = getrandom(at, len, 0);
        if (got < 0 && errno != EINTR) fail(NO_MEANS, "getrandom: %s", strerror(errno));
        if (got < 0) continue;
        at += got;
        len -= (size_t)got;
    }
}

rtmfp_draws draw(void) {
    rtmfp_draws draws;
    draw_bytes(&draws, sizeof draws);
    return draws;
}

/* ---- texts */

static int digit(char it) {
    if (it >= '0' && it <= '9') return it - '0';
    return it >= 'a' && it <= 'f' ? it - 'a' + 10 : -1;
}

int read_digits(const char *text, uint8_t *bytes, size_t len) {
    if (strlen(text) != 2 * len) return 0;
    for (size_t i = 0; i < len; i++) {
        int high = digit(text[2 * i]), low = digit(text[2 * i + 1]);
        if (high < 0 || low < 0) return 0;
        bytes[i] = (uint8_t)(high * 16 + low);
    }
    return 1;
}

void write_digits(const uint8_t *bytes, size_t len, char *text) {
    for (size_t i = 0; i < len; i++) sprintf(text + 2 * i, "%02x", bytes[i]);
}

const char *print_text(const uint8_t print[PRINT_LEN]) {
    static char text[16];
    write_digits(print, 4, text);
    return strcat(text, "..");
}

static int read_port(const char *text, uint16_t *port) {
    char *end;
    size_t len = strlen(text);
    if (len < 1 || len > 5 || strspn(text, "0123456789") != len) return 0;
    unsigned long value = strtoul(text, &end, 10);
    *port = (uint16_t)value;
    return value >= 1 && value <= 65535;
}

int read_address(const char *text, rtmfp_address *address) {
    char host[INET6_ADDRSTRLEN];
    const char *colon = strrchr(text, ':');
    int is_wide = text[0] == '[';
    rtmfp_address made = {.family = is_wide ? 6 : 4};
    if (!colon || !read_port(colon + 1, &made.port)) return 0;
    if (is_wide && colon[-1] != ']') return 0;
    const char *from = text + is_wide, *to = colon - is_wide;
    if (to <= from || (size_t)(to - from) >= sizeof host) return 0;
    memcpy(host, from, (size_t)(to - from));
    host[to - from] = 0;
    if (inet_pton(is_wide ? AF_INET6 : AF_INET, host, made.host) != 1) return 0;
    *address = made;
    return 1;
}

void write_address(const rtmfp_address *address, char text[ADDRESS_TEXT]) {
    char host[INET6_ADDRSTRLEN] = "?";
    int is_wide = address->family == 6;
    inet_ntop(is_wide ? AF_INET6 : AF_INET, address->host, host, sizeof host);
    snprintf(text, ADDRESS_TEXT, is_wide ? "[%s]:%u" : "%s:%u", host, address->port);
}

/* ---- the socket */

static const uint8_t mapped[12] = {[10] = 0xff, [11] = 0xff};

/* An address as the socket wants it: one of IPv6 has IPv4 hosts behind ::ffff:0:0/96. */
static socklen_t socket_address(
    const rtmfp_address *from, int family, struct sockaddr_storage *to) {
    memset(to, 0, sizeof *to);
    if (family == AF_INET) {
        struct sockaddr_in it = {.sin_family = AF_INET, .sin_port = htons(from->port)};
        memcpy(&it.sin_addr, from->host, 4);
        memcpy(to, &it, sizeof it);
        return from->family == 4 ? sizeof it : 0;
    }
    struct sockaddr_in6 it = {.sin6_family = AF_INET6, .sin6_port = htons(from->port)};
    uint8_t *host = it.sin6_addr.s6_addr;
    if (from->family == 6) {
        memcpy(host, from->host, 16);
    } else {
        memcpy(host, mapped, 12);
        memcpy(host + 12, from->host, 4);
    }
    memcpy(to, &it, sizeof it);
    return sizeof it;
}

static rtmfp_address address_of(const struct sockaddr_storage *from) {
    rtmfp_address to = {.family = 4};
    if (from->ss_family == AF_INET) {
        const struct sockaddr_in *it = (const struct sockaddr_in *)from;
        to.port = ntohs(it->sin_port);
        memcpy(to.host, &it->sin_addr, 4);
        return to;
    }
    const struct sockaddr_in6 *it = (const struct sockaddr_in6 *)from;
    const uint8_t *host = it->sin6_addr.s6_addr;
    to.port = ntohs(it->sin6_port);
    if (memcmp(host, mapped, sizeof mapped) == 0) {
        memcpy(to.host, host + 12, 4);
    } else {
        to.family = 6;
        memcpy(to.host, host, 16);
    }
    return to;
}

static int family_of(int fd) {
    int family = AF_INET;
    socklen_t len = sizeof family;
    getsockopt(fd, SOL_SOCKET, SO_DOMAIN, &family, &len);
    return family;
}

static int open_socket(const rtmfp_address *place) {
    char text[ADDRESS_TEXT];
    struct sockaddr_storage at;
    int family = place->family == 6 ? AF_INET6 : AF_INET, room = SOCKET_ROOM, no = 0;
    int fd = socket(family, SOCK_DGRAM | SOCK_CLOEXEC, 0);
    if (fd < 0) fail(NO_MEANS, "socket: %s", strerror(errno));
    setsockopt(fd, SOL_SOCKET, SO_RCVBUF, &room, sizeof room);
    setsockopt(fd, SOL_SOCKET, SO_SNDBUF, &room, sizeof room);
    if (family == AF_INET6) setsockopt(fd, IPPROTO_IPV6, IPV6_V6ONLY, &no, sizeof no);
    socklen_t len = socket_address(place, family, &at);
    write_address(place, text);
    if (bind(fd, (struct sockaddr *)&at, len) < 0) fail(NO_MEANS, "%s: %s", text, strerror(errno));
    return fd;
}

/* Sends a datagram. One that can't be sent is lost, as others are on their way. */
static void send_out(int fd, const rtmfp_entry *out) {
    static int is_told;
    char text[ADDRESS_TEXT];
    struct sockaddr_storage to;
    socklen_t len = socket_address(&out->to, family_of(fd), &to);
    if (len > 0 && sendto(fd, out->data, out->len, 0, (struct sockaddr *)&to, len) >= 0) return;
    if (is_told) return;
    is_told = 1;
    write_address(&out->to, text);
    tell("can't send to %s: %s", text, len > 0 ? strerror(errno) : "the socket is of IPv4");
}

/* ---- the end */

/* Writes the fingerprint and the place to a file at once, so that nobody reads a half of it. */
static void write_card(const struct setup *setup, const uint8_t print[PRINT_LEN]) {
    char digits[2 * PRINT_LEN + 1], place[ADDRESS_TEXT], *path;
    write_digits(print, PRINT_LEN, digits);
    write_address(&setup->place, place);
    if (asprintf(&path, "%s.new", setup->card) < 0) fail(NO_MEANS, "out of memory");
    FILE *file = fopen(path, "we");
    int is_written = file && fprintf(file, "%s %s\n", digits, place) > 0;
    if (file && fclose(file) != 0) is_written = 0;
    if (!is_written || rename(path, setup->card) < 0)
        fail(NO_MEANS, "%s: %s", setup->card, strerror(errno));
    free(path);
}

void begin(struct host *host, struct setup *setup, const rtmfp_config *config) {
    uint8_t certificate[RTMFP_MAX_CERTIFICATE], cookies[32];
    char digits[2 * PRINT_LEN + 1], place[ADDRESS_TEXT];
    const rtmfp_end none = RTMFP_END_INIT;
    size_t len = 16 + strlen(setup->name);
    /* Startup packets are sealed under the fingerprint and a count, so no two runs may have the
     * same bytes. */
    draw_bytes(certificate, 16);
    draw_bytes(cookies, sizeof cookies);
    memcpy(certificate + 16, setup->name, len - 16);
    host->end = none;
    int32_t answer = rtmfp_new(&host->end, config, certificate, len, 0, setup->group, cookies);
    explicit_bzero(cookies, sizeof cookies);
    explicit_bzero(setup->group, sizeof setup->group);
    if (answer == RTMFP_OK) answer = rtmfp_fingerprint(certificate, len, host->print);
    if (answer != RTMFP_OK) fail(BAD_WORDS, "the end isn't made: %s", rtmfp_answer_text(answer));
    host->socket = open_socket(&setup->place);
    if (setup->card) write_card(setup, host->print);
    write_digits(host->print, PRINT_LEN, digits);
    write_address(&setup->place, place);
    tell("%s is %s at %s", setup->name, digits, place);
}

void end_host(struct host *host) {
    rtmfp_free(&host->end);
    close(host->socket);
}

/* The fingerprint that is meant, if one is: that of the digits, or the first word of the file
 * behind @. */
static int read_print(const char *who, uint8_t print[PRINT_LEN]) {
    char digits[2 * PRINT_LEN + 1] = "";
    if (who[0] != '@') return read_digits(who, print, PRINT_LEN);
    FILE *file = fopen(who + 1, "re");
    if (!file) return 0;
    int has_one = fscanf(file, "%64s", digits) == 1;
    fclose(file);
    return has_one && read_digits(digits, print, PRINT_LEN);
}

int32_t call_end(struct host *host, const struct called *called, uint64_t *number, uint32_t *near) {
    uint8_t print[PRINT_LEN];
    const rtmfp_draws draws = draw();
    const rtmfp_address *places = called->places;
    const uint8_t *name = (const uint8_t *)called->who;
    *number = *near = 0;
    if (read_print(called->who, print))
        return rtmfp_open(&host->end, print, places, called->count, now(), &draws, number);
    if (called->who[0] == '@') return RTMFP_E_NAME;
    size_t len = strlen(called->who);
    return rtmfp_seek(&host->end, name, len, places, called->count, now(), &draws, near);
}

/* (a name was looked at when the setup was read) */
const char *call_text(int32_t answer) {
    return answer == RTMFP_E_NAME ? "no fingerprint is there" : rtmfp_answer_text(answer);
}

int wait_for(const struct host *host, int input, int milliseconds) {
    struct pollfd there[2] = {
        {.fd = host->socket, .events = POLLIN}, {.fd = input, .events = POLLIN}};
    return poll(there, 2, milliseconds) > 0 && there[1].revents != 0;
}

/* Sends what goes out, has the program heed each entry, and drops them. */
static void heed_all(struct host *host, heed_entry *heed, void *self, const rtmfp_address *from) {
    rtmfp_entry entry = {0};
    for (size_t i = 0; rtmfp_entry_at(&host->end, i, &entry) == RTMFP_OK; i++) {
        if (entry.kind == RTMFP_OUT) send_out(host->socket, &entry);
        heed(self, &entry, from);
    }
    rtmfp_clear(&host->end);
}

/* Takes one datagram, if one is there. Where memory lacks, it is lost, and the peer sends again
 * what was in it. */
static int take_one(struct host *host, heed_entry *heed, void *self) {
    uint8_t datagram[RTMFP_MAX_DATAGRAM + 1];
    struct sockaddr_storage source;
    socklen_t source_len = sizeof source;
    struct sockaddr *at = (struct sockaddr *)&source;
    ssize_t len = recvfrom(host->socket, datagram, sizeof datagram, MSG_DONTWAIT, at, &source_len);
    if (len < 0) return 0;
    const rtmfp_address from = address_of(&source);
    const rtmfp_draws draws = draw();
    rtmfp_receive(&host->end, &from, now(), datagram, (size_t)len, &draws);
    heed_all(host, heed, self, &from);
    return 1;
}

void take_all(struct host *host, heed_entry *heed, void *self) {
    for (int taken = 0; taken < MOST_AT_ONCE && take_one(host, heed, self); taken++) {
    }
}

void tick(struct host *host, heed_entry *heed, void *self) {
    const rtmfp_draws draws = draw();
    rtmfp_tick(&host->end, now(), &draws);
    heed_all(host, heed, self, NULL);
}

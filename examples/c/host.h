/* What the examples share: an end with a UDP socket, a clock, random values, and the file that
 * sets it up. */
#ifndef HOST_H
#define HOST_H

#include <rtmfp.h>
#include <signal.h>
#include <stddef.h>
#include <stdint.h>

/* How a program ends. */
enum { ENDS_WELL = 0, ENDS_EARLY = 1, BAD_WORDS = 2, NO_MEANS = 3 };

#define PRINT_LEN 32
#define ADDRESS_TEXT 64
#define MAX_LINKS 8

/* Another end, and where it is called: at its own addresses, or at those of an introducer. */
struct called {
    char *who; /* a fingerprint's 64 digits, @FILE for one that stands in a file, or a name */
    rtmfp_address places[RTMFP_MAX_CANDIDATES];
    size_t count;
    int is_met; /* whether it is an introducer, which is met so that others can call */
};

/* What the file says. */
struct setup {
    uint8_t group[32];
    char *name;
    char *card;
    rtmfp_address place;
    struct called links[MAX_LINKS];
    size_t count;
};

/* An end, and the socket by which it speaks. */
struct host {
    rtmfp_end end;
    int socket;
    uint8_t print[PRINT_LEN];
};

/* What a program does with an entry. `from` is where the datagram came from that brought it, or
 * null. A call on the end makes `entry->data` invalid, and the entries that it adds are heeded in
 * their turn. */
typedef void heed_entry(void *self, const rtmfp_entry *entry, const rtmfp_address *from);

/* Set by SIGINT and SIGTERM, once `catch_signals` was called. */
extern volatile sig_atomic_t is_stopped;
void catch_signals(void);

/* Tell a line on standard error; `fail` ends the program as well. */
void tell(const char *format, ...) __attribute__((format(printf, 1, 2)));
_Noreturn void fail(int status, const char *format, ...) __attribute__((format(printf, 2, 3)));

uint64_t now(void);
void draw_bytes(void *room, size_t len);
rtmfp_draws draw(void);

/* 0 where the text isn't just that: `len` bytes in digits, or an address as 10.0.0.1:1935 or
 * [2001:db8::1]:1935. */
int read_digits(const char *text, uint8_t *bytes, size_t len);
int read_address(const char *text, rtmfp_address *address);
void write_digits(const uint8_t *bytes, size_t len, char *text);
void write_address(const rtmfp_address *address, char text[ADDRESS_TEXT]);

/* The beginning of a fingerprint, for people; the next call writes there. */
const char *print_text(const uint8_t print[PRINT_LEN]);

/* Reads the file, or fails. Others must not be able to read it. */
void read_setup(const char *path, struct setup *setup);
void forget_setup(struct setup *setup);

/* Makes the end under fresh instance bytes, and its socket, or fails. The secret is wiped from the
 * setup. */
void begin(struct host *host, struct setup *setup, const rtmfp_config *config);

/* Opens an attempt or begins a search, and what that answers. `*number` is the attempt's, or
 * `*near` the search's session ID, and the other one 0. */
int32_t call_end(struct host *host, const struct called *called, uint64_t *number, uint32_t *near);
const char *call_text(int32_t answer);

/* Waits some milliseconds for the socket or for `input` (-1: none), and tells whether input is
 * there. */
int wait_for(const struct host *host, int input, int milliseconds);

/* Takes the datagrams that came; has the end do what is due. Both do what the entries say. */
void take_all(struct host *host, heed_entry *heed, void *self);
void tick(struct host *host, heed_entry *heed, void *self);

void end_host(struct host *host);

#endif

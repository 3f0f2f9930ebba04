/* The file that sets an example up. */
#define _GNU_SOURCE
#include "host.h"

#include <errno.h>
#include <fcntl.h>
#include <stdio.h>
#include <stdlib.h>
#include <string.h>
#include <sys/stat.h>
#include <unistd.h>

#define MAX_WORDS (RTMFP_MAX_CANDIDATES + 2)
#define BETWEEN " \t\r\n"

/* Where a line stands, for complaints about it. */
struct line {
    const char *path;
    int number;
    char *words[MAX_WORDS + 1];
    size_t count;
};

static FILE *open_own(const char *path) {
    struct stat about;
    int fd = open(path, O_RDONLY | O_CLOEXEC | O_NONBLOCK);
    if (fd < 0 || fstat(fd, &about) < 0) fail(BAD_WORDS, "%s: %s", path, strerror(errno));
    if (!S_ISREG(about.st_mode)) fail(BAD_WORDS, "%s is no file", path);
    if (about.st_mode & 077) fail(BAD_WORDS, "others may read the secret: chmod 600 %s", path);
    FILE *file = fdopen(fd, "r");
    if (!file) fail(NO_MEANS, "%s: %s", path, strerror(errno));
    return file;
}

_Noreturn static void refuse(const struct line *line, const char *text) {
    fail(BAD_WORDS, "%s:%d: %s", line->path, line->number, text);
}

static char *copy_of(const char *word) {
    char *copy = strdup(word);
    if (!copy) fail(NO_MEANS, "out of memory");
    return copy;
}

static int is_name(const char *word) {
    size_t len = strlen(word);
    for (size_t i = 0; i < len; i++)
        if ((unsigned char)word[i] > 127) return 0;
    return len >= 1 && len <= RTMFP_MAX_CERTIFICATE - 16;
}

static void take_place(const struct line *line, size_t at, rtmfp_address *place) {
    if (read_address(line->words[at], place)) return;
    refuse(line, "an address is like 10.0.0.1:1935 or [2001:db8::1]:1935");
}

/* A line of another end: who it is, and where. */
static void take_link(const struct line *line, struct setup *setup) {
    struct called *link = &setup->links[setup->count];
    if (line->count < 3) refuse(line, "who is called, and where?");
    if (setup->count == MAX_LINKS) refuse(line, "too many ends");
    if (line->words[1][0] != '@' && !is_name(line->words[1])) refuse(line, "that is no name");
    link->is_met = strcmp(line->words[0], "meet") == 0;
    link->count = line->count - 2;
    for (size_t i = 0; i < link->count; i++) take_place(line, i + 2, &link->places[i]);
    link->who = copy_of(line->words[1]);
    setup->count++;
}

/* A line of one word, which stands once. */
static void take_field(const struct line *line, struct setup *setup, int *has_group) {
    const char *field = line->words[0], *word = line->words[1];
    if (line->count != 2) refuse(line, "one word is wanted");
    if (strcmp(field, "group") == 0) {
        if ((*has_group)++ || !read_digits(word, setup->group, 32))
            refuse(line, "one secret of 64 digits is wanted");
    } else if (strcmp(field, "name") == 0) {
        if (setup->name || !is_name(word)) refuse(line, "one name of 1 to 64 letters is wanted");
        setup->name = copy_of(word);
    } else if (strcmp(field, "address") == 0) {
        if (setup->place.family) refuse(line, "one address is wanted");
        take_place(line, 1, &setup->place);
    } else if (strcmp(field, "card") == 0 && !setup->card) {
        setup->card = copy_of(word);
    } else {
        refuse(line, "the words are group, name, address, card, meet and call");
    }
}

static void split(struct line *line, char *text) {
    char *rest;
    text[strcspn(text, "#")] = 0;
    line->count = 0;
    for (char *word = strtok_r(text, BETWEEN, &rest); word; word = strtok_r(NULL, BETWEEN, &rest)) {
        if (line->count == MAX_WORDS) refuse(line, "too many words");
        line->words[line->count++] = word;
    }
}

void read_setup(const char *path, struct setup *setup) {
    struct line line = {.path = path};
    int has_group = 0;
    char *text = NULL;
    size_t room = 0;
    FILE *file = open_own(path);
    memset(setup, 0, sizeof *setup);
    while (getline(&text, &room, file) >= 0) {
        line.number++;
        split(&line, text);
        if (line.count == 0) continue;
        int is_link = strcmp(line.words[0], "meet") == 0 || strcmp(line.words[0], "call") == 0;
        if (is_link) take_link(&line, setup);
        else take_field(&line, setup, &has_group);
        explicit_bzero(text, room);
    }
    free(text);
    fclose(file);
    int is_whole = has_group && setup->name && setup->place.family;
    if (!is_whole) fail(BAD_WORDS, "%s lacks group, name or address", path);
}

void forget_setup(struct setup *setup) {
    for (size_t i = 0; i < setup->count; i++) free(setup->links[i].who);
    free(setup->name);
    free(setup->card);
    explicit_bzero(setup, sizeof *setup);
}

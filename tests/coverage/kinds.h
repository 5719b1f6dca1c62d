/* The kinds of files that are tried, and the words of the program that read them. */
#ifndef COVERAGE_KINDS_H
#define COVERAGE_KINDS_H

#include <sys/types.h>

#define MOST_FORMS 5

/* Words of the program, and the statuses that they may have, as bits. */
struct form {
    const char *words[6];
    unsigned statuses;
    int ask, tell;                      /* the pipes to the server that runs it */
    pid_t server;
};

struct kind {
    const char *name;
    const char *file;                   /* the name that the changed file has in the words */
    int is_text;
    struct form forms[MOST_FORMS];
};

#define BIT(status) (1u << (status))
#define MEMORY_WANTED BIT(9)

/* The file m beside a changed one is the match that it belongs to, and l a list of steps. */
static struct kind KINDS[] = {
    {"match", "m", 1, {
        {.words = {"play", "m"}, .statuses = BIT(0) | BIT(6)},
        {.words = {"state", "m", "2", "o"}, .statuses = BIT(0) | BIT(6) | BIT(10)},
        {.words = {"rejoin", "m", "1"}, .statuses = BIT(0) | BIT(6) | BIT(10)},
        {.words = {"session", "m", "l"}, .statuses = BIT(0) | BIT(6) | BIT(8)}}},
    {"states", "s", 0, {
        {.words = {"show", "m", "s"}, .statuses = BIT(0) | BIT(7)},
        {.words = {"resume", "m", "s"}, .statuses = BIT(0) | BIT(7)},
        {.words = {"compare", "m", "s", "s"}, .statuses = BIT(0) | BIT(7)}}},
    {"schedules", "l", 1, {
        {.words = {"serve", "l"}, .statuses = BIT(0) | BIT(8)}}},
    {"steps", "l", 1, {
        {.words = {"session", "m", "l"}, .statuses = BIT(0) | BIT(6) | BIT(8)}}},
};

#endif

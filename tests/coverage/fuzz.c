/*
 * Changed files, as many as there is time for; those that reach code that none reached before are kept and changed further.
 *
 * Usage: fuzz PROGRAM SERVER KIND SEEDS FOLDER SECONDS SEED <BLOCKS
 *
 * SERVER is server.c as a library, KIND a name of kinds.h, and BLOCKS what blocks.awk prints. SEEDS has the files to begin with,
 * and beside a file NAME the match NAME.match that it belongs to, if there is one; one beside a stored state has to be one that
 * the program takes. FOLDER gets the files that were kept, and in faults/ each that led to a fault; in the end also the addresses
 * of the blocks that were reached. coverage_fuzz.sh, one folder up, makes all of this. The exit status is 0 where there was no
 * fault.
 */
#define _GNU_SOURCE
#include <ctype.h>
#include <dirent.h>
#include <fcntl.h>
#include <regex.h>
#include <stdio.h>
#include <stdlib.h>
#include <string.h>
#include <sys/mman.h>
#include <sys/stat.h>
#include <sys/wait.h>
#include <time.h>
#include <unistd.h>

#include "kinds.h"
#include "mutate.h"
#include "shared.h"

#define MOST_ENTRIES 100000
#define MOST_MATCHES 4096
#define OUT_BEFORE "as it was"          /* what stands in the file OUT before each run */
#define SHOWN 200                       /* how many bytes of a printed text are looked at from its begin */
#define MOST_FAULTS 200                 /* how many inputs that led to a fault are written; all are counted */

/* An input that is changed further. */
struct entry {
    uint8_t *at;
    size_t length;
    int match;
    int is_taken;                       /* the program took it, with status 0 */
    uint32_t microseconds;
};

/* What came of a run. */
struct result {
    int status;                         /* the exit status, or -1 */
    int is_new;                         /* it reached a block, or gave an answer, that none did before */
    uint32_t microseconds;
    size_t length;                      /* of the text */
    char text[SHOWN + 1];
    const char *fault;
};

static struct shared *shared;
static struct kind *kind;
static const char *program, *library, *folder;
static struct entry entries[MOST_ENTRIES];
static int entry_count;
static char *matches[MOST_MATCHES];     /* the paths of the matches; the first is none */
static int match_count = 1, match_here;
static int out_file, error_file;
static unsigned long runs, faults, by_status[16];
static uint8_t was_answered[16][64];    /* by status and by the code of a refusal */
static regex_t refusals[16];

static void fail(const char *what)
{
    perror(what);
    exit(2);
}

static int opened(const char *path, int flags)
{
    int file = open(path, flags | O_CLOEXEC, 0644);
    if (file < 0)
        fail(path);
    return file;
}

static void write_file(const char *path, const void *at, size_t length)
{
    int file = opened(path, O_WRONLY | O_CREAT | O_TRUNC);
    if (write(file, at, length) != (ssize_t)length)
        fail(path);
    close(file);
}

static void read_file(const char *path, struct bytes *bytes)
{
    int file = opened(path, O_RDONLY);
    ssize_t length = read(file, bytes->at, MOST_BYTES);
    bytes->length = length < 0 ? 0 : length;
    close(file);
}

/* ---- the servers */

static int compare_offsets(const void *a, const void *b)
{
    uint64_t x = *(const uint64_t *)a, y = *(const uint64_t *)b;
    return (x > y) - (x < y);
}

/* The blocks of standard input, in memory that the servers share. */
static void share_blocks(void)
{
    int file = memfd_create("blocks", 0);
    char path[32], line[64];
    if (file < 0 || ftruncate(file, sizeof *shared))
        fail("shared memory");
    shared = mmap(0, sizeof *shared, PROT_READ | PROT_WRITE, MAP_SHARED, file, 0);
    if (shared == MAP_FAILED)
        fail("shared memory");
    while (shared->count < MOST_BLOCKS && fgets(line, sizeof line, stdin))
        shared->offset[shared->count++] = strtoull(line, 0, 16);
    qsort(shared->offset, shared->count, sizeof *shared->offset, compare_offsets);
    snprintf(path, sizeof path, "/proc/self/fd/%d", file);
    setenv(SHARED_NAME, path, 1);
}

static void become_server(struct form *form, int asked, int told)
{
    const char *words[8] = {program};
    for (int i = 0; form->words[i]; i++)
        words[i + 1] = form->words[i];
    dup2(asked, ASK_FD);
    dup2(told, TELL_FD);
    dup2(out_file, 1);
    dup2(error_file, 2);
    setenv("LD_PRELOAD", library, 1);
    execv(program, (char **)words);
    _exit(100);
}

static void start_server(struct form *form)
{
    int ask[2], tell[2];
    if (pipe2(ask, O_CLOEXEC) || pipe2(tell, O_CLOEXEC))
        fail("pipe");
    form->server = fork();
    if (form->server == 0)
        become_server(form, ask[0], tell[1]);
    close(ask[0]);
    close(tell[1]);
    form->ask = ask[1];
    form->tell = tell[0];
}

/* ---- one run */

static void compile_refusals(void)
{
    static const struct { int status; const char *line; } LINES[] = {
        {6, "^match refused [0-9]+ [0-9]+\n$"}, {7, "^state refused [123] s\n$"},
        {8, "^list refused [0-9]+\n$"}, {9, "^$"}, {10, "^no turn [0-9]+ of [0-9]+\n$"}};
    for (size_t i = 0; i < sizeof LINES / sizeof *LINES; i++)
        regcomp(&refusals[LINES[i].status], LINES[i].line, REG_EXTENDED | REG_NOSUB);
}

static int has_words(const struct form *form, const char *first)
{
    return strcmp(form->words[0], first) == 0;
}

/* The match to which the input belongs stands beside it under the name m. */
static void place_match(int match)
{
    if (match == match_here || match == 0)
        return;
    unlink("m");
    if (symlink(matches[match], "m"))
        fail("m");
    match_here = match;
}

static size_t size_of(int file)
{
    struct stat stat;
    return fstat(file, &stat) ? 0 : stat.st_size;
}

static int is_out_as_it_was(void)
{
    struct stat stat;
    return lstat("o", &stat) == 0 && stat.st_size == sizeof OUT_BEFORE;
}

/* What is wrong with the text that came with a status of the form, or none. */
static const char *fault_of_text(const struct form *form, const struct result *result)
{
    char last = 0;
    if (size_of(error_file))
        return "something on standard error";
    if (has_words(form, "state") && result->status != 0 && !is_out_as_it_was())
        return "a written file beside a refusal";
    if (result->status != 0)
        return regexec(&refusals[result->status], result->text, 0, 0, 0) || strlen(result->text) != result->length ? "another text" : 0;
    if (pread(out_file, &last, 1, result->length - 1) != 1 || last != '\n')
        return "a text that does not end its line";
    return 0;
}

static const char *fault_of(const struct form *form, int status, const struct result *result)
{
    if (WIFSIGNALED(status))
        return WTERMSIG(status) == SIGXCPU || WTERMSIG(status) == SIGALRM ? "more than 10 seconds" : strsignal(WTERMSIG(status));
    if (result->status > 15 || !((form->statuses | MEMORY_WANTED) & BIT(result->status)))
        return "a status that its words cannot have";
    return fault_of_text(form, result);
}

/* A status with a code of refusal that was not seen before. */
static int is_new_answer(const struct result *result)
{
    const char *place = strstr(result->text, "refused ");
    int code = place && result->status ? atoi(place + 8) & 63 : 0;
    if (result->fault || was_answered[result->status][code])
        return 0;
    return was_answered[result->status][code] = 1;
}

static void read_text(struct result *result)
{
    ssize_t length = pread(out_file, result->text, SHOWN, 0);
    result->text[length < 0 ? 0 : length] = 0;
    result->length = size_of(out_file);
}

static struct result run(struct form *form)
{
    struct result result = {0};
    struct outcome outcome;
    uint32_t before = shared->reached;
    if (ftruncate(out_file, 0) || ftruncate(error_file, 0))
        fail("truncate");
    if (has_words(form, "state"))
        write_file("o", OUT_BEFORE, sizeof OUT_BEFORE);
    if (write(form->ask, "", 1) != 1 || read(form->tell, &outcome, sizeof outcome) != sizeof outcome)
        fail("the server ended");
    result.status = WIFEXITED(outcome.status) ? WEXITSTATUS(outcome.status) : -1;
    result.microseconds = outcome.microseconds;
    read_text(&result);
    result.fault = fault_of(form, outcome.status, &result);
    result.is_new = is_new_answer(&result) | (shared->reached > before);
    runs++;
    by_status[result.status & 15]++;
    return result;
}

/* ---- one input */

static void keep_fault(const struct form *form, const struct bytes *bytes, int match, const struct result *result)
{
    char path[4096];
    if (++faults > MOST_FAULTS)
        return;
    snprintf(path, sizeof path, "%s/faults/%lu-%s", folder, faults, form->words[0]);
    write_file(path, bytes->at, bytes->length);
    printf("FAILED %s%s%s: %s: status %d: %.*s\n", path, match ? " of " : "", match ? matches[match] : "", result->fault,
           result->status, (int)strcspn(result->text, "\n"), result->text);
    fflush(stdout);
}

static void keep(const struct bytes *bytes, int match, const struct result *result)
{
    char path[4096];
    if (entry_count == MOST_ENTRIES)
        return;
    struct entry *entry = &entries[entry_count++];
    *entry = (struct entry){malloc(bytes->length + 1), bytes->length, match, result->status == 0, result->microseconds};
    memcpy(entry->at, bytes->at, bytes->length);
    snprintf(path, sizeof path, "%s/kept/%05d", folder, entry_count);
    write_file(path, bytes->at, bytes->length);
}

/* The refusal of the changed file; that a session's match may have no commands is none. */
static const char *refusal(const struct result *result)
{
    int is_one = result->status == 6 || result->status == 7;
    return is_one && strncmp(result->text, "match refused 11 ", 17) != 0 ? result->text : "";
}

static int is_alike(const struct result *one, const struct result *other)
{
    return one->status == 9 || other->status == 9 || strcmp(refusal(one), refusal(other)) == 0;
}

/* The input by one form, and then also by the others where it is worth it: all refuse a file alike. */
static void try(struct bytes *bytes, int match, int always)
{
    int count = 0, is_new = 0;
    while (count < MOST_FORMS && kind->forms[count].words[0])
        count++;
    int first = draw(count);
    struct result began = {0};
    place_match(match);
    write_file(kind->file, bytes->at, bytes->length);
    for (int i = 0; i < count && (i == 0 || is_new || always || draw(64) == 0); i++) {
        struct form *form = &kind->forms[(first + i) % count];
        struct result result = run(form);
        began = i == 0 ? result : began;
        if (!result.fault && !is_alike(&result, &began))
            result.fault = "it is refused otherwise than by another word";
        if (result.fault) {
            keep_fault(form, bytes, match, &result);
            return;
        }
        is_new |= result.is_new;
    }
    if (is_new || always)
        keep(bytes, match, &began);
}

/* A match may have many turns, and mostly has few. */
static void limit_turns(struct bytes *bytes)
{
    uint8_t *place = memmem(bytes->at, bytes->length, "\"turns\":", 8), *end = bytes->at + bytes->length;
    if (!place || draw(50) == 0)
        return;
    for (place += 8; place < end && isspace(*place); place++)
        ;
    for (int digits = 0; place < end && isdigit(*place); place++)
        if (++digits > 2)
            *place = ' ';
}

static struct entry *any(void)
{
    int newest = entry_count / 4 + 1;
    return draw(2) ? &entries[draw(entry_count)] : &entries[entry_count - 1 - draw(newest)];
}

/* An input to be changed: one of the newest as often as any, and rather one that the program takes, and quickly. */
static struct entry *drawn(void)
{
    struct entry *one = any(), *other = any();
    for (int i = 0; i < 8 && !one->is_taken && draw(4); i++)
        one = any();
    return other->is_taken >= one->is_taken && other->microseconds < one->microseconds && draw(4) == 0 ? other : one;
}

static void fill(struct bytes *bytes, const struct entry *entry)
{
    bytes->length = entry->length;
    memcpy(bytes->at, entry->at, entry->length);
}

static void try_one_more(void)
{
    static struct bytes bytes, other;
    struct entry *entry = drawn();
    fill(&bytes, entry);
    fill(&other, drawn());
    mutate(&bytes, &other, kind->is_text);
    if (kind->is_text)
        limit_turns(&bytes);
    try(&bytes, entry->match, 0);
}

/* ---- begin and end */

static int add_match(const char *path)
{
    char whole[4096];
    if (match_count == MOST_MATCHES || !realpath(path, whole))
        return 0;
    matches[match_count] = strdup(whole);
    return match_count++;
}

static int is_seed(const struct dirent *entry)
{
    const char *end = strrchr(entry->d_name, '.');
    return entry->d_name[0] != '.' && !(end && strcmp(end, ".match") == 0);
}

static void load_seeds(const char *seeds)
{
    struct dirent **names;
    static struct bytes bytes;
    char path[4096], match[4200];
    int count = scandir(seeds, &names, is_seed, alphasort);
    if (count <= 0)
        fail(seeds);
    for (int i = 0; i < count; i++) {
        snprintf(path, sizeof path, "%s/%s", seeds, names[i]->d_name);
        snprintf(match, sizeof match, "%s.match", path);
        read_file(path, &bytes);
        try(&bytes, add_match(match), 1);
    }
}

static void print_figures(long seconds)
{
    printf("%s %ld s: %lu runs, %u of %u blocks, %d inputs kept, %lu faults\n", kind->name, seconds, runs, shared->reached,
           shared->count, entry_count, faults);
    fflush(stdout);
}

static void print_end(void)
{
    char path[4096];
    for (int status = 0; status < 16; status++)
        if (by_status[status])
            printf("%s status %d: %lu\n", kind->name, status == 15 ? -1 : status, by_status[status]);
    snprintf(path, sizeof path, "%s/reached", folder);
    FILE *file = fopen(path, "w");
    if (!file)
        fail(path);
    for (uint32_t i = 0; i < shared->reached; i++)
        fprintf(file, "%lx\n", (unsigned long)shared->offset[shared->order[i]]);
    fclose(file);
}

static void start(char **words)
{
    char path[4096];
    program = words[1], library = words[2], folder = words[5];
    for (size_t i = 0; i < sizeof KINDS / sizeof *KINDS; i++)
        kind = strcmp(KINDS[i].name, words[3]) == 0 ? &KINDS[i] : kind;
    if (!kind)
        fail(words[3]);
    seed_draws(strtoull(words[7], 0, 10));
    share_blocks();
    compile_refusals();
    for (int i = 0; i < 2; i++) {
        snprintf(path, sizeof path, "%s/%s", folder, i ? "faults" : "kept");
        mkdir(path, 0755);
    }
    out_file = opened("text", O_RDWR | O_CREAT | O_APPEND);
    error_file = opened("errors", O_RDWR | O_CREAT | O_APPEND);
    for (int i = 0; i < MOST_FORMS && kind->forms[i].words[0]; i++)
        start_server(&kind->forms[i]);
}

int main(int count, char **words)
{
    if (count != 8)
        return fprintf(stderr, "usage: fuzz PROGRAM SERVER KIND SEEDS FOLDER SECONDS SEED <BLOCKS\n"), 2;
    start(words);
    time_t begin = time(0), now = begin, told = begin;
    load_seeds(words[4]);
    print_figures(0);
    while (entry_count && (now = time(0)) < begin + atol(words[6])) {
        try_one_more();
        if (now >= told + 60)
            print_figures((told = now) - begin);
    }
    print_figures(now - begin);
    print_end();
    return faults ? 1 : 0;
}

/* What the fuzzers have alike: chance, bytes that are good, damaged or made up, and memory that ends at a page that nobody may touch. A
 * program includes it once, before all else. */
#define _DEFAULT_SOURCE
#include <simcore.h>
#include <stdio.h>
#include <stdlib.h>
#include <string.h>
#include <sys/mman.h>
#include <time.h>

enum { PAGE = 4096, MOST_IN = 1 << 20, MOST_OUT = 1 << 22, FILL = 0x5A };

struct bytes {
    uint8_t *at;
    size_t length;
};

/* What is handed in, the areas where it stands, and behind these one for what is handed out. */
static struct bytes in[3];
static uint8_t *areas[4];
static uint64_t word;

static uint32_t chance(uint32_t below) {
    word = word * 6364136223846793005u + 1442695040888963407u;
    return (uint32_t)((word >> 33) % below);
}

static void fail(const char *what, int call, int32_t status) {
    printf("failed: %s; call %d, status %d\n", what, call, (int)status);
    exit(1);
}

/* Memory whose end lies before a page that nobody may touch. */
static uint8_t *new_area(size_t length) {
    uint8_t *at = (uint8_t *)mmap(NULL, length + PAGE, PROT_READ | PROT_WRITE, MAP_PRIVATE | MAP_ANONYMOUS, -1, 0);
    if (at == MAP_FAILED || mprotect(at + length, PAGE, PROT_NONE)) fail("no memory for an area", -1, 0);
    return at;
}

static void make_areas(void) {
    for (int i = 0; i < 4; i++) areas[i] = new_area(i < 3 ? MOST_IN : MOST_OUT);
}

static struct bytes copy_of(const uint8_t *from, size_t length) {
    struct bytes copy = {(uint8_t *)malloc(length ? length : 1), length};
    if (!copy.at) fail("no memory", -1, 0);
    memcpy(copy.at, from, length);
    return copy;
}

static struct bytes read_file(const char *path) {
    static uint8_t room[MOST_IN];
    FILE *file = fopen(path, "rb");
    size_t length = file ? fread(room, 1, sizeof room, file) : 0;
    if (file) fclose(file);
    return copy_of(room, length);
}

/* The kind of a command and what follows it, some of which make sense. */
static char *write_rest(char *at) {
    static const char *const KINDS[] = {"walk", "stop", "attack", "delete", "place", "train", "resign", "dance"};
    uint32_t kind = chance(50) ? chance(7) : 7;
    at += sprintf(at, "\"%s\"", KINDS[kind]);
    if (kind < 4) at += sprintf(at, ",[%u,%u,%u]", 2 + chance(12), chance(30), chance(3) ? 2 + chance(9) : 1u << chance(32));
    if (kind == 2) at += sprintf(at, ",%u", chance(20));
    if (kind == 4) at += sprintf(at, ",%u", chance(5));
    if (kind == 5) at += sprintf(at, ",%u,%u", chance(20), chance(5));
    if (kind == 0 || kind == 4) at += sprintf(at, ",\"%u.%u\",%u", chance(40), chance(100), chance(30));
    return at + sprintf(at, "]");
}

/* Commands of a turn. */
static size_t write_orders(char *text) {
    char *at = text + sprintf(text, "[");
    for (uint32_t i = 0, n = chance(5); i < n; i++) {
        at += sprintf(at, "%s[%u,", i ? "," : "", chance(9));
        at = write_rest(at);
    }
    return (size_t)(at - text) + (size_t)sprintf(at, "]");
}

/* Damages bytes in their place; what comes of it is no longer than MOST_IN. */
static size_t damage(uint8_t *at, size_t length) {
    static const char *const PIECES[] = {"[", "]", "{", "}", ",", "\"", "-1", "0", "65536", "1e9", "null", "\xff", "\"@parent\"", ".5"};
    for (uint32_t i = 0, n = 1 + chance(3); i < n; i++) {
        size_t place = length ? chance((uint32_t)length) : 0, most = length - place, few = most ? chance((uint32_t)(most < 40 ? most : 40)) : 0;
        const char *piece = PIECES[chance(14)];
        switch (length ? chance(7) : 4) {
        case 0: at[place] = (uint8_t)chance(256); break;
        case 1: at[place] ^= (uint8_t)(1u << chance(8)); break;
        case 2: length = place; break;
        case 3: memmove(at + place, at + place + few, length - place - few), length -= few; break;
        case 4:
            if (length + 16 > MOST_IN) break;
            memmove(at + place + strlen(piece), at + place, length - place);
            memcpy(at + place, piece, strlen(piece));
            length += strlen(piece);
            break;
        case 5:
            if (length + few > MOST_IN) break;
            memmove(at + place + few, at + place, length - place);
            length += few;
            break;
        default: at[place] = (uint8_t)(at[place] + 1 - 2 * chance(2)); break;
        }
    }
    return length;
}

/* Puts bytes, one time in so many damaged, to the end of an area that is not written from then on. */
static void hand_in(int place, const uint8_t *from, size_t length, uint32_t spare) {
    static uint8_t room[MOST_IN + 64];
    if (length > MOST_IN) length = MOST_IN;
    memcpy(room, from, length);
    if (!chance(spare)) length = damage(room, length);
    mprotect(areas[place], MOST_IN, PROT_READ | PROT_WRITE);
    in[place].at = areas[place] + MOST_IN - length;
    in[place].length = length;
    memcpy(in[place].at, room, length);
    mprotect(areas[place], MOST_IN, PROT_READ);
}

/*
 * Stands before the main function of the program (LD_PRELOAD), which is loaded once, and forks a child for each run.
 *
 * A trap stands at the first byte of each block that was not reached yet. A child that comes to one notes the block, puts the
 * byte back and goes on; before the next run the byte is put back here, so each block traps once, and a run that reaches
 * nothing new takes no longer than the program does.
 */
#define _GNU_SOURCE
#include <fcntl.h>
#include <link.h>
#include <signal.h>
#include <stdlib.h>
#include <sys/mman.h>
#include <sys/resource.h>
#include <sys/time.h>
#include <sys/wait.h>
#include <ucontext.h>
#include <unistd.h>

#include "shared.h"

#define TRAP 0xcc

static struct shared *shared;
static uint8_t *base;
static uint8_t first_byte[MOST_BLOCKS];

/* The number of the block that begins at this address, or -1. */
static long block_at(uint8_t *address)
{
    uint64_t offset = address - base;
    long low = 0, high = (long)shared->count - 1;
    while (low <= high) {
        long middle = (low + high) / 2;
        if (shared->offset[middle] == offset)
            return middle;
        if (shared->offset[middle] < offset)
            low = middle + 1;
        else
            high = middle - 1;
    }
    return -1;
}

/* A trap of our own is noted, and the block is run; any other ends the run as it would without us. */
static void on_trap(int number, siginfo_t *info, void *context)
{
    (void)info;
    greg_t *next = &((ucontext_t *)context)->uc_mcontext.gregs[REG_RIP];
    uint8_t *address = (uint8_t *)*next - 1;
    long block = block_at(address);
    *next -= 1;
    if (block < 0 || first_byte[block] == TRAP) {
        signal(number, SIG_DFL);
        return;
    }
    *address = first_byte[block];
    if (!shared->is_reached[block]) {
        shared->is_reached[block] = 1;
        shared->order[shared->reached++] = block;
    }
}

static int find_base(struct dl_phdr_info *info, size_t size, void *data)
{
    (void)size, (void)data;
    base = (uint8_t *)info->dlpi_addr;
    return 1; /* the first is the program itself */
}

static void share(void)
{
    int file = open(getenv(SHARED_NAME), O_RDWR);
    shared = mmap(0, sizeof *shared, PROT_READ | PROT_WRITE, MAP_SHARED, file, 0);
    if (file < 0 || shared == MAP_FAILED)
        _exit(101);
    close(file);
}

static void set_traps(void)
{
    uintptr_t page = sysconf(_SC_PAGESIZE);
    uintptr_t begin = (uintptr_t)base + shared->offset[0], end = (uintptr_t)base + shared->offset[shared->count - 1] + 1;
    begin -= begin % page;
    if (mprotect((void *)begin, end - begin, PROT_READ | PROT_WRITE | PROT_EXEC))
        _exit(102);
    for (uint32_t block = 0; block < shared->count; block++) {
        first_byte[block] = base[shared->offset[block]];
        if (!shared->is_reached[block])
            base[shared->offset[block]] = TRAP;
    }
    struct sigaction action = {.sa_sigaction = on_trap, .sa_flags = SA_SIGINFO};
    sigaction(SIGTRAP, &action, 0);
}

static void limit(void)
{
    struct rlimit memory = {MEMORY, MEMORY}, seconds = {SECONDS, SECONDS + 1}, core = {0, 0};
    struct itimerval timer = {.it_value = {.tv_sec = 12 * SECONDS}}; /* for a run that only waits */
    setrlimit(RLIMIT_AS, &memory);
    setrlimit(RLIMIT_CPU, &seconds);
    setrlimit(RLIMIT_CORE, &core);
    setitimer(ITIMER_REAL, &timer, 0);
}

static void tell(pid_t child)
{
    struct rusage usage;
    struct outcome outcome = {0, 0};
    wait4(child, &outcome.status, 0, &usage);
    outcome.microseconds = (usage.ru_utime.tv_sec + usage.ru_stime.tv_sec) * 1000000 + usage.ru_utime.tv_usec + usage.ru_stime.tv_usec;
    if (write(TELL_FD, &outcome, sizeof outcome) != sizeof outcome)
        _exit(103);
}

__attribute__((constructor)) static void serve(void)
{
    char ask;
    uint32_t done;
    if (!getenv(SHARED_NAME))
        return;
    dl_iterate_phdr(find_base, 0);
    share();
    done = shared->reached;
    set_traps();
    while (read(ASK_FD, &ask, 1) == 1) {
        for (; done < shared->reached; done++)
            base[shared->offset[shared->order[done]]] = first_byte[shared->order[done]];
        pid_t child = fork();
        if (child == 0) {
            close(ASK_FD);
            close(TELL_FD);
            limit();
            return; /* to the main function */
        }
        tell(child);
    }
    _exit(0);
}

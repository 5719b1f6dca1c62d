/* What the fuzzer shares with the program that it tries: where the blocks begin, and which of them were reached. */
#ifndef COVERAGE_SHARED_H
#define COVERAGE_SHARED_H

#include <stdint.h>

#define MOST_BLOCKS 400000
#define SHARED_NAME "COVERAGE_SHARED"   /* the variable that names the file of the shared memory */
#define ASK_FD 198                      /* the program reads a byte here for each run, and ends with the file */
#define TELL_FD 199                     /* and writes what came of it here */
#define SECONDS 10                      /* the processor time that a run may take */
#define MEMORY (1UL << 30)              /* the memory that it may have */

struct shared {
    uint32_t count;                     /* the number of blocks */
    uint32_t reached;                   /* the number of those that were reached */
    uint64_t offset[MOST_BLOCKS];       /* where each begins in the program's file, ascending */
    uint32_t order[MOST_BLOCKS];        /* those that were reached, in that order */
    uint8_t is_reached[MOST_BLOCKS];
};

struct outcome {
    int status;                         /* as of wait */
    uint32_t microseconds;              /* of the processor */
};

#endif

/* A whole round from C: loads the image of a file, or of standard input, runs it for 10,000 steps in all, going on when the dump buffer is full, and prints what
 * `make run` prints. Usage: round [IMAGE] */
#include "mm.h"

#include <inttypes.h>
#include <stdio.h>

enum { STEPS = 10000, PIECE = 64, ROOM = 2 };

/* What the calls are lent; nothing is allocated. The image has a byte more, so that one that is too long is seen as such. */
static uint8_t image[MM_IMAGE_MAX + 1];
static uint8_t insts[MM_INSTS_SIZE];
static uint8_t labels[MM_LABELS_SIZE];
static uint8_t machine[MM_MACHINE_SIZE];
static uint8_t dumps[ROOM * MM_NUMBER_SIZE];

/* The next piece of the round. */
static struct mm_ran run_piece(size_t image_len, uint64_t count, uint64_t left) {
    uint64_t limit = left < PIECE ? left : PIECE;
    return mm_run(image, image_len, insts, sizeof insts, labels, sizeof labels, count, machine, sizeof machine, limit, dumps, sizeof dumps);
}

/* Runs to an ending that isn't the end of a piece or a full buffer, prints the cells dumped, and adds up the steps. */
static uint64_t run_round(size_t image_len, uint64_t count, uint64_t *steps) {
    for (;;) {
        struct mm_ran ran = run_piece(image_len, count, STEPS - *steps);
        *steps += ran.steps;
        for (size_t i = 0; i < ran.dumped; i++)
            printf("%016" PRIx64 "\n", mm_number_at(dumps, i * MM_NUMBER_SIZE));
        int piece_ended = ran.ending == MM_BUFFER_FULL || (ran.ending == MM_LIMIT && *steps < STEPS);
        if (!piece_ended)
            return ran.ending;
    }
}

static void print_end(uint64_t ending, uint64_t steps) {
    if (ending == MM_HALTED)
        printf("end halt");
    else if (ending == MM_LIMIT)
        printf("end limit");
    else
        printf("end %" PRIu64, ending);
    printf(" steps %" PRIu64 " ip %" PRIu64, steps, mm_number_at(machine, MM_POINTER_AT));
    printf(" height %" PRIu64 " calls %" PRIu64 "\n", mm_number_at(machine, MM_HEIGHT_AT), mm_number_at(machine, MM_CALL_HEIGHT_AT));
}

int main(int argc, char **argv) {
    FILE *file = argc > 1 ? fopen(argv[1], "rb") : stdin;
    size_t image_len = file ? fread(image, 1, sizeof image, file) : 0;
    if (!file || ferror(file)) {
        perror("round");
        return 1;
    }
    struct mm_loaded loaded = mm_load(image, image_len, insts, sizeof insts, labels, sizeof labels, machine, sizeof machine);
    if (loaded.number != 0) {
        printf("refused %" PRIu64 "\n", loaded.number);
        return 0;
    }
    uint64_t steps = 0;
    uint64_t ending = run_round(image_len, loaded.count, &steps);
    print_end(ending, steps);
    return 0;
}

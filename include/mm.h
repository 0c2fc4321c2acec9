/*
 * mm's load, run and encode, and the room that encode needs, proved in Rattle: the calls of libmm_host.a, for x86-64 Linux.
 *
 * Every call works on memory that the caller lends and no other, and keeps nothing: calls on different memory may run at the same time. A slice of memory
 * crosses as its address and its length in bytes. It may lie at any address, also an odd one, but not at NULL, and may have any length and contents: what a
 * call can't use it answers with a number. Slices of one call don't overlap where one of them is written.
 *
 * A number in memory is a uint64_t, lowest byte first; mm_number_at reads one. docs/HOST.md has every byte.
 */
#ifndef MM_H
#define MM_H

#include <stddef.h>
#include <stdint.h>
#include <string.h>

#ifdef __cplusplus
extern "C" {
#endif

/* The limits of a program and of a machine. */
#define MM_IMAGE_MAX 16384  /* the longest image that a load accepts */
#define MM_INST_MAX 4096    /* the most instructions, an appended HALT counted */
#define MM_LABEL_MAX 512    /* the most label definitions */
#define MM_STACK_SLOTS 1024 /* the cells that a data stack has room for */
#define MM_CALL_SLOTS 1024  /* the return addresses that a call stack has room for */
#define MM_MEMORY_SIZE 1024 /* the bytes of a memory */

/* The sizes of what is lent, in bytes. */
#define MM_NUMBER_SIZE 8      /* a number; a cell or an address is one */
#define MM_RECORD_SIZE 32     /* a table's record: four numbers */
#define MM_INSTS_SIZE 131072  /* the shortest instruction table that a load accepts */
#define MM_LABELS_SIZE 16416  /* the shortest label table that a load accepts */
#define MM_ENCODED_MAX 16385  /* the longest program as mm_encode writes it: its image and an appended HALT */
#define MM_MACHINE_SIZE 17434 /* a machine */

/* Where things lie in a machine. */
#define MM_STACK_AT 0           /* MM_STACK_SLOTS cells; the first of them, as many as the height, are the data stack, the last on top */
#define MM_CALLS_AT 8192        /* MM_CALL_SLOTS return addresses; the first of them, as many as the call height, are open calls */
#define MM_MEMORY_AT 16384      /* MM_MEMORY_SIZE bytes */
#define MM_HEIGHT_AT 17408      /* a number: the cells on the data stack */
#define MM_CALL_HEIGHT_AT 17416 /* a number: the open calls */
#define MM_POINTER_AT 17424     /* a number: the index of the next instruction; after a trap, of the one that trapped */
#define MM_FLAGS_AT 17432       /* a byte: bits 0 to 7 are E, L, LE, G, GE, NE, Z, NZ */
#define MM_HALTED_AT 17433      /* a byte, 0 or 1 */

/* Why a load (1 to 8, 10), an encoding (9, 10) or the question for its size (9; 10 where no output would have the room) was refused. */
enum mm_refusal {
    MM_IMAGE_TOO_LONG = 1,        /* the image is longer than 16,384 bytes */
    MM_UNDEFINED_BYTE = 2,        /* an instruction starts with a byte that stands for no instruction */
    MM_PAST_END = 3,              /* an instruction's operand or name goes past the end of the image, or its name has a negative length */
    MM_NAME_BYTE = 4,             /* a name has a byte of 128 or more */
    MM_TOO_MANY_INSTRUCTIONS = 5, /* the program has more than 4,096 instructions, the HALT that a load appends counted */
    MM_TOO_MANY_LABELS = 6,       /* the program defines more than 512 labels */
    MM_NO_START = 7,              /* the program defines no label _start */
    MM_NATIVE = 8,                /* the program has a NATIVE instruction, and there is no native function to call */
    MM_ILL_RECORD = 9,            /* the instruction table has an ill record, or fewer records than its count says */
    MM_NO_ROOM = 10               /* a table is shorter than a load needs, or the output shorter than the program written out, or no output would be long enough */
};

/* How a run ends. A further run goes on where this one stopped: after a trap it tries the same instruction again, after MM_HALTED and MM_ILL_STATE it takes no
 * step. */
enum mm_ending {
    MM_HALTED = 0,               /* the program halted */
    MM_LIMIT = 1,                /* the limit of steps is reached */
    MM_STACK_UNDERFLOW = 20,     /* the instruction needs more cells than the data stack holds */
    MM_STACK_OVERFLOW = 21,      /* the data stack is full, at 1,024 cells */
    MM_NO_OPEN_CALL = 22,        /* a return (RET) with no call open */
    MM_CALL_STACK_FULL = 23,     /* the call stack is full, at 1,024 return addresses */
    MM_DIVISION_BY_ZERO = 24,    /* an integer division (IDIV) by zero */
    MM_ADDRESS_PAST_MEMORY = 25, /* a READ or WRITE at an address past the memory's 1,024 bytes */
    MM_NO_SUCH_LABEL = 26,       /* a jump to a label that the program doesn't define */
    MM_NO_SUCH_FUNCTION = 27,    /* a CALL of a label that the program doesn't define */
    MM_WRONG_TYPE = 28,          /* a conversion of a cell whose type it doesn't take */
    MM_NEGATIVE_CONVERSION = 29, /* a conversion (F2U, I2F or I2U) of a number below zero */
    MM_NOT_BOTH_I64 = 30,        /* an integer operation (IADD, ISUB, IMUL or IDIV) on two cells that aren't both I64 */
    MM_UNKNOWN_TYPE = 31,        /* an integer operation or a conversion on a cell of unknown type */
    MM_NO_SUCH_STREAM = 32,      /* a dump to another stream than 1 and 2 */
    MM_BUFFER_FULL = 33,         /* the dump buffer is full */
    MM_ILL_STATE = 34            /* machine, tables and count aren't ones that the image's load and runs leave */
};

/* What a load and a run answer before anything else, with nothing written: the bytes lent as a machine are none (another length than MM_MACHINE_SIZE, or,
 * for a run, a halted byte over 1). */
enum mm_no_machine {
    MM_NOT_A_MACHINE = 50
};

/* What mm_load answers. */
struct mm_loaded {
    uint64_t number; /* 0, or why the load was refused: enum mm_refusal, MM_NOT_A_MACHINE */
    uint64_t count;  /* how many instructions the program has; 0 with a number */
};

/* What mm_run answers. */
struct mm_ran {
    uint64_t ending; /* enum mm_ending, MM_NOT_A_MACHINE */
    uint64_t steps;  /* the steps taken, a trapping one counted; with MM_BUFFER_FULL and MM_ILL_STATE those before */
    uint64_t dumped; /* how many cells were dumped */
};

/* What mm_encode and mm_encoded_size answer. */
struct mm_encoded {
    uint64_t number; /* 0, or why the call was refused: enum mm_refusal */
    uint64_t size;   /* how many bytes were written, or are needed; 0 with a number */
};

/* Loads an image: fills both tables from the front and makes the machine the fresh one, whatever they held. A refused load writes nothing. The tables hold
 * places in the image, so the other calls are lent the same image, the same tables and the count. */
struct mm_loaded mm_load(const uint8_t *image, size_t image_len, uint8_t *insts, size_t insts_len, uint8_t *labels, size_t labels_len, uint8_t *machine,
                         size_t machine_len);

/* Runs the machine for at most limit steps. The cells dumped are at the front of dumps, each a number; what is behind them stays. With MM_BUFFER_FULL take the
 * cells out and run on; a buffer without room for a cell ends there again, with no step taken. */
struct mm_ran mm_run(const uint8_t *image, size_t image_len, const uint8_t *insts, size_t insts_len, const uint8_t *labels, size_t labels_len, uint64_t count,
                     uint8_t *machine, size_t machine_len, uint64_t limit, uint8_t *dumps, size_t dumps_len);

/* Writes the program out as an image, the appended HALT included. It takes the length of the image that it was loaded from, and one byte more exactly if HALT
 * was appended. What is written loads again, as the same program, unless that byte makes it longer than MM_IMAGE_MAX, and writing that gives the same bytes.
 * All this is proved, for every image that a load accepts; MM_ILL_RECORD is never answered then. Each instruction's bytes begin at the sum of the lengths of
 * those before it: 1; 9 with a cell or a number; 2 with a stream; 9 and the name with a name. That is proved of every table. */
struct mm_encoded mm_encode(const uint8_t *image, size_t image_len, const uint8_t *insts, size_t insts_len, uint64_t count, uint8_t *out, size_t out_len);

/* The room that mm_encode needs, without writing: the size that it then answers. MM_ILL_RECORD where mm_encode answers it; MM_NO_ROOM where the size passes
 * 2^64 - 1 bytes, which a loaded program's never does. Without asking: the image's length and one byte more is enough for every loaded program. With a count
 * of k it answers where instruction k begins, counted from 0. */
struct mm_encoded mm_encoded_size(const uint8_t *image, size_t image_len, const uint8_t *insts, size_t insts_len, uint64_t count);

/* The number at a place in a machine, a table or a dump buffer. */
static inline uint64_t mm_number_at(const uint8_t *bytes, size_t at) {
    uint64_t number;
    memcpy(&number, bytes + at, MM_NUMBER_SIZE);
    return number;
}

#ifdef __cplusplus
}
#endif

#endif

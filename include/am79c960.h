/*
 * The Am79C960 Ethernet card (PCnet-ISA) as a proved model, for programs in C99 and C++ on x86-64.
 *
 * The card has five acts: reset, register read, register write, frame arrival, transmit turn. Each is one function here.
 * The card's state is a block of 512 bytes. Begin with am79c960_reset, and hand the block to every later call.
 *
 * Who owns what. All slices are the caller's, and are lent for the length of a call: the block, the host memory, the
 * frame, the outgoing slice. Nothing is kept between calls and nothing is allocated, so the caller may move, copy, store
 * or free any of them between two calls. A block may be saved to a file and used in another process.
 *
 * What the caller has to see to. Each pointer has as many bytes behind it as its size says. No two slices of one call
 * overlap. Nothing else touches them during the call. Null is allowed where the size is 0, for every slice.
 *
 * Threads. Calls on different blocks may run at the same time in different threads, if they are not lent the same
 * memory. Two calls on one block must not run at the same time.
 *
 * Refusals. A call that can't be taken gets a number from 1 to 9 and changes no byte of any slice. Tests run in this
 * order: 9, 1, 2, 3, 4, 5, 7, 6, 8, each only where its input exists. No size or number is cut before it is tested.
 */
#ifndef AM79C960_H
#define AM79C960_H

#include <stdbool.h>
#include <stddef.h>
#include <stdint.h>

#ifdef __cplusplus
extern "C" {
#endif

/* The sizes of what is lent, in bytes. */
#define AM79C960_BLOCK_SIZE 512        /* the state block, exactly */
#define AM79C960_MEMORY_MOST 16777216  /* host memory, at most; 0 is allowed */
#define AM79C960_FRAME_MOST 4095       /* an arriving frame with its FCS, at most */
#define AM79C960_OUT_LEAST 4100        /* the outgoing slice, at least */

/* The offsets from the card's base, for am79c960_read and am79c960_write. Accesses are words of 16 bits. */
#define AM79C960_RDP 0x10    /* the register that RAP selects */
#define AM79C960_RAP 0x12    /* the number of that register, modulo 128 */
#define AM79C960_RESET 0x14  /* a read resets the card and gives 0, a write does nothing */

/* What a wire report says, for am79c960_turn. */
#define AM79C960_WIRE_SENT 0            /* sent at once */
#define AM79C960_WIRE_ONE_RETRY 1       /* sent after one retry */
#define AM79C960_WIRE_MORE_RETRIES 2    /* sent after several */
#define AM79C960_WIRE_RETRY_FAILURE 3   /* given up after sixteen */
#define AM79C960_WIRE_LATE_COLLISION 4  /* broken off */
#define AM79C960_WIRE_LOST_CARRIER 5    /* sent, but the carrier was lost */

/* The numbers of refused calls. 0 is no refusal. */
#define AM79C960_REFUSED_MEMORY 1      /* the memory has more than 16,777,216 bytes */
#define AM79C960_REFUSED_FRAME 2       /* the frame has more than 4,095 bytes */
#define AM79C960_REFUSED_EXTRA_BITS 3  /* there are more than 7 extra bits */
#define AM79C960_REFUSED_OUT 4         /* the outgoing slice has fewer than 4,100 bytes */
#define AM79C960_REFUSED_REPORT 5      /* the wire report is above 5 */
#define AM79C960_REFUSED_LOCKED 6      /* the register is locked, because STOP is clear */
#define AM79C960_REFUSED_REGISTER 7    /* there is no such offset or register */
#define AM79C960_REFUSED_READ_ONLY 8   /* the register only reads, and was written */
#define AM79C960_REFUSED_BLOCK 9       /* the block has not 512 bytes, its check is wrong, or it is no sound state's */

/* The words of an answer. 0 stands with a refusal. */
#define AM79C960_DONE 1        /* reset, read, write: done */
#define AM79C960_OFF 2         /* arrival: the receiver is off; turn: the transmitter is */
#define AM79C960_RUNT 3        /* arrival: under 64 bytes */
#define AM79C960_NOT_OURS 4    /* arrival: the address filter did not take it */
#define AM79C960_MISSED 5      /* arrival: the current slot was not the card's */
#define AM79C960_RECEIVED 6    /* arrival: whole in memory; its status says whether the FCS was right */
#define AM79C960_CUT 7         /* arrival: the slots ran out in mid-frame */
#define AM79C960_MEMORY 8      /* arrival, turn: an address was outside the memory, and the card stands still */
#define AM79C960_IDLE 9        /* turn: nothing to send */
#define AM79C960_UNDERFLOW 10  /* turn: the chain had no end or was too long; the transmitter is off */
#define AM79C960_FAILED 11     /* turn: the wire did not take the frame */
#define AM79C960_SENT 12       /* turn: the frame is in the outgoing slice */

/* What a call gives back besides the slices. A field that does not apply is 0. */
typedef struct am79c960_answer {
    uint8_t number;   /* a refusal's number, or 0 */
    uint8_t answer;   /* a word from above, or 0 with a refusal */
    uint16_t value;   /* what a read gives; 0 if it was refused, with 9 too */
    uint16_t length;  /* how many bytes AM79C960_SENT handed out, FCS counted */
    bool line;        /* the interrupt line after the call; low with 9 */
} am79c960_answer;

/* The entries of the archive. They are for the functions below: a slice must not be null here, even if it is empty. */
uint64_t am79c960_entry_reset(uint8_t *block, size_t size);
uint64_t am79c960_entry_read(uint8_t *block, size_t size, uint32_t offset);
uint64_t am79c960_entry_write(uint8_t *block, size_t size, uint8_t *memory, size_t memory_size, uint32_t offset,
                              uint32_t value);
uint64_t am79c960_entry_arrive(uint8_t *block, size_t size, uint8_t *memory, size_t memory_size, const uint8_t *frame,
                               size_t frame_size, uint32_t extra_bits);
uint64_t am79c960_entry_turn(uint8_t *block, size_t size, uint8_t *memory, size_t memory_size, uint8_t *out,
                             size_t out_size, uint32_t report, bool deferred, bool no_heartbeat);

/* Takes an entry's result apart. */
static inline am79c960_answer am79c960_unpack(uint64_t packed)
{
    am79c960_answer a;
    a.number = (uint8_t)packed;
    a.answer = (uint8_t)(packed >> 8);
    a.value = (uint16_t)(packed >> 16);
    a.length = (uint16_t)(packed >> 32);
    a.line = (packed >> 48 & 1) != 0;
    return a;
}

/* A fresh card, over any content of the block. Only the block's size is tested (9). */
static inline am79c960_answer am79c960_reset(uint8_t *block, size_t size)
{
    uint8_t none = 0;
    return am79c960_unpack(am79c960_entry_reset(size != 0 ? block : &none, size));
}

/* Reads a register. Refused with 9, 7 or 6, and the value is 0 then. A read at AM79C960_RESET resets the card. */
static inline am79c960_answer am79c960_read(uint8_t *block, size_t size, uint32_t offset)
{
    uint8_t none = 0;
    return am79c960_unpack(am79c960_entry_read(size != 0 ? block : &none, size, offset));
}

/* Writes the low 16 bits of a value to a register. Refused with 9, 1, 7, 6 or 8. The memory is only read. */
static inline am79c960_answer am79c960_write(uint8_t *block, size_t size, uint8_t *memory, size_t memory_size,
                                             uint32_t offset, uint32_t value)
{
    uint8_t none = 0, nothing = 0;
    return am79c960_unpack(am79c960_entry_write(size != 0 ? block : &none, size, memory_size != 0 ? memory : &nothing,
                                                memory_size, offset, value));
}

/*
 * A frame comes from the wire, with its FCS as its last four bytes and a count of bits beyond the last whole byte.
 * Refused with 9, 1, 2 or 3.
 */
static inline am79c960_answer am79c960_arrive(uint8_t *block, size_t size, uint8_t *memory, size_t memory_size,
                                              const uint8_t *frame, size_t frame_size, uint32_t extra_bits)
{
    uint8_t none = 0, nothing = 0;
    const uint8_t empty = 0;
    return am79c960_unpack(am79c960_entry_arrive(size != 0 ? block : &none, size, memory_size != 0 ? memory : &nothing,
                                                 memory_size, frame_size != 0 ? frame : &empty, frame_size,
                                                 extra_bits));
}

/*
 * The card may send one frame. The caller says beforehand how the wire would take it. A frame that is handed out fills
 * the outgoing slice from its start; no other byte of the slice changes. Refused with 9, 1, 4 or 5.
 */
static inline am79c960_answer am79c960_turn(uint8_t *block, size_t size, uint8_t *memory, size_t memory_size,
                                            uint8_t *out, size_t out_size, uint32_t report, bool deferred,
                                            bool no_heartbeat)
{
    uint8_t none = 0, nothing = 0, nowhere = 0;
    return am79c960_unpack(am79c960_entry_turn(size != 0 ? block : &none, size, memory_size != 0 ? memory : &nothing,
                                               memory_size, out_size != 0 ? out : &nowhere, out_size, report, deferred,
                                               no_heartbeat));
}

#ifdef __cplusplus
}
#endif

#endif

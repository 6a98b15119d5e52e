/*
 * How deep the stack gets in each entry. The entry runs on a stack of its own that was painted before; what is no longer
 * paint was used. The calls are long ones: an initialization, a frame over 128 slots, a chain over 128 slots, 127 slots that
 * are passed before one that is cut short. Prints a line for each and ends with a status other than 0 if one needs 4,096 bytes
 * or more.
 */
#include "am79c960.h"
#include <stdio.h>
#include <string.h>
#include <ucontext.h>

enum { ROOM = 1 << 18, MEMORY = 1 << 16, RX = 0x1000, TX = 0x2000, BUFFERS = 0x4000, SLOTS = 128, MOST = 4096 };
enum { PAINT = 0xA5 };

static _Alignas(64) uint8_t stack[ROOM];
static uint8_t block[AM79C960_BLOCK_SIZE], memory[MEMORY], frame[AM79C960_FRAME_MOST];
static ucontext_t here, there;
static uint64_t result;
static unsigned wrong;

/* The calls that are measured, and one that calls nothing. */
static void nothing(void) { result = 0; }
static void reset(void) { result = am79c960_entry_reset(block, sizeof block); }
static void read_word(void) { result = am79c960_entry_read(block, sizeof block, AM79C960_RDP); }
static void write_word(void) { result = am79c960_entry_write(block, sizeof block, memory, MEMORY, AM79C960_RDP, 0x43); }
static void arrive(void) { result = am79c960_entry_arrive(block, sizeof block, memory, MEMORY, frame, sizeof frame, 0); }
static uint8_t out[AM79C960_OUT_LEAST];
static void turn(void) { result = am79c960_entry_turn(block, sizeof block, memory, MEMORY, out, sizeof out, 0, 1, 1); }

/* Runs a function on the painted stack and counts the bytes from its top down to the deepest one that changed. */
static size_t used(void (*f)(void))
{
    memset(stack, PAINT, sizeof stack);
    getcontext(&there);
    there.uc_stack.ss_sp = stack;
    there.uc_stack.ss_size = sizeof stack;
    there.uc_link = &here;
    makecontext(&there, f, 0);
    swapcontext(&here, &there);
    size_t i = 0;
    while (i < sizeof stack && stack[i] == PAINT)
        i++;
    return sizeof stack - i;
}

/* Measures an entry, less what the caller itself needs, and compares its answer, so that the long way was gone. */
static void measure(const char *name, void (*f)(void), unsigned answer)
{
    size_t base = used(nothing), depth = used(f) - base;
    bool right = am79c960_unpack(result).number == 0 && am79c960_unpack(result).answer == answer && depth < MOST;
    printf("stack: %-6s %5zu bytes%s\n", name, depth, right ? "" : ", or another answer: wrong");
    wrong += !right;
}

/* Gives all slots of a ring to the card, with 32 bytes each. */
static void ring(uint32_t at, uint8_t first, uint8_t middle, uint8_t last)
{
    for (uint32_t i = 0; i < SLOTS; i++) {
        uint32_t buffer = BUFFERS + 32 * i;
        const uint8_t d[8] = { (uint8_t)buffer, (uint8_t)(buffer >> 8), 0, i == 0 ? first : i < SLOTS - 1 ? middle : last,
                               0xE0, 0xFF, 0, 0 };
        memcpy(memory + at + 8 * i, d, 8);
    }
}

/* Sets the card up by the measured calls themselves. */
int main(void)
{
    memory[1] = 0x80; /* MODE: every frame is taken */
    memory[17] = RX >> 8;
    memory[19] = 7 << 5;
    memory[21] = TX >> 8;
    memory[23] = 7 << 5;
    measure("reset", reset, AM79C960_DONE);
    measure("read", read_word, AM79C960_DONE);
    measure("write", write_word, AM79C960_DONE);
    ring(RX, 0x80, 0x80, 0x80);
    measure("arrive", arrive, AM79C960_RECEIVED);
    ring(TX, 0x82, 0x80, 0x81);
    measure("turn", turn, AM79C960_SENT);
    ring(TX, 0x80, 0x80, 0x82);
    measure("turn", turn, AM79C960_UNDERFLOW);
    return wrong != 0;
}

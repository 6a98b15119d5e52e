/*
 * Times arrivals through the C entries: frames of 1,518 bytes into 64 buffers of 1,536, each given back at once. A write to
 * RAP opens the block and closes it again and does nothing else, so its time stands for the block's two checks.
 * The one argument says on what it runs.
 */
#define _POSIX_C_SOURCE 199309L
#include "am79c960.h"
#include <stdio.h>
#include <string.h>
#include <time.h>

enum { MEMORY = 1 << 17, RX = 0x100, BUFFERS = 0x1000, SLOTS = 64, SIZE = 1536, FRAME = 1518, CALLS = 2000, RUNS = 15 };

static uint8_t block[AM79C960_BLOCK_SIZE], memory[MEMORY], frame[FRAME];
static unsigned slot, wrong;

/* Seconds. */
static double now(void)
{
    struct timespec t;
    clock_gettime(CLOCK_MONOTONIC, &t);
    return (double)t.tv_sec + 1e-9 * (double)t.tv_nsec;
}

/* A frame arrives, and its buffer is given back. */
static void arrive(void)
{
    am79c960_answer a = am79c960_arrive(block, sizeof block, memory, MEMORY, frame, FRAME, 0);
    uint8_t *d = memory + RX + 8 * slot;
    wrong += a.answer != AM79C960_RECEIVED || d[3] != 0x03 || d[6] != (FRAME & 255) || d[7] != FRAME >> 8;
    d[3] = 0x80;
    slot = (slot + 1) % SLOTS;
}

/* The block is opened and closed. */
static void write_rap(void)
{
    wrong += am79c960_write(block, sizeof block, memory, MEMORY, AM79C960_RAP, 0).answer != AM79C960_DONE;
}

/* The block is opened. */
static void read_rap(void)
{
    wrong += am79c960_read(block, sizeof block, AM79C960_RAP).answer != AM79C960_DONE;
}

/* Nanoseconds of one call, over many. */
static double time_of(void (*f)(void))
{
    double start = now();
    for (int i = 0; i < CALLS; i++)
        f();
    return (now() - start) / CALLS * 1e9;
}

/* The FCS of the frame, bit by bit, put at its end. */
static void finish(void)
{
    uint32_t r = 0xFFFFFFFF;
    for (int i = 0; i < FRAME - 4; i++)
        for (int bit = (r ^= frame[i], 0); bit < 8; bit++)
            r = r & 1 ? r >> 1 ^ 0xEDB88320 : r >> 1;
    for (int i = 0; i < 4; i++)
        frame[FRAME - 4 + i] = (uint8_t)(~r >> 8 * i);
}

/* Sets the card up, times in turns, and prints the best of each. */
int main(int count, char **arguments)
{
    for (int i = 0; i < FRAME; i++)
        frame[i] = (uint8_t)(i * 151);
    finish();
    memory[1] = 0x80; /* MODE: every frame is taken */
    memory[17] = RX >> 8;
    memory[19] = 6 << 5;
    for (uint32_t i = 0; i < SLOTS; i++) {
        uint32_t at = BUFFERS + SIZE * i;
        const uint8_t d[8] = { (uint8_t)at, (uint8_t)(at >> 8), (uint8_t)(at >> 16), 0x80, 0, 0xFA, 0, 0 };
        memcpy(memory + RX + 8 * i, d, 8);
    }
    am79c960_reset(block, sizeof block);
    am79c960_write(block, sizeof block, memory, MEMORY, AM79C960_RDP, 0x03);
    double a = 1e18, w = 1e18, r = 1e18; /* the best of some runs, in turns */
    for (int i = 0; i < RUNS; i++) {
        double t = time_of(arrive);
        a = t < a ? t : a;
        t = time_of(write_rap);
        w = t < w ? t : w;
        t = time_of(read_rap);
        r = t < r ? t : r;
    }
    const char *on = count > 1 ? arguments[1] : "an unnamed machine";
    printf("arrivals of %d bytes into %d buffers of %d; %s\n", FRAME, SLOTS, SIZE, on);
    printf("%8.0f ns a frame, %.0f frames a second\n", a, 1e9 / a);
    printf("%8.0f ns of them, %.0f in a hundred, for the block with its two checks (a write to RAP)\n", w, 100 * w / a);
    printf("%8.0f ns for a read of RAP\n", r);
    if (wrong)
        printf("%u calls have a wrong answer\n", wrong);
    return wrong != 0;
}

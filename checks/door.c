/*
 * The archive through the C header: every entry, every refusal number, null slices, sizes beyond 32 bits, and the cases of
 * document 01 that a register or a descriptor shows. Each lent slice ends at a page that can't be touched, so a read or a
 * write past its end stops the program. Prints one line and ends with a status other than 0 if a check is wrong.
 */
#define _DEFAULT_SOURCE
#include "am79c960.h"
#include <stdio.h>
#include <stdlib.h>
#include <string.h>
#include <sys/mman.h>
#include <unistd.h>

enum { MEMORY = 4096, OUT = 4100, RX = 0x40, TX = 0x80 };

static uint8_t *block, *memory, *out, *frame;
static unsigned checks, wrong;

/* Counts a check, and names it if it is wrong. */
static void check(bool right, int line, const char *what)
{
    checks++;
    if (!right && ++wrong <= 20)
        printf("door: line %d is wrong: %s\n", line, what);
}
#define CHECK(what) check((what), __LINE__, #what)

/* Bytes that end where a page begins that can't be touched. */
static uint8_t *guarded(size_t size)
{
    size_t page = (size_t)sysconf(_SC_PAGESIZE), room = (size + page - 1) / page * page;
    uint8_t *p = mmap(NULL, room + page, PROT_READ | PROT_WRITE, MAP_PRIVATE | MAP_ANONYMOUS, -1, 0);
    if (p == MAP_FAILED || mprotect(p + room, page, PROT_NONE) != 0)
        exit(2);
    return p + room - size;
}

/* Whether an answer has exactly these fields. */
static bool is(am79c960_answer a, int number, int answer, int value, int length, bool line)
{
    return a.number == number && a.answer == answer && a.value == value && a.length == length && a.line == line;
}

/* The calls of this file, on its own block and memory. */
static am79c960_answer rd(uint32_t offset) { return am79c960_read(block, 512, offset); }
static am79c960_answer wr(uint32_t offset, uint32_t v) { return am79c960_write(block, 512, memory, MEMORY, offset, v); }
static am79c960_answer set(uint32_t csr, uint32_t v) { wr(AM79C960_RAP, csr); return wr(AM79C960_RDP, v); }
static am79c960_answer show(uint32_t csr) { wr(AM79C960_RAP, csr); return rd(AM79C960_RDP); }
static am79c960_answer in(size_t size, uint32_t extra_bits)
{
    return am79c960_arrive(block, 512, memory, MEMORY, frame, size, extra_bits);
}

/* Puts eight bytes of a descriptor into memory. */
static void descriptor(uint32_t at, uint32_t buffer, uint32_t count, uint8_t status)
{
    const uint8_t d[8] = { (uint8_t)buffer, (uint8_t)(buffer >> 8), (uint8_t)(buffer >> 16), status,
                           (uint8_t)count, (uint8_t)(count >> 8), 0x5A, 0xA5 };
    memcpy(memory + at, d, 8);
}

/* The FCS of some bytes, bit by bit. */
static uint32_t fcs(const uint8_t *p, size_t n)
{
    uint32_t r = 0xFFFFFFFF;
    for (size_t i = 0; i < n; i++)
        for (int bit = (r ^= p[i], 0); bit < 8; bit++)
            r = r & 1 ? r >> 1 ^ 0xEDB88320 : r >> 1;
    return ~r;
}

/* Fills the frame for our address and puts its FCS at its end. It is written so that it ends at the guard. */
static void make(size_t size)
{
    frame = guarded(size);
    for (size_t i = 0; i < size; i++)
        frame[i] = (uint8_t)(i * 7 + size);
    memcpy(frame, "\2abcde", 6);
    uint32_t f = fcs(frame, size - 4);
    for (int i = 0; i < 4; i++)
        frame[size - 4 + i] = (uint8_t)(f >> 8 * i);
}

/* A card with two receive slots and two transmit slots, stopped and not yet initialized. */
static void fresh(void)
{
    memset(memory, 0, MEMORY);
    memcpy(memory + 2, "\2abcde", 6);
    memory[16] = RX; memory[19] = 1 << 5;
    memory[20] = TX; memory[23] = 1 << 5;
    CHECK(is(am79c960_reset(block, 512), 0, AM79C960_DONE, 0, 0, false));
}

/* The same, running, with interrupts on and no cause pending. */
static void running(void)
{
    fresh();
    CHECK(is(set(0, 0x0001), 0, AM79C960_DONE, 0, 0, false));
    CHECK(show(0).value == 0x0181);                                     /* case G */
    CHECK(is(set(0, 0x0142), 0, AM79C960_DONE, 0, 0, false));
    CHECK(show(0).value == 0x0073);                                     /* case H */
}

/* Reset, registers and initialization. */
static void registers(void)
{
    static const uint8_t fresh_block[512] = { 0x04, [508] = 0x52, 0x73, 0x68, 0xA7 };
    memset(block, 0xEE, 512);
    fresh();
    CHECK(!memcmp(block, fresh_block, 512));
    CHECK(is(show(0), 0, AM79C960_DONE, 0x0004, 0, false));
    CHECK(is(show(88), 0, AM79C960_DONE, 0x3003, 0, false));
    CHECK(is(rd(AM79C960_RAP), 0, AM79C960_DONE, 88, 0, false));
    CHECK(is(wr(AM79C960_RAP, 0xFFFF0083), 0, AM79C960_DONE, 0, 0, false));
    CHECK(rd(AM79C960_RAP).value == 3);
    CHECK(is(set(3, 0xFFFFFFFF), 0, AM79C960_DONE, 0, 0, false) && show(3).value == 0x5F00);
    CHECK(is(wr(AM79C960_RESET, 1), 0, AM79C960_DONE, 0, 0, false) && show(3).value == 0x5F00);
    CHECK(is(rd(AM79C960_RESET), 0, AM79C960_DONE, 0, 0, false) && show(3).value == 0);
    /* Case I: the initialization block outside. */
    CHECK(set(1, MEMORY).number == 0);
    CHECK(is(set(0, 0x0041), 0, AM79C960_DONE, 0, 0, true) && show(0).value == 0x88C1);
    running();
    CHECK(set(0, 4).number == 0 && show(72).value == 0xFFFE && show(76).value == 0xFFFE && show(24).value == RX);
}

/* Arrivals, cases J and K. */
static void arrivals(void)
{
    running();
    make(300);
    descriptor(RX, 0x200, 0xFFFF & -200, 0x80);
    descriptor(RX + 8, 0x400, 0xFFFF & -200, 0x80);
    CHECK(is(in(300, 0), 0, AM79C960_RECEIVED, 0, 0, true));
    CHECK(memory[RX + 3] == 0x02 && memory[RX + 11] == 0x01 && memory[RX + 14] == 0x2C && memory[RX + 15] == 0x01);
    CHECK(memory[RX + 6] == 0x5A && memory[RX + 7] == 0xA5);
    CHECK(!memcmp(memory + 0x200, frame, 200) && !memcmp(memory + 0x400, frame + 200, 100) && memory[0x464] == 0);
    CHECK(show(0).value == 0x04F3);
    descriptor(RX, 0x200, 0xFFFF & -200, 0x80);
    CHECK(is(in(300, 0), 0, AM79C960_CUT, 0, 0, true) && memory[RX + 3] == 0x46);
    CHECK(is(in(300, 0), 0, AM79C960_MISSED, 0, 0, true) && show(112).value == 1);
    running();
    descriptor(RX, 0x200, 0xFFFF & -400, 0x80);
    frame[299] ^= 1;
    CHECK(is(in(300, 0), 0, AM79C960_RECEIVED, 0, 0, true) && memory[RX + 3] == 0x4B);
    make(64);
    descriptor(RX + 8, MEMORY - 64, 0xFFFF & -64, 0x80);
    CHECK(is(in(64, 7), 0, AM79C960_RECEIVED, 0, 0, true) && memory[RX + 11] == 0x63);
    CHECK(!memcmp(memory + MEMORY - 64, frame, 64));
    CHECK(is(in(63, 0), 0, AM79C960_RUNT, 0, 0, true));
    frame[5] ^= 1;
    CHECK(is(in(64, 0), 0, AM79C960_NOT_OURS, 0, 0, true));
    frame[5] ^= 1;
    descriptor(RX, MEMORY - 63, 0xFFFF & -64, 0x80);
    CHECK(is(in(64, 0), 0, AM79C960_MEMORY, 0, 0, true) && memory[RX + 3] == 0x80);
    CHECK(is(in(64, 0), 0, AM79C960_OFF, 0, 0, true));
}

/* A turn on this file's block and memory. */
static am79c960_answer turn(uint32_t report, bool deferred, bool no_heartbeat)
{
    return am79c960_turn(block, 512, memory, MEMORY, out, OUT, report, deferred, no_heartbeat);
}

/* Turns, case L. */
static void turns(void)
{
    running();
    memset(out, 0xEE, OUT);
    CHECK(is(turn(0, false, false), 0, AM79C960_IDLE, 0, 0, false) && out[0] == 0xEE);
    descriptor(TX, 0x200, 0xFFFF & -100, 0x83);
    memset(memory + 0x200, 0x11, 100);
    CHECK(is(turn(1, true, true), 0, AM79C960_SENT, 0, 104, true) && memory[TX + 3] == 0x0F);
    CHECK(!memcmp(out, memory + 0x200, 100) && out[104] == 0xEE && memory[TX + 6] == 0 && memory[TX + 7] == 0);
    uint32_t f = fcs(out, 100);
    CHECK((out[100] | out[101] << 8) == (int)(f & 0xFFFF) && (out[102] | out[103] << 8) == (int)(f >> 16));
    CHECK((show(0).value & 0x2200) == 0x2200);
    descriptor(TX + 8, 0x200, 0xFFFF & -100, 0x83);
    CHECK(is(turn(3, true, true), 0, AM79C960_FAILED, 0, 0, true) && memory[TX + 11] == 0x43 && memory[TX + 15] == 0x04);
    descriptor(TX, 0x200, 0xFFFF & -100, 0x83);
    CHECK(is(turn(1, false, false), 0, AM79C960_SENT, 0, 104, true) && memory[TX + 3] == 0x0B); /* case L as it stands */
    descriptor(TX + 8, 0, 0, 0x83);
    CHECK(is(turn(0, false, false), 0, AM79C960_SENT, 0, 4100, true) && !memcmp(out, memory, TX));
    CHECK(show(0).value & 0x4000);
    descriptor(TX, 0x200, 0xFFFF & -100, 0x82);
    descriptor(TX + 8, 0x200, 0xFFFF & -100, 0x02);
    CHECK(is(turn(0, false, false), 0, AM79C960_UNDERFLOW, 0, 0, true) && memory[TX + 3] == 0x42 && memory[TX + 7] == 0xC0);
    CHECK(is(turn(0, false, false), 0, AM79C960_OFF, 0, 0, true));
    running();
    descriptor(TX, 0xFFFFFF, 0, 0x83);
    CHECK(is(turn(0, false, false), 0, AM79C960_MEMORY, 0, 0, true) && memory[TX + 3] == 0x83);
}

/* Every refusal: its number, nothing else, and every byte kept. Null with size 0 for every slice. */
static void refusals(void)
{
    uint8_t kept_block[512], kept_memory[MEMORY], kept_out[OUT];
    uint8_t *long_frame = guarded(4096), *short_block = guarded(511), *no_out = guarded(4099);
    running();
    make(64);
    memset(out, 0xEE, OUT);
    memset(short_block, 0xEE, 511);
    memset(no_out, 0xEE, 4099);
    set(0, 0x0040);
    descriptor(RX, 0x200, 0xFFFF & -100, 0x80);
    descriptor(TX, 0x200, 0xFFFF & -100, 0x83);
    memcpy(kept_memory, memory, MEMORY);
    memcpy(kept_out, out, OUT);
#define KEPT(no, call) (memcpy(kept_block, block, 512), CHECK(is((call), (no), 0, 0, 0, false)), \
    CHECK(!memcmp(kept_block, block, 512) && !memcmp(kept_memory, memory, MEMORY) && !memcmp(kept_out, out, OUT)))
    const size_t beyond = (size_t)1 << 32;
    KEPT(9, am79c960_reset(block, 511));
    KEPT(9, am79c960_reset(block, 513));
    KEPT(9, am79c960_reset(block, beyond + 512));
    KEPT(9, am79c960_reset(short_block, 511));
    KEPT(9, am79c960_reset(NULL, 0));
    KEPT(9, am79c960_read(NULL, 0, AM79C960_RESET));
    KEPT(9, am79c960_read(short_block, 511, AM79C960_RESET));
    KEPT(9, am79c960_write(NULL, 0, NULL, 0, AM79C960_RDP, 4));
    KEPT(9, am79c960_arrive(NULL, 0, NULL, 0, NULL, 0, 8));
    KEPT(9, am79c960_write(block, 512 + beyond, memory, AM79C960_MEMORY_MOST + 1, AM79C960_RDP, 4));
    KEPT(1, am79c960_write(block, 512, memory, AM79C960_MEMORY_MOST + 1, AM79C960_RAP, 5));
    KEPT(1, am79c960_write(block, 512, memory, beyond + MEMORY, 0x16, 5));
    KEPT(1, am79c960_arrive(block, 512, memory, AM79C960_MEMORY_MOST + 1, long_frame, 4096, 8));
    KEPT(2, am79c960_arrive(block, 512, memory, MEMORY, long_frame, 4096, 8));
    KEPT(2, am79c960_arrive(block, 512, memory, MEMORY, frame, beyond + 64, 0));
    KEPT(3, in(64, 8));
    KEPT(3, in(64, 256));
    KEPT(3, in(10, 0xFFFFFFFF));
    KEPT(7, rd(0x11));
    KEPT(7, rd(0x10010));
    KEPT(7, rd(0x16));
    KEPT(7, wr(0x15, 0));
    wr(AM79C960_RAP, 4);
    KEPT(7, rd(AM79C960_RDP));
    KEPT(7, wr(AM79C960_RDP, 0));
    wr(AM79C960_RAP, 8);
    KEPT(6, rd(AM79C960_RDP));
    KEPT(6, wr(AM79C960_RDP, 0));
    wr(AM79C960_RAP, 112);
    KEPT(8, wr(AM79C960_RDP, 0));
    KEPT(9, am79c960_turn(NULL, 0, NULL, 0, NULL, 0, 6, false, false));
    KEPT(1, am79c960_turn(block, 512, memory, AM79C960_MEMORY_MOST + 1, no_out, 4099, 6, false, false));
    KEPT(4, am79c960_turn(block, 512, memory, MEMORY, no_out, 4099, 6, false, false));
    KEPT(4, am79c960_turn(block, 512, memory, MEMORY, NULL, 0, 0, false, false));
    KEPT(5, am79c960_turn(block, 512, memory, MEMORY, out, OUT, 6, false, false));
    KEPT(5, am79c960_turn(block, 512, memory, MEMORY, out, OUT, 65536, false, false));
    for (int i = 0; i < 4099; i++)
        CHECK(no_out[i] == 0xEE);
    for (int i = 0; i < 511; i++)
        CHECK(short_block[i] == 0xEE);
    for (int bit = 0; bit < 4096; bit++) {
        block[bit / 8] ^= (uint8_t)(1 << bit % 8);
        KEPT(9, rd(AM79C960_RESET));
        block[bit / 8] ^= (uint8_t)(1 << bit % 8);
    }
    /* Null slices where the call is taken: no memory, no frame. */
    wr(AM79C960_RAP, 0);
    CHECK(is(am79c960_arrive(block, 512, NULL, 0, NULL, 0, 0), 0, AM79C960_RUNT, 0, 0, false));
    CHECK(is(am79c960_arrive(block, 512, NULL, 0, frame, 64, 0), 0, AM79C960_MEMORY, 0, 0, true));
    CHECK(is(am79c960_write(block, 512, NULL, 0, AM79C960_RDP, 4), 0, AM79C960_DONE, 0, 0, false));
    CHECK(is(am79c960_write(block, 512, NULL, 0, AM79C960_RDP, 0x41), 0, AM79C960_DONE, 0, 0, true));
    /* A refusal while the line is high says so; with 9 the line is low. */
    CHECK(is(rd(0x16), 7, 0, 0, 0, true));
    block[0] ^= 2;
    CHECK(is(rd(0x16), 9, 0, 0, 0, false));
    running();
    CHECK(is(am79c960_turn(block, 512, NULL, 0, out, OUT, 0, false, false), 0, AM79C960_MEMORY, 0, 0, true));
}

/* Runs all of them. */
int main(void)
{
    block = guarded(512);
    memory = guarded(MEMORY);
    out = guarded(OUT);
    registers();
    arrivals();
    turns();
    refusals();
    printf("door: %u checks, %u wrong\n", checks, wrong);
    return wrong != 0;
}

/* The shortest use of the card: one frame arrives in one buffer. */
#include "am79c960.h"
#include <stdio.h>

static uint8_t block[AM79C960_BLOCK_SIZE], memory[4096];

/* 60 bytes of zeros and their FCS. */
static const uint8_t frame[64] = { [60] = 0x08, 0x89, 0x12, 0x04 };

/* Writes one register. */
static void put(uint32_t rap, uint32_t value)
{
    am79c960_write(block, sizeof block, memory, sizeof memory, AM79C960_RAP, rap);
    am79c960_write(block, sizeof block, memory, sizeof memory, AM79C960_RDP, value);
}

/* Sets memory up, starts the card, and lets the frame arrive. */
int main(void)
{
    memory[1] = 0x80;    /* the initialization block is at 0: MODE 8000h takes every frame, */
    memory[16] = 0x20;   /* and the receive ring is at 20h, with one slot */
    memory[0x21] = 0x01; /* that slot's buffer is at 100h, */
    memory[0x23] = 0x80; /* the card owns it, */
    memory[0x25] = 0xF6; /* and it has 2,560 bytes: the count is F600h, modulo 4,096 */
    am79c960_reset(block, sizeof block);
    put(1, 0);           /* the initialization block's address, */
    put(2, 0);           /* low and high */
    put(0, 0x0043);      /* INIT, STRT, and interrupts on */
    am79c960_answer a = am79c960_arrive(block, sizeof block, memory, sizeof memory, frame, sizeof frame, 0);
    printf("answer %d, line %d, status %02x, %d bytes at 100h\n", a.answer, a.line, memory[0x23], memory[0x26]);
    return a.answer != AM79C960_RECEIVED;
}

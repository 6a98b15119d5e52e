/*
 * An example runtime. It plays the PC around the card: a host sends a file, the sector, as Ethernet frames; the card
 * receives them into the receive ring; a polling driver collects them and a loader writes the cell. The player's moves go out
 * through the transmit ring and tell the host how far the loader is, so what was missed or cut is sent again.
 * Usage: runtime [file]. Without a file it makes a sector of its own.
 */
#include "am79c960.h"
#include <stdio.h>
#include <stdlib.h>
#include <string.h>

/* Where things are in the PC's memory. A full frame needs three receive buffers. */
enum { INIT_BLOCK = 0, RX_RING = 0x20, RX_SLOTS = 16, TX_RING = 0xA0, TX_SLOTS = 4 };
enum { RX_BUFFERS = 0x1000, RX_SIZE = 512, TX_BUFFERS = 0x3000, TX_SIZE = 64, MEMORY = 0x4000 };

/* A frame: to, from, type (14 bytes), the piece's number (4), how many of its bytes are used (2), the piece, the FCS (4). */
enum { HEAD = 20, PIECE = 1494, FRAME = HEAD + PIECE + 4, SHORTEST = 60 };

/* Bits of CSR0 and of a descriptor's status. */
enum { CAUSES = 0x7F00, IDON = 0x0100, IENA = 0x0040, TDMD = 0x0008, STRT = 0x0002, INIT = 0x0001 };
enum { OWN = 0x80, ERR = 0x40, STP = 0x02, ENP = 0x01 };

static const uint8_t pc_address[6] = { 0x02, 0, 0, 0, 0, 0x01 }, host_address[6] = { 0x02, 0, 0, 0, 0, 0x02 };

static uint8_t block[AM79C960_BLOCK_SIZE], memory[MEMORY], out[AM79C960_OUT_LEAST];
#define CARD block, sizeof block
#define HOST memory, sizeof memory

static uint8_t *sector, *cell, *loaded; /* loaded: how often each piece was written */
static size_t sector_size, pieces;
static unsigned offered, received, missed, cut, dropped, again, moves_sent, moves_failed, moves_arrived, interrupts;

/* Little-endian numbers. */
static uint32_t get(const uint8_t *p, int n) { uint32_t v = 0; while (n-- > 0) v = v << 8 | p[n]; return v; }
static void put(uint8_t *p, int n, uint32_t v) { for (int i = 0; i < n; i++) p[i] = (uint8_t)(v >> 8 * i); }

/* Ends the program. */
static void stop(const char *why) { printf("runtime: %s\n", why); exit(1); }

/* The frame check sequence of some bytes, bit by bit. */
static uint32_t fcs(const uint8_t *p, size_t n)
{
    uint32_t r = 0xFFFFFFFF;
    for (size_t i = 0; i < n; i++)
        for (int bit = (r ^= p[i], 0); bit < 8; bit++)
            r = r & 1 ? r >> 1 ^ 0xEDB88320 : r >> 1;
    return ~r;
}

/* --- the PC's side: registers, interrupt, driver, loader --- */

/* Reads a register: its number goes to RAP, its value comes from RDP. */
static uint16_t read_register(uint32_t csr)
{
    am79c960_write(CARD, HOST, AM79C960_RAP, csr);
    return am79c960_read(CARD, AM79C960_RDP).value;
}

/* Writes a register. */
static am79c960_answer write_register(uint32_t csr, uint32_t value)
{
    am79c960_write(CARD, HOST, AM79C960_RAP, csr);
    return am79c960_write(CARD, HOST, AM79C960_RDP, value);
}

/* The interrupt handler: if the line is high it clears the causes. The work is left to the polling. */
static void interrupt(am79c960_answer a)
{
    if (!a.line)
        return;
    interrupts++;
    if (write_register(0, (read_register(0) & CAUSES) | IENA).line)
        stop("the line stays high");
}

/* Writes a descriptor. With OWN in its status the slot is the card's. */
static void descriptor(uint32_t at, uint32_t buffer, uint32_t size, uint8_t status)
{
    put(memory + at, 4, buffer | (uint32_t)status << 24);
    put(memory + at + 4, 4, 0x10000 - size);
}

/* Gives a receive slot to the card. */
static void give(int slot) { descriptor(RX_RING + 8 * slot, RX_BUFFERS + RX_SIZE * slot, RX_SIZE, OWN); }

/* Starts the card: the initialization block, the receive ring, then INIT and STRT. */
static void start(void)
{
    memcpy(memory + INIT_BLOCK + 2, pc_address, 6);     /* MODE and filter stay 0 */
    put(memory + INIT_BLOCK + 16, 4, RX_RING | 4u << 29); /* 2 to the power of 4 slots */
    put(memory + INIT_BLOCK + 20, 4, TX_RING | 2u << 29);
    for (int slot = 0; slot < RX_SLOTS; slot++)
        give(slot);
    am79c960_reset(CARD);
    write_register(1, INIT_BLOCK);
    write_register(2, 0);
    write_register(0, INIT);
    if (!(read_register(0) & IDON))
        stop("the card did not initialize");
    write_register(0, IDON | STRT | IENA);
}

/* The loader: a frame's piece goes to its place in the cell, once. */
static void load(const uint8_t *frame, size_t size)
{
    uint32_t piece = get(frame + 14, 4), used = get(frame + 18, 2);
    if (size < HEAD + 4 + used || piece >= pieces || (size_t)piece * PIECE + used > sector_size)
        dropped++;
    else if (loaded[piece])
        again++;
    else {
        loaded[piece]++;
        memcpy(cell + (size_t)piece * PIECE, frame + HEAD, used);
    }
}

/* The driver: collects what the card has released, slot by slot, and gives the slots back. */
static void poll(void)
{
    static uint8_t frame[RX_SLOTS * RX_SIZE];
    static size_t size;
    static int slot;
    for (uint8_t *d; d = memory + RX_RING + 8 * slot, !(d[3] & OWN); slot = (slot + 1) % RX_SLOTS) {
        if (d[3] & STP)
            size = 0;
        memcpy(frame + size, memory + RX_BUFFERS + RX_SIZE * slot, RX_SIZE);
        size += RX_SIZE;
        if (d[3] & ERR) /* a wrong FCS, or cut because the slots ran out */
            dropped++;
        else if (d[3] & ENP)
            load(frame, get(d + 6, 2));
        give(slot);
    }
}

/* The number of the first piece that the loader still wants. */
static uint32_t wanted(void)
{
    static uint32_t piece;
    while (piece < pieces && loaded[piece])
        piece++;
    return piece;
}

/* The player's move: a short frame for the host goes into the transmit ring. */
static void move(uint32_t number)
{
    static int slot;
    uint32_t at = TX_BUFFERS + TX_SIZE * slot;
    memcpy(memory + at, host_address, 6);
    memcpy(memory + at + 6, pc_address, 6);
    put(memory + at + 12, 2, 0xB588);
    put(memory + at + 14, 4, number);
    put(memory + at + 18, 4, wanted());
    if (memory[TX_RING + 8 * slot + 3] & OWN)
        stop("the transmit ring is full");
    descriptor(TX_RING + 8 * slot, at, SHORTEST, OWN | STP | ENP);
    slot = (slot + 1) % TX_SLOTS;
    interrupt(write_register(0, TDMD | IENA));
}

/* --- the host's side: the wire --- */

/* Sends one piece of the sector as a frame. */
static void offer(uint32_t piece)
{
    uint8_t frame[FRAME] = { 0 };
    size_t from = (size_t)piece * PIECE, used = sector_size - from < PIECE ? sector_size - from : PIECE;
    size_t size = HEAD + used < SHORTEST ? SHORTEST : HEAD + used;
    memcpy(frame, pc_address, 6);
    memcpy(frame + 6, host_address, 6);
    put(frame + 12, 2, 0xB588);
    put(frame + 14, 4, piece);
    put(frame + 18, 2, (uint32_t)used);
    memcpy(frame + HEAD, sector + from, used);
    put(frame + size, 4, fcs(frame, size));
    am79c960_answer a = am79c960_arrive(CARD, HOST, frame, size + 4, 0);
    offered++;
    received += a.answer == AM79C960_RECEIVED;
    missed += a.answer == AM79C960_MISSED;
    cut += a.answer == AM79C960_CUT;
    interrupt(a);
}

/* Gives the card its turns until it has nothing to send. A move that arrives says which piece is wanted next. */
static uint32_t listen(uint32_t next)
{
    static const uint32_t wire[5] = { AM79C960_WIRE_SENT, AM79C960_WIRE_ONE_RETRY, AM79C960_WIRE_SENT,
                                      AM79C960_WIRE_RETRY_FAILURE, AM79C960_WIRE_MORE_RETRIES };
    static unsigned turns;
    for (;;) {
        am79c960_answer a = am79c960_turn(CARD, HOST, out, sizeof out, wire[turns++ % 5], false, false);
        interrupt(a);
        moves_sent += a.answer == AM79C960_SENT;
        moves_failed += a.answer == AM79C960_FAILED;
        if (a.answer != AM79C960_SENT && a.answer != AM79C960_FAILED)
            return next; /* idle */
        if (a.length == SHORTEST + 4 && get(out + SHORTEST, 4) == fcs(out, SHORTEST)) {
            moves_arrived++;
            next = get(out + 18, 4);
        }
    }
}

/* Calls that the card must refuse, each with its number, the block being kept. Gives back how many it did. */
static unsigned refusals(void)
{
    static uint8_t huge[AM79C960_MEMORY_MOST + 1], kept[AM79C960_BLOCK_SIZE];
    unsigned right = 0;
#define TRY(no, call) (memcpy(kept, CARD), right += (call).number == (no) && !memcmp(kept, CARD))
    TRY(1, am79c960_write(CARD, huge, sizeof huge, AM79C960_RAP, 5));
    TRY(2, am79c960_arrive(CARD, HOST, huge, AM79C960_FRAME_MOST + 1, 0));
    TRY(3, am79c960_arrive(CARD, HOST, huge, 64, 8));
    TRY(4, am79c960_turn(CARD, HOST, out, sizeof out - 1, 0, false, false));
    TRY(5, am79c960_turn(CARD, HOST, out, sizeof out, 6, false, false));
    am79c960_write(CARD, HOST, AM79C960_RAP, 1); /* CSR1 is locked while the card runs */
    TRY(6, am79c960_read(CARD, AM79C960_RDP));
    TRY(7, am79c960_read(CARD, 0x16));
    am79c960_write(CARD, HOST, AM79C960_RAP, 88); /* CSR88, the chip's number, only reads */
    TRY(8, am79c960_write(CARD, HOST, AM79C960_RDP, 0));
    block[300] ^= 1; /* a spoilt block */
    TRY(9, am79c960_read(CARD, AM79C960_RAP));
    block[300] ^= 1;
    return right;
}

/* Reads the sector from a file, or makes one. */
static void find_sector(const char *name)
{
    FILE *file = name ? fopen(name, "rb") : NULL;
    long size = 100000;
    if (name && (!file || fseek(file, 0, SEEK_END) != 0 || (size = ftell(file)) < 0 || size > 1 << 30))
        stop("the file can't be read, or it is too large");
    sector_size = (size_t)size;
    pieces = (sector_size + PIECE - 1) / PIECE;
    sector = malloc(sector_size + 1);
    cell = calloc(sector_size + 1, 1);
    loaded = calloc(pieces + 1, 1);
    if (!sector || !cell || !loaded || (file && (rewind(file), fread(sector, 1, sector_size, file) != sector_size)))
        stop("the sector can't be loaded");
    for (uint32_t i = 0, r = 1; !file && i < sector_size; i++, r = r * 1664525 + 1013904223)
        sector[i] = (uint8_t)(r >> 24);
    if (file)
        fclose(file);
}

/* Streams the sector, tries the refusals, prints what happened and compares. */
int main(int count, char **arguments)
{
    find_sector(count > 1 ? arguments[1] : NULL);
    start();
    for (uint32_t next = 0, round = 0; next < pieces; round++) {
        if (round > 4 * pieces + 100)
            stop("the sector does not get through");
        for (uint32_t i = 0; i <= round % 8 && next + i < pieces; i++) /* up to eight at once, and five fit into the ring */
            offer(next + i);
        poll();
        move(round);
        next = listen(next);
    }
    unsigned counted = read_register(112), refused = refusals();
    printf("sector: %zu bytes in %zu pieces\n", sector_size, pieces);
    printf("frames: %u offered, %u received, %u missed (CSR112 has %u), %u cut\n", offered, received, missed, counted, cut);
    printf("driver: %u frames dropped, %u pieces already there\n", dropped, again);
    printf("moves: %u sent, %u failed, %u arrived at the host\n", moves_sent, moves_failed, moves_arrived);
    printf("interrupts: %u\n", interrupts);
    printf("refusals: 9 tried, %u with their number and nothing changed\n", refused);
    size_t at = 0, piece = 0;
    while (at < sector_size && cell[at] == sector[at])
        at++;
    while (piece < pieces && loaded[piece] == 1)
        piece++;
    if (at < sector_size)
        printf("cell: byte %zu is %02x, and the sector has %02x there\n", at, cell[at], sector[at]);
    else if (piece < pieces)
        printf("cell: piece %zu was written %u times\n", piece, loaded[piece]);
    else
        printf("cell: equal to the sector, byte for byte, each piece written once\n");
    return at < sector_size || piece < pieces || refused != 9 || counted != missed % 65536 || moves_arrived != moves_sent
        || dropped != cut || offered != received + missed + cut;
}

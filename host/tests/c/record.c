/*
 * Records on a small disc through the C header: begin, writes, commits, a
 * closed packet, and then what mount, read, look back, time of and the roles show
 * of it; records a run longer than a block on another one and views it; closes the
 * session of a larger one; and saves more numbers than one sector holds. Exits 0 if
 * every answer is right, and names the first that is not.
 */
#include <stdio.h>
#include <stdlib.h>
#include <string.h>

#include "station.h"

#define SECTORS 31

static uint8_t image[SECTORS * STATION_SECTOR];
static uint8_t kinds[SECTORS];
static uint8_t roles[SECTORS];
static uint8_t ledger[STATION_LEDGER];
static uint8_t block[STATION_SECTOR];
static uint8_t told[STATION_TIME];

/* 00:30 on 1 January 1970, by a clock 60 minutes ahead of UTC. */
static const uint8_t half_past[STATION_STAMP] = {60, 0x10, 0xB2, 0x07, 1, 1, 0, 30};

/* The same without a zone, and in a month that no year has. */
static const uint8_t zoneless[STATION_STAMP] = {0x01, 0x18, 0xB2, 0x07, 1, 1, 0, 30};
static const uint8_t no_month[STATION_STAMP] = {60, 0x10, 0xB2, 0x07, 13, 1, 0, 30};

/* The medium, and how many of its sectors are burned. */
static uint8_t burned_image[SECTORS * STATION_SECTOR];
static uint8_t burned_kinds[SECTORS];
static size_t burned;

/* A disc with room for a run, its entry and a save. */
#define RUN_SECTORS 20

static uint8_t run_image[RUN_SECTORS * STATION_SECTOR];
static uint8_t run_kinds[RUN_SECTORS];
static uint8_t run_roles[RUN_SECTORS];

/* The run, which fills one block and 2,000 bytes of the next, and what is viewed
 * of it. */
#define RUN_LENGTH (STATION_SECTOR + 2000)

static uint8_t run[2 * STATION_SECTOR];
static uint8_t viewed[STATION_MOST_VIEWED + 1];

/* A disc with room for links and a closing behind its first block. */
#define CLOSED_SECTORS 265

static uint8_t closed_image[CLOSED_SECTORS * STATION_SECTOR];
static uint8_t closed_kinds[CLOSED_SECTORS];
static uint8_t closed_roles[CLOSED_SECTORS];

/* So many numbers that their table lies in two sectors of its own, and a disc with
 * room for two saves of them. */
#define NUMBERS 512
#define LARGE_SECTORS 540

static uint8_t large_image[LARGE_SECTORS * STATION_SECTOR];
static uint8_t large_kinds[LARGE_SECTORS];
static uint8_t large_roles[LARGE_SECTORS];

#define LEDGER ledger, sizeof ledger
#define DISC image, sizeof image, kinds, sizeof kinds
#define RUN_DISC run_image, sizeof run_image, run_kinds, sizeof run_kinds
#define CLOSED_DISC closed_image, sizeof closed_image, closed_kinds, sizeof closed_kinds
#define LARGE_DISC large_image, sizeof large_image, large_kinds, sizeof large_kinds

/* What a call is lent that alters disc or ledger. */
#define LENT DISC, roles, sizeof roles, LEDGER
#define RUN_LENT RUN_DISC, run_roles, sizeof run_roles, LEDGER
#define CLOSED_LENT CLOSED_DISC, closed_roles, sizeof closed_roles, LEDGER
#define LARGE_LENT LARGE_DISC, large_roles, sizeof large_roles, LEDGER

static void expect(const char *call, uint64_t answer, uint32_t outcome, uint32_t second)
{
    if (STATION_OUTCOME(answer) == outcome && STATION_SECOND(answer) == second)
        return;
    printf("%s: outcome %lu, second number %lu\n", call,
           (unsigned long)STATION_OUTCOME(answer), (unsigned long)STATION_SECOND(answer));
    exit(1);
}

static void hold(const char *what, int holds)
{
    if (holds)
        return;
    printf("%s does not hold\n", what);
    exit(1);
}

static uint64_t write_number(uint32_t v, int byte)
{
    memset(block, byte, sizeof block);
    return station_write_roles(LENT, v, block, sizeof block);
}

static uint64_t read_number(uint32_t v)
{
    memset(block, 0, sizeof block);
    return station_read(DISC, LEDGER, v, block, sizeof block);
}

static uint64_t commit_at(const uint8_t *stamp)
{
    return station_commit_at_roles(LENT, stamp, STATION_STAMP);
}

static uint64_t time_of(uint32_t k)
{
    memset(told, 0xC7, sizeof told);
    return station_time_of(DISC, LEDGER, k, told, sizeof told);
}

static uint32_t number(const uint8_t *bytes)
{
    return (uint32_t)bytes[0] | (uint32_t)bytes[1] << 8 | (uint32_t)bytes[2] << 16 |
           (uint32_t)bytes[3] << 24;
}

static uint32_t entry(size_t at)
{
    return number(ledger + 4 * at);
}

/* Burns what was recorded since the last time, in ascending order: whenever this
 * program stops, the medium holds what a power cut may leave. */
static void burn(void)
{
    for (; burned < SECTORS && kinds[burned] != 0; burned++) {
        size_t start = burned * STATION_SECTOR;
        if (kinds[burned] == 1)
            memcpy(burned_image + start, image + start, STATION_SECTOR);
        burned_kinds[burned] = kinds[burned];
    }
}

/* The disc of 31 of document 01's listing, burned after each call. */
static void record(void)
{
    expect("begin", station_begin_roles(LENT), STATION_DONE, 0);
    expect("write 1 at size 0", write_number(1, 0x11), STATION_ABOVE_SIZE, 0);
    expect("write 4,086 at size 0", write_number(4086, 0x11), STATION_ABOVE_SIZE, 0);
    expect("write 4,087 at size 0", write_number(4087, 0x11), STATION_ABOVE_LIMIT, 0);
    expect("write 0", write_number(0, 0x11), STATION_DONE, 0);
    burn();
    expect("commit", station_commit_roles(LENT), STATION_DONE, 1);
    burn();
    hold("burned as far as recorded", burned == 2);
    expect("write 1", write_number(1, 0x22), STATION_DONE, 2);
    burn();
    expect("release 0", station_release_roles(LENT, 0), STATION_DONE, 0);
    expect("release 0 again", station_release_roles(LENT, 0), STATION_NOT_IN_USE, 0);
    expect("commit at no month", commit_at(no_month), STATION_BAD_TIMESTAMP, 0);
    expect("commit at half past", commit_at(half_past), STATION_DONE, 3);
    burn();
    expect("close packet", station_close_packet_roles(LENT), STATION_DONE, 0);
    expect("commit without a zone", commit_at(zoneless), STATION_DONE, 11);
    burn();
    hold("seven links", memcmp(kinds, "\1\1\1\1\2\2\2\2\2\2\2\1\0", 13) == 0);
}

/* How many sectors have the role. */
static size_t count(const uint8_t *lent, size_t sectors, enum station_role role)
{
    size_t found = 0;

    for (size_t at = 0; at < sectors; at++)
        found += lent[at] == role;
    return found;
}

/* Where the space of document 01's disc went: number 0 was released. */
static void tell_the_space(void)
{
    hold("one in use", count(roles, SECTORS, STATION_ROLE_IN_USE) == 1);
    hold("one superseded", count(roles, SECTORS, STATION_ROLE_SUPERSEDED) == 1);
    hold("three tables", count(roles, SECTORS, STATION_ROLE_TABLE) == 3);
    hold("seven links by role", count(roles, SECTORS, STATION_ROLE_LINK) == 7);
    hold("the rest blank", count(roles, SECTORS, STATION_ROLE_BLANK) == SECTORS - 12);
    hold("0 was superseded", roles[0] == STATION_ROLE_SUPERSEDED);
    hold("1 is in use", roles[2] == STATION_ROLE_IN_USE);
}

/* The working buffers are gone: what follows is read from the medium. */
static void take_the_burned_disc(void)
{
    hold("all is burned", memcmp(burned_kinds, kinds, sizeof kinds) == 0);
    memcpy(image, burned_image, sizeof image);
    memcpy(kinds, burned_kinds, sizeof kinds);
}

static void mount_and_read(void)
{
    memset(ledger, 0xA5, sizeof ledger);
    memset(roles, 0xA5, sizeof roles);
    expect("begin on a table", station_begin_roles(LENT), STATION_VAT_EXISTS, 0);
    expect("mount", station_mount_roles(LENT), STATION_DONE, 1);
    hold("size 2", entry(STATION_LIMIT) == 2);
    hold("0 is unused", entry(0) == STATION_UNUSED);
    hold("1 is block 2", entry(1) == 2);
    hold("last table 11", entry(STATION_LIMIT + 2) == 11);
    expect("read 0", read_number(0), STATION_NOT_IN_USE, 0);
    expect("read 1", read_number(1), STATION_DONE, 0);
    hold("1 reads 22", block[0] == 0x22 && block[STATION_SECTOR - 1] == 0x22);
}

static void look_back(void)
{
    expect("look back 0", station_look_back_roles(LENT, 0), STATION_DONE, 11);
    expect("look back 1", station_look_back_roles(LENT, 1), STATION_DONE, 3);
    expect("look back 2", station_look_back_roles(LENT, 2), STATION_DONE, 1);
    expect("read 0", read_number(0), STATION_DONE, 0);
    hold("0 reads 11", block[0] == 0x11 && block[STATION_SECTOR - 1] == 0x11);
    expect("commit while looking", station_commit_roles(LENT), STATION_READ_ONLY, 0);
    expect("look back 3", station_look_back_roles(LENT, 3), STATION_CHAIN_ENDED, 0);
}

static void tell_the_times(void)
{
    memset(ledger, 0xA5, sizeof ledger);
    expect("time of 0", time_of(0), STATION_DONE, 0);
    hold("30 minutes, marked", number(told) == 30 && number(told + 4) == 1);
    expect("time of 1", time_of(1), STATION_DONE, 0);
    hold("-30 minutes, not marked", (int32_t)number(told) == -30 && number(told + 4) == 0);
    expect("time of a plain commit", time_of(2), STATION_BAD_TIMESTAMP, 0);
    hold("a refusal leaves the answer", number(told) == 0xC7C7C7C7u);
    expect("time of 3", time_of(3), STATION_CHAIN_ENDED, 0);
}

static void lend_wrongly(void)
{
    uint64_t short_image =
        station_mount_roles(image, sizeof image - 1, kinds, sizeof kinds, roles, sizeof roles,
                            LEDGER);
    uint64_t short_roles = station_mount_roles(DISC, roles, sizeof roles - 1, LEDGER);
    uint64_t short_ledger =
        station_mount_roles(DISC, roles, sizeof roles, ledger, sizeof ledger - 1);
    expect("an image too short", short_image, STATION_DISC_SIZE, 0);
    expect("roles too short", short_roles, STATION_LENT_LENGTH, 0);
    expect("a ledger too short", short_ledger, STATION_LENT_LENGTH, 0);
    expect("a stamp too short", station_commit_at_roles(LENT, half_past, 11), STATION_LENT_LENGTH, 0);
    expect("an answer too short", station_time_of(DISC, LEDGER, 0, told, 7), STATION_LENT_LENGTH, 0);
    kinds[30] = 4;
    expect("a kind above 3", station_mount_roles(LENT), STATION_DISC_UNSOUND, 0);
    kinds[30] = 0;
}

static void put(uint8_t *bytes, uint32_t value, size_t count)
{
    for (; count > 0; count--, value >>= 8)
        *bytes++ = (uint8_t)value;
}

/* Polynomial hex 1021, start 0, high bit first. */
static uint32_t crc(const uint8_t *bytes, size_t count)
{
    uint32_t sum = 0;

    for (size_t at = 0; at < 8 * count; at++) {
        uint32_t bit = (uint32_t)bytes[at / 8] >> (7 - at % 8) & 1;
        sum = (sum << 1 & 0xFFFF) ^ ((sum >> 15 ^ bit) * 0x1021);
    }
    return sum;
}

/* The entry, at a block, of a run in one extent. */
static void make_entry(uint8_t *entry, uint32_t at, uint32_t length, uint32_t first)
{
    memset(entry, 0, STATION_SECTOR);
    put(entry, 261, 2);
    put(entry + 2, 2, 2);
    put(entry + 10, 160 + 8, 2);
    put(entry + 12, at, 4);
    put(entry + 20, 4, 2);
    put(entry + 27, 5, 1);
    put(entry + 56, length, 4);
    put(entry + 172, 8, 4);
    put(entry + 176, length, 4);
    put(entry + 180, first, 4);
    put(entry + 8, crc(entry + 16, 160 + 8), 2);
    for (size_t place = 0; place < 16; place++)
        entry[4] = (uint8_t)(entry[4] + (place == 4 ? 0 : entry[place]));
}

static uint64_t view(uint32_t v, uint64_t offset, size_t length)
{
    memset(viewed, 0xC7, sizeof viewed);
    return station_view(RUN_DISC, LEDGER, v, offset, viewed, length);
}

/* Two blocks without a number, the entry as number 0, and a plain block as 1. */
static void record_a_run(void)
{
    for (size_t place = 0; place < RUN_LENGTH; place++)
        run[place] = (uint8_t)(place % 251);
    expect("begin", station_begin_roles(RUN_LENT), STATION_DONE, 0);
    expect("write unnumbered", station_write_unnumbered_roles(RUN_LENT, run, STATION_SECTOR),
           STATION_DONE, 0);
    expect("write unnumbered again",
           station_write_unnumbered_roles(RUN_LENT, run + STATION_SECTOR, STATION_SECTOR),
           STATION_DONE, 1);
    hold("no number", entry(STATION_LIMIT) == 0);
    hold("both without one", count(run_roles, RUN_SECTORS, STATION_ROLE_WITHOUT_NUMBER) == 2);
    make_entry(block, 2, RUN_LENGTH, 0);
    expect("write the entry", station_write_roles(RUN_LENT, 0, block, sizeof block), STATION_DONE, 2);
    expect("write 1", station_write_roles(RUN_LENT, 1, run, STATION_SECTOR), STATION_DONE, 3);
    expect("no room for more", station_write_unnumbered_roles(RUN_LENT, run, STATION_SECTOR),
           STATION_NO_ROOM, 0);
    expect("commit", station_commit_roles(RUN_LENT), STATION_DONE, 4);
}

static void view_the_run(void)
{
    memset(ledger, 0xA5, sizeof ledger);
    expect("mount", station_mount_roles(RUN_LENT), STATION_DONE, 1);
    expect("view all", view(0, 0, STATION_MOST_VIEWED), STATION_DONE, RUN_LENGTH);
    hold("the whole run", memcmp(viewed, run, RUN_LENGTH) == 0);
    hold("bytes behind it stay", viewed[RUN_LENGTH] == 0xC7);
    expect("view a part", view(0, STATION_SECTOR - 1, 2), STATION_DONE, 2);
    hold("over the border", memcmp(viewed, run + STATION_SECTOR - 1, 2) == 0);
    expect("view at the end", view(0, RUN_LENGTH, 1), STATION_DONE, 0);
    expect("view beyond the end", view(0, RUN_LENGTH + 1, 1), STATION_BEYOND_THE_RUN, 0);
    expect("view far beyond it", view(0, (uint64_t)1 << 32, 1), STATION_BEYOND_THE_RUN, 0);
    expect("view a plain block", view(1, 0, 1), STATION_NOT_A_RUN, 0);
    expect("view what is not there", view(2, 0, 1), STATION_NOT_IN_USE, 0);
    expect("a buffer too long", view(0, 0, sizeof viewed), STATION_LENT_LENGTH, 0);
}

/* The start exceeds 400,000, then not; the pointer's tag and extents. */
static void close_the_session(void)
{
    const uint8_t *pointer = closed_image + 8 * STATION_SECTOR;

    expect("close without room", station_close_session_roles(LENT, 1, 2, 3, 4, 257),
           STATION_NO_ROOM, 0);
    expect("begin", station_begin_roles(CLOSED_LENT), STATION_DONE, 0);
    expect("write 0", station_write_roles(CLOSED_LENT, 0, block, sizeof block), STATION_DONE, 0);
    expect("close packet", station_close_packet_roles(CLOSED_LENT), STATION_DONE, 0);
    expect("close from 400,001", station_close_session_roles(CLOSED_LENT, 1, 2, 3, 4, 400001),
           STATION_PARTITION_START, 0);
    expect("close", station_close_session_roles(CLOSED_LENT, 1, 2, 3, 4, 257), STATION_DONE, 264);
    hold("256 sectors without a number",
         count(closed_roles, CLOSED_SECTORS, STATION_ROLE_WITHOUT_NUMBER) == 256);
    hold("identifier 2, version 2", number(pointer) == 0x00020002u);
    hold("location 257 + 8", number(pointer + 12) == 265);
    hold("main extent", number(pointer + 16) == 1 && number(pointer + 20) == 2);
    hold("reserve extent", number(pointer + 24) == 3 && number(pointer + 28) == 4);
    expect("mount", station_mount_roles(CLOSED_LENT), STATION_DONE, 1);
    expect("commit on a closed disc", station_commit_roles(CLOSED_LENT), STATION_SESSION_CLOSED, 0);
}

/* The table sector at a block names two sectors, of 2,048 and of 36 bytes. */
static void named(const char *what, uint32_t at, uint32_t first, uint32_t last)
{
    const uint8_t *sector = large_image + (size_t)at * STATION_SECTOR;

    hold(what, sector[34] == 0 && number(sector + 64) == 2 && number(sector + 172) == 16 &&
                   number(sector + 176) == STATION_SECTOR && number(sector + 180) == first &&
                   number(sector + 184) == 36 && number(sector + 188) == last);
}

/* A number a block, and two saves: of the second only what has changed is recorded,
 * which is the sector with the block of the save before. */
static void save_many_numbers(void)
{
    expect("begin", station_begin_roles(LARGE_LENT), STATION_DONE, 0);
    for (uint32_t v = 0; v < NUMBERS; v++) {
        memset(block, (int)(v % 251), sizeof block);
        expect("write", station_write_roles(LARGE_LENT, v, block, sizeof block), STATION_DONE, v);
    }
    expect("commit", station_commit_roles(LARGE_LENT), STATION_DONE, NUMBERS + 2);
    named("both recorded", NUMBERS + 2, NUMBERS, NUMBERS + 1);
    expect("commit again", station_commit_roles(LARGE_LENT), STATION_DONE, NUMBERS + 4);
    named("the first named again", NUMBERS + 4, NUMBERS, NUMBERS + 3);
    hold("five sectors of tables", count(large_roles, LARGE_SECTORS, STATION_ROLE_TABLE) == 5);
    memset(ledger, 0xA5, sizeof ledger);
    expect("mount", station_mount_roles(LARGE_LENT), STATION_DONE, 1);
    hold("all numbers", entry(STATION_LIMIT) == NUMBERS && entry(NUMBERS - 1) == NUMBERS - 1);
    expect("read", station_read(LARGE_DISC, LEDGER, 500, block, sizeof block), STATION_DONE, 0);
    hold("500 reads 500 modulo 251", block[0] == 500 % 251);
}

int main(void)
{
    record();
    tell_the_space();
    take_the_burned_disc();
    mount_and_read();
    tell_the_space();
    look_back();
    tell_the_times();
    record_a_run();
    view_the_run();
    lend_wrongly();
    mount_and_read();
    close_the_session();
    save_many_numbers();
    puts("recorded, mounted, read, looked back, told the times and the space, viewed a run, closed"
         " and saved many numbers");
    return 0;
}

/*
 * The recording core of a disc station: a write-once sector log on CD-R.
 *
 * Link libstation.a. The functions allocate nothing, keep nothing between two
 * calls and run on a stack of 256 KiB.
 *
 * Every call is lent a disc and a ledger, and the ten that alter disc or ledger
 * the roles too, each buffer as a pointer and its length in bytes. The pointer
 * points at that many bytes, also where there are none, and is not null; one that
 * the call may change overlaps no other. Apart from that any lengths and any
 * contents may be lent: they are tested.
 *
 *   image   2048 bytes a sector. A disc has 1 to 360,000 sectors; a block
 *           number counts from 0.
 *   kinds   one byte a sector: 0 blank, 1 data, 2 link, 3 unreadable. All
 *           sectors that are not blank form a beginning of the disc; their
 *           count is called recorded.
 *   roles   one byte a sector, as many as kinds: what the sector is there for, 0
 *           to 6, as enum station_role names them. Begin, mount and look back
 *           make all of them anew and read none. Every other call changes those
 *           of the sectors that it records, and of the one that its number named
 *           before: write and release read its role, and if that is in use and
 *           no number names it any more, it is superseded. The roles are right if
 *           disc, roles and ledger come as the call before left them. A cut loses
 *           them, as it loses the ledger.
 *   ledger  16,364 bytes: 4,087 map entries, then size, recorded, last table and
 *           mode, each 32 bits, little-endian. Unused map entries, all entries
 *           from size on, and a missing last table are hex FFFFFFFF. Mode is
 *           0 (no packet open), 1 (packet open) or 2 (looking only).
 *   block   2048 bytes.
 *   stamp   12 bytes, a timestamp of ECMA-167 1/7.3, little-endian: 16 bits with
 *           the type in the high 4 and the zone in the low 12; the year (16
 *           bits); month, day, hour, minute, second, centiseconds, hundreds of
 *           microseconds and microseconds (8 bits each). Its limits: type 1;
 *           year 1970 to 2099; a real date; hours at most 23, minutes and
 *           seconds 59, the three fractions 99; the zone, a signed number of
 *           minutes that the clock is ahead of UTC, -1440 to 1440, or -2047 for
 *           not given.
 *   answer  8 bytes, little-endian: whole minutes from 1 January 1970 UTC, a
 *           signed number of 32 bits, and then 1 if the zone was not given, or
 *           else 0 (32 bits).
 *   buffer  at most 65,536 bytes, also none.
 *
 * The table of a save with up to 458 numbers stands in its table sector. A larger
 * one lies in 1 to 8 sectors of its own, which the table sector names; they are
 * recorded before it, but for those whose bytes are the same at their place in the
 * table named as previous, which are named again. A table sector of another deck
 * may name any sectors of kind 1 below it, also for a small table.
 *
 * A disc is closed exactly if its last recorded sector is a table sector, the
 * 256 before it have kind 1, and the first of these has tag identifier 2, a right
 * tag checksum and a tag location from its block to its block + 400,000. Nothing
 * more is recorded on it.
 *
 * A run longer than a block lies in blocks without a number; a numbered block is
 * its entry, an ordinary file entry (ECMA-167 4/14.9) that names them. A block b
 * is a run's entry exactly if all of this holds, with numbers little-endian:
 *
 *   0       tag identifier 261, descriptor version 2 (16 bits each); tag checksum,
 *           the sum of bytes 0 to 3 and 5 to 15, modulo 256; zero
 *   8       CRC; CRC length 160 + descriptor length (16 bits each); tag location b
 *           (32 bits). The CRC is of polynomial hex 1021, start 0, high bit first,
 *           over CRC-length bytes from byte 16
 *   20      strategy 4 (16 bits)
 *   27      file type 5
 *   34      flags, of which the low three bits are 0 (16 bits)
 *   56      information length, the total of the extents' lengths (64 bits)
 *   168     attribute length 0; descriptor length, 8 times 1 to 100 (32 bits each)
 *   176     for each extent its length in bytes, below 2 to the power 30, and its
 *           first block (32 bits each); none is empty, all but the last are whole
 *           sectors, and all lie on sectors of kind 1 below b
 *
 * Each call answers an outcome (0 done, else a refusal) and a second number, as
 * one number: outcome * 4294967296 + second number. A refusal's second number
 * is 0, and it alters no lent byte. Each function below names its refusals in
 * the order in which it tests for them, and the first that applies is given.
 * What a call may not change is lent as const.
 *
 * In mode 0 with recorded above 0, write, numbered or not, both forms of commit
 * and closing the session first record seven link sectors; of a link sector only
 * its kind changes, to 2.
 *
 * What the buffers hold at the end of a call is proved. The order of a call's
 * stores is not: the compiler merges and reorders them, and a program that stops
 * inside a call can leave what no power cut leaves, such as a recorded sector
 * after a blank one. So a host must not lend the core the only copy of a disc
 * that must outlive a crash of the host itself, such as a mapped file. It lends
 * working buffers, and burns the sectors that the call recorded in ascending
 * order: those from recorded before the call up to recorded after it, of a data
 * sector (kind 1) its bytes and its kind, of a link sector its kind alone.
 * Buffers that die with the process are no matter.
 */
#ifndef STATION_H
#define STATION_H

#include <stddef.h>
#include <stdint.h>

#ifdef __cplusplus
extern "C" {
#endif

#define STATION_SECTOR 2048         /* bytes of a sector, and of a block */
#define STATION_LEDGER 16364        /* bytes of the ledger */
#define STATION_STAMP 12            /* bytes of a timestamp */
#define STATION_TIME 8              /* bytes of the answer to time of */
#define STATION_MOST_VIEWED 65536   /* the most bytes of a buffer for view */
#define STATION_MOST_EXTENTS 100    /* the most extents of a run's entry */
#define STATION_MOST_SECTORS 360000 /* the most sectors of a disc */
#define STATION_LIMIT 4087          /* the most virtual numbers */
#define STATION_UNUSED 0xFFFFFFFFu  /* an unused entry, a missing last table */

/* The outcomes. */
enum station_outcome {
    STATION_DONE = 0,
    /* no sectors, more than 360,000, or image length is not 2048 x kinds
       length */
    STATION_DISC_SIZE = 1,
    /* a lent block is not 2048 bytes, a lent ledger not 16,364, a lent stamp not
       12, a lent answer not 8, the lent roles not as many as the kinds, or a lent
       buffer of view above 65,536 */
    STATION_LENT_LENGTH = 2,
    /* a kind above 3, or a recorded sector after a blank one */
    STATION_DISC_UNSOUND = 3,
    /* the ledger does not fit: size above 4,087; an entry from size on not
       FFFFFFFF; one below size neither FFFFFFFF nor below recorded; recorded
       differs from the disc's; last table neither FFFFFFFF nor a table sector;
       mode above 2; mode 1 where the last recorded sector is missing or not
       kind 1 */
    STATION_LEDGER_UNFIT = 4,
    /* write, numbered or not, release, close packet, either form of commit or
       closing the session with mode 2 */
    STATION_READ_ONLY = 5,
    /* begin, and a table sector exists */
    STATION_VAT_EXISTS = 6,
    /* mount, look back or asking for a time, and no table sector exists */
    STATION_NO_VAT = 7,
    /* a step back names a sector that is not a table sector */
    STATION_CHAIN_BROKEN = 8,
    /* going back meets FFFFFFFF before k steps */
    STATION_CHAIN_ENDED = 9,
    /* read, view or release of v not below size, or of an unused entry */
    STATION_NOT_IN_USE = 10,
    /* read or view, and the entry's sector is not kind 1 */
    STATION_UNREADABLE = 11,
    /* write of v above size */
    STATION_ABOVE_SIZE = 12,
    /* write of v at or above 4,087 */
    STATION_ABOVE_LIMIT = 13,
    /* no room: write, numbered or not, needs links + 1 + 16 blank sectors, on
       discs of 1,000 sectors or more links + 1 + 264; either form of commit
       needs links, the own sectors that it records, and 1; closing the session
       links + 257 */
    STATION_NO_ROOM = 14,
    /* the lent block would be a table sector at the block it is about to take,
       or has the tag of a closing's pointer there: tag identifier 2, a right tag
       checksum and a tag location from that block to that block + 400,000 */
    STATION_WOULD_BE_VAT = 15,
    /* a timestamp given or found breaks the limits */
    STATION_BAD_TIMESTAMP = 16,
    /* write, numbered or not, release, close packet, either form of commit or
       closing the session on a closed disc */
    STATION_SESSION_CLOSED = 17,
    /* closing the session, and the partition start exceeds 400,000 */
    STATION_PARTITION_START = 18,
    /* view, and the numbered block is not a run's entry */
    STATION_NOT_A_RUN = 19,
    /* view, and the offset exceeds the run's length */
    STATION_BEYOND_THE_RUN = 20
};

/* The roles. The kind decides the last three; the others are of data (kind 1). */
enum station_role {
    /* an entry of the ledger's map below size names the block, which is of no
       table */
    STATION_ROLE_IN_USE = 0,
    /* no entry names it any more; after begin, mount or look back all data that is
       of no table and that no entry names */
    STATION_ROLE_SUPERSEDED = 1,
    /* recorded by write unnumbered, or by closing the session as its pointer or
       zeros, since the last begin, mount or look back */
    STATION_ROLE_WITHOUT_NUMBER = 2,
    /* a table sector, or one that a table sector names as its table's own; it is
       never in use */
    STATION_ROLE_TABLE = 3,
    STATION_ROLE_LINK = 4,
    STATION_ROLE_UNREADABLE = 5,
    STATION_ROLE_BLANK = 6
};

/* The outcome of an answer: 0 done, else a refusal. */
#define STATION_OUTCOME(answer) ((uint32_t)((uint64_t)(answer) >> 32))

/* The second number of an answer. */
#define STATION_SECOND(answer) ((uint32_t)((uint64_t)(answer) & 0xFFFFFFFFu))

/*
 * Begin: size 0, no last table, mode 0. Allowed on a disc with recorded sectors
 * if none is a table sector. All roles are made anew. Second number 0. Refusals 1,
 * 2, 3, 6. The content of roles and ledger is not read.
 */
uint64_t station_begin_roles(const uint8_t *image, size_t image_length,
                             const uint8_t *kinds, size_t kinds_length,
                             uint8_t *roles, size_t roles_length,
                             uint8_t *ledger, size_t ledger_length);

/*
 * Mount: starts at the last recorded sector and goes towards block 0. The first
 * table sector met ends the search. Its entries and size fill the ledger; it is
 * the last table; mode 0. All roles are made anew. Second number 1 if clean, which
 * means that it is the last recorded sector, and 0 if dirty. Refusals 1, 2, 3, 7.
 * The content of roles and ledger is not read.
 */
uint64_t station_mount_roles(const uint8_t *image, size_t image_length,
                             const uint8_t *kinds, size_t kinds_length,
                             uint8_t *roles, size_t roles_length,
                             uint8_t *ledger, size_t ledger_length);

/*
 * Write number v: records one data sector with the lent block and sets entry v
 * to it. If v equals size, size grows by one. A released number below size may
 * be written again. Mode becomes 1. The block is in use, and the one that v named
 * before is superseded if it was in use and no number names it any more. Second
 * number: the block recorded. Refusals 1, 2, 3, 4, 5, 17, 13, 12, 14, 15: a v at or
 * above 4,087 gives 13, even above size.
 */
uint64_t station_write_roles(uint8_t *image, size_t image_length,
                             uint8_t *kinds, size_t kinds_length,
                             uint8_t *roles, size_t roles_length,
                             uint8_t *ledger, size_t ledger_length, uint32_t v,
                             const uint8_t *block, size_t block_length);

/*
 * Write unnumbered: records one data sector with the lent block, as write does,
 * and sets no entry: map and size stay. Mode becomes 1. The block is without a
 * number. Second number: the block recorded. Refusals 1, 2, 3, 4, 5, 17, 14, 15.
 */
uint64_t station_write_unnumbered_roles(uint8_t *image, size_t image_length,
                                        uint8_t *kinds, size_t kinds_length,
                                        uint8_t *roles, size_t roles_length,
                                        uint8_t *ledger, size_t ledger_length,
                                        const uint8_t *block,
                                        size_t block_length);

/*
 * Release v: sets the entry to unused. Size stays. The block that v named is
 * superseded, as after a write of v. Second number 0. Refusals 1, 2, 3, 4, 5, 17,
 * 10.
 */
uint64_t station_release_roles(const uint8_t *image, size_t image_length,
                               const uint8_t *kinds, size_t kinds_length,
                               uint8_t *roles, size_t roles_length,
                               uint8_t *ledger, size_t ledger_length,
                               uint32_t v);

/*
 * Close packet: mode 0 (also after an underrun). Nothing is recorded, and no role
 * changes. Closing a closed packet is done. Second number 0. Refusals 1, 2, 3, 4,
 * 5, 17.
 */
uint64_t station_close_packet_roles(const uint8_t *image, size_t image_length,
                                    const uint8_t *kinds, size_t kinds_length,
                                    const uint8_t *roles, size_t roles_length,
                                    uint8_t *ledger, size_t ledger_length);

/*
 * Commit: records the table sector, which becomes the last table, and before it
 * those of the table's own sectors that are not named again. It may follow in any
 * mode but 2, and mode is 1 afterwards. Allowed with nothing changed and with size
 * 0. Second number: the block of the table sector. Refusals 1, 2, 3, 4, 5, 17, 14.
 */
uint64_t station_commit_roles(uint8_t *image, size_t image_length,
                              uint8_t *kinds, size_t kinds_length,
                              uint8_t *roles, size_t roles_length,
                              uint8_t *ledger, size_t ledger_length);

/*
 * Commit at: a commit whose table sector has the lent stamp as access,
 * modification and attribute time; the plain commit records zeros there. Second
 * number: the block of the table sector. Refusals 1, 2, 3, 4, 5, 17, 16, 14.
 */
uint64_t station_commit_at_roles(uint8_t *image, size_t image_length,
                                 uint8_t *kinds, size_t kinds_length,
                                 uint8_t *roles, size_t roles_length,
                                 uint8_t *ledger, size_t ledger_length,
                                 const uint8_t *stamp, size_t stamp_length);

/*
 * Read v: copies the 2048 bytes to the lent block; allowed with mode 2. Second
 * number 0. Refusals 1, 2, 3, 4, 10, 11.
 */
uint64_t station_read(const uint8_t *image, size_t image_length,
                      const uint8_t *kinds, size_t kinds_length,
                      const uint8_t *ledger, size_t ledger_length, uint32_t v,
                      uint8_t *block, size_t block_length);

/*
 * View v from an offset: fills the lent buffer with the bytes of the run whose
 * entry number v is, from that offset on and as far as the run goes; the bytes
 * behind stay. Allowed with mode 2. Second number: how many bytes are filled in,
 * at the run's end 0. Refusals 1, 2, 3, 4, 10, 11, 19, 20.
 */
uint64_t station_view(const uint8_t *image, size_t image_length,
                      const uint8_t *kinds, size_t kinds_length,
                      const uint8_t *ledger, size_t ledger_length, uint32_t v,
                      uint64_t offset, uint8_t *buffer, size_t buffer_length);

/*
 * Look back k: from the table that mount would find, follows the previous entry
 * k times; k 0 is that table. The ledger gets its map, recorded as it is now,
 * that table as last, mode 2. All roles are made anew. Second number: the table's
 * block. Refusals 1, 2, 3, 7, then 8 or 9 at the first failing step. The content of
 * roles and ledger is not read.
 */
uint64_t station_look_back_roles(const uint8_t *image, size_t image_length,
                                 const uint8_t *kinds, size_t kinds_length,
                                 uint8_t *roles, size_t roles_length,
                                 uint8_t *ledger, size_t ledger_length,
                                 uint32_t k);

/*
 * Time of k: goes back as look back k does and tells the modification time of
 * the table there, in the lent answer; seconds are dropped first, and a zone not
 * given counts as 0. Second number 0. Refusals 1, 2, 3, 7, then 8 or 9 at the
 * first failing step, then 16 if that time breaks the limits, as the zeros of a
 * plain commit do. The ledger's length is tested, and its content is not read.
 */
uint64_t station_time_of(const uint8_t *image, size_t image_length,
                         const uint8_t *kinds, size_t kinds_length,
                         const uint8_t *ledger, size_t ledger_length,
                         uint32_t k, uint8_t *answer, size_t answer_length);

/*
 * Close session: records an Anchor Volume Descriptor Pointer, 255 zero sectors
 * and the table sector, which becomes the last table, all as data. Own sectors of
 * the table that are recorded take the place of the last zeros. The pointer names
 * two extents, main and reserve, each by its length in bytes and its location; its
 * tag location is the partition's start plus its block. Mode is 1 afterwards, and
 * the disc is closed. Pointer and zeros are without a number. Second number: the
 * block of the table sector. Refusals 1, 2, 3, 4, 5, 17, 18, 14.
 */
uint64_t station_close_session_roles(uint8_t *image, size_t image_length,
                                     uint8_t *kinds, size_t kinds_length,
                                     uint8_t *roles, size_t roles_length,
                                     uint8_t *ledger, size_t ledger_length,
                                     uint32_t main_length,
                                     uint32_t main_location,
                                     uint32_t reserve_length,
                                     uint32_t reserve_location,
                                     uint32_t partition_start);

#ifdef __cplusplus
}
#endif

#endif

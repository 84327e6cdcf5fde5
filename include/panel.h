/*
 * The placement engine for C and C++: eleven calls on a description of a workflow and its clouds, in the archive libpanel.a.
 * docs/FORMAT.md has the format, the rules and what a placement, a row and an option are. Each call of the archive is proved to do what
 * the definitions beside that document say. The inline functions of this header are plain C: they are tested, not proved.
 *
 * A description is any bytes with their length. Nothing has to hold of them: what is wrong comes back as a refusal.
 *
 * Status. Every call answers 0, or a refusal as one word: its number in the low 8 bits (PANEL_NUMBER), its place in the other 56
 * (PANEL_PLACE). Every place fits: none is above 327680. enum panel_refusal has the numbers and says what the place is for each;
 * panel_message gives a sentence for a number. The description is tested first, then the placement for 13, 14, 15 and 17 in this order;
 * 16 comes last.
 *
 * Lent memory. A call reads and writes what it is lent and nothing else, and keeps no pointer. If it answers 0, the arrays below are
 * written as each call says; after any refusal every lent byte is as it was. Words are aligned as the compiler aligns them.
 *
 * Overlap. Output arrays must not overlap any other argument. An output array is one that is not const: counts, masks, buffer, count,
 * amounts, reason, figures, answer, row, rows, scratch, extent. So the row of panel_draw is not its placement, and the scratch of
 * panel_list is not its rows. Two inputs may overlap.
 *
 * Null pointers. An array whose length is an argument (description, buffer, rows, scratch) may be null if that length is 0, as the data()
 * of an empty std::vector may be: with length 0 the pointer is not looked at. This header sees to that, not the archive: the functions of
 * the archive take references, which are never null. A program that calls them without this header, from another language say, must not
 * hand over a null pointer, not even with length 0. Every other pointer must not be null: no call tests it, but compilers can warn.
 *
 * Time. panel_census, panel_draw and panel_list walk over all candidates, up to 65,536, each time they are called. The other eight look at
 * the description and at one placement at most, and do not walk. So a table of all rows wants panel_list: one walk with PANEL_LIST words of
 * rows and PANEL_SCRATCH of scratch, and a second one, to count the rows first, if there is less room than for all candidates. Draws walk
 * once for each row: they are for a panel that shows the first few rows, and for a program that has no memory for the whole list.
 *
 * Threads. Nothing is kept between calls and there are no global variables: any number of threads may call at once, as long as none
 * writes what another is lent. No call allocates, and each ends. PANEL_STACK bytes of stack are enough for any call: this was measured and
 * read from the compiled code, and is not proved. docs/LIMITS.md says what is not there.
 *
 * Labels. Locations and clearances are labels, as clouds and data have them: bits 0 to 3 are a level, bit 4 is the embargo mark, bit 5 the
 * source mark. A label covers another if its level is as high at least and it has every mark of the other.
 *
 * Examples. examples/list.c lists a description with one call, and prints pictures and masks. examples/panel.cpp does all that a panel
 * does. The first rows, one draw at a time:
 *
 *     uint8_t past[PANEL_BLOCKS] = {0}, row[PANEL_BLOCKS];
 *     uint64_t answer[5];
 *     uint64_t status = panel_draw(bytes, length, true, 0, past, answer, row);
 *     for (int shown = 0; shown < 10 && status == 0 && answer[0] == 1; shown++) {
 *         show(answer[1], row, answer[2], answer[3], answer[4]);
 *         memcpy(past, row, sizeof past);
 *         status = panel_draw(bytes, length, false, answer[1], past, answer, row);
 *     }
 *     if (status != 0)
 *         complain(panel_message(PANEL_NUMBER(status)), PANEL_PLACE(status));
 */
#ifndef PANEL_H
#define PANEL_H

#include <stdbool.h>
#include <stddef.h>
#include <stdint.h>

#define PANEL_VERSION_MAJOR 0
#define PANEL_VERSION_MINOR 1
#define PANEL_VERSION_PATCH 0
#define PANEL_VERSION "0.1.0"

#define PANEL_BLOCKS 16      /* bytes of a placement: the cloud of each block, and 0 where there is no block; also of the masks */
#define PANEL_TRANSFERS 128  /* bytes that hold the transfers of any placement */
#define PANEL_PICTURE 1374   /* bytes that hold the picture of any placement */
#define PANEL_AMOUNTS 4      /* words of a bill: cost, storage, transfer, cpu; the last three add up to the first */
#define PANEL_ROW 5          /* words of a row in a list */
#define PANEL_LIST 327680    /* words that hold the rows of any description */
#define PANEL_SCRATCH 131072 /* words of scratch that are enough for any description */
#define PANEL_STACK 32768    /* bytes of stack that are enough for any call: the deepest takes some 23,000 */

/* The number of a refusal: what is wrong. The words in brackets are what the place is. */
enum panel_refusal {
    /* The bytes of a description. Every call can refuse with these, and with those of the workflow. */
    PANEL_CUT_SHORT = 1,        /* the input stops within a command, or before the end command (offset of that command, or the length) */
    PANEL_UNKNOWN_COMMAND = 2,  /* there is no such command (its offset) */
    PANEL_AFTER_END = 3,        /* something comes after the end command (its offset) */
    PANEL_TOO_MANY = 4,         /* a cloud, block, edge or pair more than there may be (offset of the command) */
    PANEL_LABEL_TOO_HIGH = 5,   /* a label, location or clearance above 63 (offset of the command) */
    PANEL_NOT_DECLARED = 6,     /* it names what is not there, or what is of the wrong kind (offset of the command) */
    PANEL_REPEATED = 7,         /* the edge or pair is there already; the datum has a writer, the block a pin; a datum is paired with
                                   itself (offset of the command) */
    PANEL_NOTHING_DECLARED = 8, /* no cloud, or no block (the length) */

    /* The workflow. */
    PANEL_LOCATION_NOT_CLEARED = 9, /* rule 2: a service's clearance does not cover its location (block) */
    PANEL_READ_UP = 10,             /* rule 3: a service reads a datum that its clearance does not cover (edge) */
    PANEL_WRITE_DOWN = 11,          /* rule 4: a service writes a datum that does not cover its location (edge) */
    PANEL_TOO_MANY_CANDIDATES = 12, /* more than 65,536 candidates (0) */

    /* A placement: panel_judge, panel_bill, panel_transfers, panel_picture, panel_picture_size. A pair is two data that command 07 keeps
       apart; pairs are numbered from 0, and the copies that transfers make count. */
    PANEL_NO_CANDIDATE = 13,  /* a position has a cloud that it may not have; panel_standing says why (position) */
    PANEL_READ_EXPOSES = 14,  /* rule 16: a read copies a datum to a cloud that does not cover it (edge) */
    PANEL_WRITE_EXPOSES = 15, /* rule 17: a write leaves a copy of a datum on such a cloud (edge) */
    PANEL_PAIR_MEETS = 17,    /* a cloud holds both data of a pair (pair) */

    /* Lent memory: panel_transfers, panel_picture, panel_list. */
    PANEL_SHORT_BUFFER = 16 /* too little room (bytes, or words of rows, that are needed) */
};

/* Whether a position may have a cloud, and if not, why: what panel_standing answers. */
enum panel_reason {
    PANEL_ALLOWED = 0,       /* it may: the block may stand there, or there is no block and the byte is 0 */
    PANEL_NO_SUCH_CLOUD = 1, /* no cloud of this number is declared */
    PANEL_NOT_COVERED = 2,   /* rule 7: the cloud's label does not cover the block's */
    PANEL_NOT_PERMITTED = 3, /* the block is pinned to another cloud */
    PANEL_NO_BLOCK = 4       /* there is no block at this position, and the byte is not 0 */
};

#ifdef __GNUC__
#define PANEL_NONNULL __attribute__((nonnull)) /* no pointer is null: compilers warn, and their sanitizers test it */
#else
#define PANEL_NONNULL
#endif

#ifdef __cplusplus
#define PANEL_INLINE inline
extern "C" {
#else
#define PANEL_INLINE static inline
#endif

/*
 * Read: is the description accepted? Refuses with 1 to 12.
 * counts: clouds, blocks, edges.
 */
uint64_t panel_read(const uint8_t *description, size_t length, uint64_t counts[3]) PANEL_NONNULL;

/*
 * Masks: which clouds each block may use by itself, by rule 7 and its pin; whether a whole placement is secure is panel_judge's to say.
 * Refuses with 1 to 12.
 * masks: a byte for each block, with bit k (1 << k) set exactly if the block may stand on cloud k. 0 is a block that may stand nowhere;
 *        the bytes past the last block are 0 too.
 */
uint64_t panel_masks(const uint8_t *description, size_t length, uint8_t masks[16]) PANEL_NONNULL;

/*
 * Standing: may a position of a placement have a cloud, and if not, which test does it fail first? If panel_judge refuses a placement
 * with 13 at a position, this says why: 13 comes with the lowest position whose reason is not 0. Refuses with 1 to 12.
 * position: of the byte in the placement, 0 to 15. 16 and above have no block either.
 * reason: one of enum panel_reason. At a position that has a block the tests are made in the order 1, 2, 3. A position past the last block
 *         gives 0 for byte 0 and 4 for any other.
 */
uint64_t panel_standing(const uint8_t *description, size_t length, size_t position, uint8_t cloud, uint64_t reason[1]) PANEL_NONNULL;

/*
 * Judge: is the placement secure? Refuses with 1 to 15, and with 17; writes nothing.
 */
uint64_t panel_judge(const uint8_t *description, size_t length, const uint8_t placement[16]) PANEL_NONNULL;

/*
 * Bill: what a secure placement costs, and what for. The placement need not be a row. Refuses with 1 to 15, and with 17.
 * amounts: cost, storage, transfer, cpu; the last three add up to the first. For a row they are the amounts of that row.
 */
uint64_t panel_bill(const uint8_t *description, size_t length, const uint8_t placement[16], uint64_t amounts[4]) PANEL_NONNULL;

/*
 * Transfers: what a secure placement moves from cloud to cloud, in edge order. Refuses with 1 to 17.
 * buffer: four bytes for each at the front: edge, datum, cloud that it leaves, cloud that it enters; the bytes after them stay. room is
 *         its length in bytes.
 * count: how many transfers.
 */
uint64_t panel_transfers(const uint8_t *description, size_t length, const uint8_t placement[16],
                         uint8_t *buffer, size_t room, uint64_t count[1]) PANEL_NONNULL;

/*
 * Picture: a secure placement as Graphviz text, a line for each edge and then for each block without one (docs/FORMAT.md). Refuses with
 * 1 to 17.
 * buffer: the text at the front, in ASCII and without a zero byte at its end; the bytes after it stay. room is its length in bytes.
 * count: how many bytes the text has.
 */
uint64_t panel_picture(const uint8_t *description, size_t length, const uint8_t placement[16],
                       uint8_t *buffer, size_t room, uint64_t count[1]) PANEL_NONNULL;

/*
 * Picture size: how many bytes panel_picture writes for a secure placement. Refuses with 1 to 15, and with 17.
 * count: that number.
 */
uint64_t panel_picture_size(const uint8_t *description, size_t length, const uint8_t placement[16], uint64_t count[1]) PANEL_NONNULL;

/*
 * Census: how many placements and options there are. Walks over all candidates. Refuses with 1 to 12.
 * figures: candidates, those that break rule 16, those that break rule 17 and not 16, those that break neither but a pair, secure ones,
 *          options.
 */
uint64_t panel_census(const uint8_t *description, size_t length, uint64_t figures[6]) PANEL_NONNULL;

/*
 * Draw: the first row from the start, if start is true (cost and placement are not looked at, but placement is still sixteen readable
 * bytes); otherwise the first row that comes after cost and placement, which need not be a row. Walks over all candidates. Refuses with
 * 1 to 12.
 * answer: 1 and the row's cost, storage, transfer and cpu, the last three of which add up to the cost; zeros if there is no row left.
 * row: the row's placement; zeros if there is none.
 */
uint64_t panel_draw(const uint8_t *description, size_t length, bool start, uint64_t cost, const uint8_t placement[16],
                    uint64_t answer[5], uint8_t row[16]) PANEL_NONNULL;

/*
 * List: all rows at once, the cheapest first. Walks over all candidates, once or twice. Refuses with 1 to 12, and with 16 if rows is
 * shorter than five words a row or scratch than two; the place is the words that rows needs, and scratch needs two fifths of them.
 * rows: PANEL_ROW words for each row at the front, which panel_unpack_row takes apart: its cost; the clouds of its blocks as digits to the
 *       base 8, the first block's the highest; its storage, transfer and cpu. The words after them stay. room is its length in words.
 * scratch: room to sort with, two words for each row; that much is zeros afterwards, and the words after it stay. scratch_room is its
 *          length in words.
 * extent: rows, blocks.
 */
uint64_t panel_list(const uint8_t *description, size_t length, uint64_t *rows, size_t room,
                    uint64_t *scratch, size_t scratch_room, uint64_t extent[2]) PANEL_NONNULL;

#ifdef __cplusplus
}
#endif

/* The number of a status, one of enum panel_refusal, or 0 if the call was answered. */
PANEL_INLINE unsigned panel_number(uint64_t status)
{
    return status & 255;
}

/* The place of a status. */
PANEL_INLINE uint64_t panel_place(uint64_t status)
{
    return status >> 8;
}

#define PANEL_NUMBER(status) panel_number(status)
#define PANEL_PLACE(status) panel_place(status)

/*
 * Takes a row of a list apart. row is its first word, blocks the second word of the list's extent.
 * placement: the cloud of each block, and 0 past the last one, as the other calls take it.
 * amounts: cost, storage, transfer, cpu, as panel_bill gives them.
 */
PANEL_INLINE void panel_unpack_row(const uint64_t row[PANEL_ROW], uint64_t blocks,
                                   uint8_t placement[PANEL_BLOCKS], uint64_t amounts[PANEL_AMOUNTS])
{
    uint64_t digits = row[1];
    for (size_t position = PANEL_BLOCKS; position-- > 0;) {
        bool has_block = position < blocks;
        placement[position] = has_block ? digits & 7 : 0;
        digits = has_block ? digits >> 3 : digits;
    }
    amounts[0] = row[0];
    for (size_t part = 1; part < PANEL_AMOUNTS; part++)
        amounts[part] = row[part + 1];
}

/* A sentence for the number of a refusal. Each stays on one line here, so that it can be searched for. */
PANEL_INLINE const char *panel_message(unsigned number)
{
    static const char *const messages[] = {
        "not refused",
        "the description stops within a command, or before the end command; complete the command, or close the description with 00",
        "no such command is known; commands begin with 00 to 07",
        "there is a byte after the end command; let 00 be the last byte",
        "one thing too many is declared; there may be 8 clouds, 16 blocks, 32 edges and 8 pairs",
        "a label, location or clearance is above 63; the highest is 63",
        "the command names what is not declared before it, or a datum for a service, or a service for a datum; declare it further up, or name another",
        "the command repeats an edge or a pair, gives a datum a second writer or a block a second pin, or pairs a datum with itself; remove it, or the one before it",
        "no cloud or no block is declared; declare at least one of each",
        "the service has a clearance that does not cover its location (rule 2); raise the clearance's level, or add the mark that it lacks",
        "a service reads a datum whose label its clearance does not cover (rule 3); raise the clearance's level, add the mark that it lacks, or remove the edge",
        "a service writes a datum whose label does not cover its location (rule 4); raise the datum's level, add the mark that it lacks, or remove the edge",
        "there are more than 65,536 candidates; pin more blocks, or leave out clouds",
        "the placement names no cloud that the block may stand on; choose one that is declared, that covers the block's label (rule 7) and is its pin if it has one, and 0 if there is no block",
        "a datum would be copied to its reader, on a cloud that does not cover the datum's label (rule 16); place the reader on one that does, or both on one cloud",
        "a copy of a datum would stay with its writer, on a cloud that does not cover the datum's label (rule 17); place the writer on one that does, or both on one cloud",
        "the lent memory is too short; the place says how much is needed: bytes for transfers or a picture; for a list words of rows, and two fifths of that of scratch",
        "some cloud holds both data of a pair, or copies of them; place the two, and the services that read or write them, on different clouds",
    };
    return number < sizeof messages / sizeof messages[0] ? messages[number] : "no such number is known";
}

/* A sentence for a reason of panel_standing. */
PANEL_INLINE const char *panel_reason_message(uint64_t reason)
{
    static const char *const messages[] = {
        "the position may have this cloud",
        "no such cloud is declared; choose one that is",
        "the cloud's label does not cover the block's (rule 7); choose a cloud that has its level at least, and its marks",
        "the block is pinned to another cloud; choose that one, or remove the pin",
        "there is no block at this position; leave 0 there",
    };
    return reason < sizeof messages / sizeof messages[0] ? messages[reason] : "no such reason is known";
}

/*
 * Null pointers for empty arrays. Each function below calls the one of the archive, and lends it a byte or a word of its own in place of
 * an array that has length 0. The macros after them give them the names of the calls, so that no program has to remember it.
 */
PANEL_INLINE uint64_t panel_nullable_read(const uint8_t *description, size_t length, uint64_t counts[3])
{
    const uint8_t no_byte = 0;
    return panel_read(length == 0 ? &no_byte : description, length, counts);
}

PANEL_INLINE uint64_t panel_nullable_masks(const uint8_t *description, size_t length, uint8_t masks[16])
{
    const uint8_t no_byte = 0;
    return panel_masks(length == 0 ? &no_byte : description, length, masks);
}

PANEL_INLINE uint64_t panel_nullable_standing(const uint8_t *description, size_t length, size_t position, uint8_t cloud,
                                              uint64_t reason[1])
{
    const uint8_t no_byte = 0;
    return panel_standing(length == 0 ? &no_byte : description, length, position, cloud, reason);
}

PANEL_INLINE uint64_t panel_nullable_judge(const uint8_t *description, size_t length, const uint8_t placement[16])
{
    const uint8_t no_byte = 0;
    return panel_judge(length == 0 ? &no_byte : description, length, placement);
}

PANEL_INLINE uint64_t panel_nullable_bill(const uint8_t *description, size_t length, const uint8_t placement[16], uint64_t amounts[4])
{
    const uint8_t no_byte = 0;
    return panel_bill(length == 0 ? &no_byte : description, length, placement, amounts);
}

PANEL_INLINE uint64_t panel_nullable_transfers(const uint8_t *description, size_t length, const uint8_t placement[16],
                                               uint8_t *buffer, size_t room, uint64_t count[1])
{
    const uint8_t no_byte = 0;
    uint8_t no_room = 0;
    return panel_transfers(length == 0 ? &no_byte : description, length, placement, room == 0 ? &no_room : buffer, room, count);
}

PANEL_INLINE uint64_t panel_nullable_picture(const uint8_t *description, size_t length, const uint8_t placement[16],
                                             uint8_t *buffer, size_t room, uint64_t count[1])
{
    const uint8_t no_byte = 0;
    uint8_t no_room = 0;
    return panel_picture(length == 0 ? &no_byte : description, length, placement, room == 0 ? &no_room : buffer, room, count);
}

PANEL_INLINE uint64_t panel_nullable_picture_size(const uint8_t *description, size_t length, const uint8_t placement[16],
                                                  uint64_t count[1])
{
    const uint8_t no_byte = 0;
    return panel_picture_size(length == 0 ? &no_byte : description, length, placement, count);
}

PANEL_INLINE uint64_t panel_nullable_census(const uint8_t *description, size_t length, uint64_t figures[6])
{
    const uint8_t no_byte = 0;
    return panel_census(length == 0 ? &no_byte : description, length, figures);
}

PANEL_INLINE uint64_t panel_nullable_draw(const uint8_t *description, size_t length, bool start, uint64_t cost,
                                          const uint8_t placement[16], uint64_t answer[5], uint8_t row[16])
{
    const uint8_t no_byte = 0;
    return panel_draw(length == 0 ? &no_byte : description, length, start, cost, placement, answer, row);
}

PANEL_INLINE uint64_t panel_nullable_list(const uint8_t *description, size_t length, uint64_t *rows, size_t room,
                                          uint64_t *scratch, size_t scratch_room, uint64_t extent[2])
{
    const uint8_t no_byte = 0;
    uint64_t no_rows = 0, no_scratch = 0;
    return panel_list(length == 0 ? &no_byte : description, length, room == 0 ? &no_rows : rows, room,
                      scratch_room == 0 ? &no_scratch : scratch, scratch_room, extent);
}

#define panel_read panel_nullable_read
#define panel_masks panel_nullable_masks
#define panel_standing panel_nullable_standing
#define panel_judge panel_nullable_judge
#define panel_bill panel_nullable_bill
#define panel_transfers panel_nullable_transfers
#define panel_picture panel_nullable_picture
#define panel_picture_size panel_nullable_picture_size
#define panel_census panel_nullable_census
#define panel_draw panel_nullable_draw
#define panel_list panel_nullable_list

#endif

/*
 * Lists the options of the description on standard input, as the program listoptions prints them, through the library for C. With an
 * argument, the clouds of a placement as a row shows them (such as 11000), it prints the picture of that placement instead; with the
 * option -c, the clouds that a panel would let one choose for each block.
 */
#include <inttypes.h>
#include <stdio.h>
#include <string.h>

#include "panel.h"

/* A longer description is refused within its first bytes, so what does not fit need not be read. */
static uint8_t description[4096];
static uint64_t rows[PANEL_LIST], scratch[PANEL_SCRATCH];

static void print_row(const uint64_t row[PANEL_ROW], uint64_t blocks)
{
    uint8_t placement[PANEL_BLOCKS];
    uint64_t amounts[PANEL_AMOUNTS];
    panel_unpack_row(row, blocks, placement, amounts);
    printf("%" PRIu64 " ", amounts[0]);
    for (uint64_t block = 0; block < blocks; block++)
        putchar('0' + placement[block]);
    printf(" %" PRIu64 " %" PRIu64 " %" PRIu64 "\n", amounts[1], amounts[2], amounts[3]);
}

static void print_refusal(uint64_t status)
{
    printf("refused %u %" PRIu64 "\n", PANEL_NUMBER(status), PANEL_PLACE(status));
}

static void print_list(size_t length)
{
    uint64_t extent[2];
    uint64_t status = panel_list(description, length, rows, PANEL_LIST, scratch, PANEL_SCRATCH, extent);
    if (status != 0) {
        print_refusal(status);
        return;
    }
    for (uint64_t row = 0; row < extent[0]; row++)
        print_row(&rows[PANEL_ROW * row], extent[1]);
    printf("options %" PRIu64 "\n", extent[0]);
}

static void print_picture(size_t length, const uint8_t placement[PANEL_BLOCKS])
{
    uint8_t picture[PANEL_PICTURE];
    uint64_t count[1];
    uint64_t status = panel_picture(description, length, placement, picture, sizeof picture, count);
    if (status != 0)
        print_refusal(status);
    else
        fwrite(picture, 1, count[0], stdout);
}

/* A line for each block: its number, and for each cloud its digit, or a dot if the panel would grey it out. */
static void print_choices(size_t length)
{
    uint64_t counts[3];
    uint8_t masks[PANEL_BLOCKS];
    uint64_t status = panel_read(description, length, counts);
    if (status == 0)
        status = panel_masks(description, length, masks);
    if (status != 0) {
        print_refusal(status);
        return;
    }
    for (uint64_t block = 0; block < counts[1]; block++) {
        printf("%" PRIu64 " ", block);
        for (uint64_t cloud = 0; cloud < counts[0]; cloud++)
            putchar(masks[block] >> cloud & 1 ? '0' + (int)cloud : '.');
        putchar('\n');
    }
}

/*
 * A placement from the digits of its first blocks; the others get cloud 0. Only digits that a row can show are taken: 8 and 9 are not,
 * since no description has nine clouds.
 */
static bool read_placement(const char *digits, uint8_t placement[PANEL_BLOCKS])
{
    size_t blocks = strlen(digits);
    if (blocks == 0 || blocks > PANEL_BLOCKS || strspn(digits, "01234567") != blocks)
        return false;
    memset(placement, 0, PANEL_BLOCKS);
    for (size_t block = 0; block < blocks; block++)
        placement[block] = (uint8_t)(digits[block] - '0');
    return true;
}

int main(int argc, char *argv[])
{
    uint8_t placement[PANEL_BLOCKS];
    bool choosing = argc == 2 && strcmp(argv[1], "-c") == 0;
    bool pictured = argc > 1 && !choosing;
    if (pictured && (argc > 2 || !read_placement(argv[1], placement))) {
        fputs("list: the only argument is -c or a placement: 1 to 16 digits from 0 to 7, the cloud of each block\n", stderr);
        return 1;
    }
    size_t length = fread(description, 1, sizeof description, stdin);
    if (ferror(stdin)) {
        perror("standard input");
        return 1;
    }
    if (choosing)
        print_choices(length);
    else if (pictured)
        print_picture(length, placement);
    else
        print_list(length);
    if (fflush(stdout) != 0 || ferror(stdout)) {
        perror("standard output");
        return 1;
    }
    return 0;
}

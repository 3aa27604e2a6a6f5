/*
 * Codes and reads back short runs with drmcoder.h alone. Every run has three super frames of pseudo-random bits and
 * two whose MSC bits are zero; its FAC blocks are built from fields. Exits with 1 if anything is not as it must be.
 */
#include <stdio.h>
#include <stdlib.h>
#include <string.h>

#include "drmcoder.h"

enum { SUPER_FRAMES = 5, CLOSING = 2, FRAMES = 3 * SUPER_FRAMES };

/* Annex C's example, then a run of each other MSC mode; long, short, long, short interleaving. */
static const uint8_t runs[4][DRM_SETTINGS_BYTES] = {
    {0, 3, 0, 0, 1, 0, 0x01, 0x1D, 0, 0},
    {3, 5, 1, 1, 2, 3, 0x00, 0x64, 1, 1},
    {1, 0, 2, 3, 0, 1, 0x00, 0x00, 0, 0},
    {2, 3, 3, 0, 1, 0, 0x00, 0x32, 1, 1},
};

/* The bits or the cells of one super frame. */
struct bits {
    uint8_t fac[DRM_FAC_BYTES], sdc[DRM_MOST_SDC_BYTES], msc[DRM_MOST_MSC_BYTES];
};
struct cells {
    int16_t fac[DRM_FAC_NUMBERS], sdc[DRM_MOST_SDC_NUMBERS], msc[DRM_MOST_MSC_NUMBERS];
};

/* A coder or a reader. */
struct side {
    uint8_t state[DRM_STATE_BYTES];
    uint8_t memory[DRM_MOST_MEMORY_BYTES];
};

static struct side coder, reader;
static struct bits brought, given;
static struct cells cells, shown;
static uint8_t next[DRM_STATE_BYTES]; /* the state after the super frame that is shown */
static uint8_t frames[FRAMES * (DRM_MOST_MSC_BYTES / 3)]; /* every frame brought, one after another */
static uint16_t lengths[DRM_LENGTHS];
static uint32_t sizes[DRM_SIZES];

/* Names for the places of sizes. */
enum { SDC_BYTES, MSC_BYTES, FAC_NUMBERS, SDC_NUMBERS, MSC_NUMBERS, MEMORY };

static void must(int holds, const char *what) {
    if (!holds) {
        fprintf(stderr, "not as it must be: %s\n", what);
        exit(1);
    }
}

/* Fills a block of so many bits; its spare bits stay zero. */
static void draw(uint8_t *block, size_t bits) {
    static uint32_t x = 1;
    size_t i;
    for (i = 0; i < (bits + 7) / 8; i++) {
        x = x * 1103515245u + 12345u;
        block[i] = (uint8_t)(x >> 16);
    }
    if (bits % 8 != 0)
        block[bits / 8] &= (uint8_t)(0xFF << (8 - bits % 8));
}

/* Bits of an SDC block, from its cells. */
static size_t sdc_bits(const uint8_t *settings) {
    size_t n = sizes[SDC_NUMBERS] / 2;
    return settings[8] == 1 ? n - 6 : (2 * n - 12) / 3 * 3;
}

/* The fields of FAC block k of a super frame: one audio service in English, its identity by the block's place. */
static void fac_fields(const uint8_t *settings, uint32_t k, uint32_t *fields) {
    const uint32_t of_block[DRM_FAC_FIELDS] = {
        0, k, settings[1], settings[9], settings[2], settings[8], 4, 0, 0xE1C238, 0, 0, 5, 0, 1};
    memcpy(fields, of_block, sizeof of_block);
}

static unsigned fac_read(const uint8_t *settings, const uint8_t *block, uint32_t *fields) {
    return drm_fac_read(settings, DRM_SETTINGS_BYTES, block, DRM_FAC_BLOCK_BYTES, fields, DRM_FAC_FIELDS);
}

/* Builds FAC block k, and sees that no wrong bit and no field against the settings passes. */
static void fac_block(const uint8_t *settings, uint32_t k, uint8_t *block) {
    uint32_t fields[DRM_FAC_FIELDS], read[DRM_FAC_FIELDS], i;
    fac_fields(settings, k, fields);
    must(drm_fac_build(settings, DRM_SETTINGS_BYTES, fields, DRM_FAC_FIELDS, block, DRM_FAC_BLOCK_BYTES) == 0,
         "an FAC block is built");
    must(fac_read(settings, block, read) == 0 && memcmp(read, fields, sizeof read) == 0, "its fields are read back");
    for (i = 0; i < 72; i++) {
        block[i / 8] ^= 0x80 >> i % 8;
        must(fac_read(settings, block, read) >= DRM_REFUSED_FIELD, "a wrong bit of an FAC block is refused");
        block[i / 8] ^= 0x80 >> i % 8;
    }
    fields[2] = (fields[2] + 1) % 6;
    must(drm_fac_build(settings, DRM_SETTINGS_BYTES, fields, DRM_FAC_FIELDS, block, DRM_FAC_BLOCK_BYTES) ==
             DRM_REFUSED_FIELD,
         "another occupancy than that of the settings is refused by 15");
}

/* The bits of super frame m, of which the last ones have zero MSC bits; outputs are made such as nobody wants. */
static void bring(const uint8_t *settings, size_t m) {
    size_t bits = (size_t)lengths[4] + lengths[2] + lengths[3], bytes = sizes[MSC_BYTES] / 3, k;
    memset(&brought, 0, sizeof brought);
    memset(&given, 0xA5, sizeof given);
    memset(&cells, 0xA5, sizeof cells);
    for (k = 0; k < 3; k++)
        fac_block(settings, (uint32_t)k, brought.fac + DRM_FAC_BLOCK_BYTES * k);
    draw(brought.sdc, sdc_bits(settings));
    for (k = 0; k < 3 && m < SUPER_FRAMES - CLOSING; k++)
        draw(brought.msc + bytes * k, bits);
    memcpy(frames + 3 * bytes * m, brought.msc, 3 * bytes);
}

static unsigned code(size_t fac_bytes) {
    return drm_code(coder.state, DRM_STATE_BYTES, coder.memory, sizes[MEMORY], brought.fac, fac_bytes, brought.sdc,
                    sizes[SDC_BYTES], brought.msc, sizes[MSC_BYTES], cells.fac, sizes[FAC_NUMBERS], cells.sdc,
                    sizes[SDC_NUMBERS], cells.msc, sizes[MSC_NUMBERS]);
}

static unsigned read_back(size_t state_bytes) {
    return drm_read(reader.state, state_bytes, reader.memory, sizes[MEMORY], cells.fac, sizes[FAC_NUMBERS], cells.sdc,
                    sizes[SDC_NUMBERS], cells.msc, sizes[MSC_NUMBERS], given.fac, DRM_FAC_BYTES, given.sdc,
                    sizes[SDC_BYTES], given.msc, sizes[MSC_BYTES]);
}

static unsigned read_on(uint8_t *lost, size_t lost_bytes) {
    return drm_read_on(reader.state, DRM_STATE_BYTES, reader.memory, sizes[MEMORY], cells.fac, sizes[FAC_NUMBERS],
                       cells.sdc, sizes[SDC_NUMBERS], cells.msc, sizes[MSC_NUMBERS], given.fac, DRM_FAC_BYTES, given.sdc,
                       sizes[SDC_BYTES], given.msc, sizes[MSC_BYTES], lost, lost_bytes);
}

static unsigned show(size_t fac_bytes) {
    return drm_preview(coder.state, DRM_STATE_BYTES, coder.memory, sizes[MEMORY], brought.fac, fac_bytes, brought.sdc,
                       sizes[SDC_BYTES], brought.msc, sizes[MSC_BYTES], shown.fac, sizes[FAC_NUMBERS], shown.sdc,
                       sizes[SDC_NUMBERS], shown.msc, sizes[MSC_NUMBERS], next, sizeof next);
}

/* Shows the super frame and codes it: what was shown is sent, and showing leaves the coder. */
static void show_and_code(void) {
    static struct side before;
    before = coder;
    shown = cells;
    must(show(DRM_FAC_BYTES - 1) == DRM_REFUSED_INPUT_LENGTH, "a preview is refused as coding is");
    must(memcmp(&shown, &cells, sizeof shown) == 0, "a refused preview leaves the cells");
    must(show(DRM_FAC_BYTES) == DRM_ACCEPTED, "the super frame is shown");
    must(memcmp(&coder, &before, sizeof coder) == 0, "a preview leaves the coder");
    must(code(DRM_FAC_BYTES) == DRM_ACCEPTED, "the super frame is coded");
    must(memcmp(&cells, &shown, sizeof cells) == 0, "the cells shown are sent");
    must(memcmp(coder.state, next, sizeof next) == 0, "the state shown is reached");
}

/* Calls that must be refused, and write nothing. */
static void refused_calls(void) {
    static struct side coder_before, reader_before;
    static struct cells cells_before;
    static struct bits given_before;
    coder_before = coder;
    reader_before = reader;
    cells_before = cells;
    given_before = given;
    must(code(DRM_FAC_BYTES - 1) == DRM_REFUSED_INPUT_LENGTH, "an FAC input without its last byte is refused by 9");
    must(read_back(DRM_STATE_BYTES - 1) == 256 * DRM_REFUSED_SLICE, "a state of a byte too few is refused by 255");
    cells.fac[130] = 0;
    must(read_back(DRM_STATE_BYTES) == 256 * DRM_REFUSED_POINT + 1, "a 0 in FAC block 1 is refused by 13, block 1");
    cells.fac[130] = cells_before.fac[130];
    must(memcmp(&coder, &coder_before, sizeof coder) == 0, "a refused call leaves the coder");
    must(memcmp(&reader, &reader_before, sizeof reader) == 0, "a refused call leaves the reader");
    must(memcmp(&cells, &cells_before, sizeof cells) == 0, "a refused call leaves the cells");
    must(memcmp(&given, &given_before, sizeof given) == 0, "a refused call leaves the bits");
}

/* Places the cells on a grid, spoils its kinds, and takes the cells off again. */
static void grid_and_back(const uint8_t *settings) {
    static int16_t grid[DRM_MOST_GRID_NUMBERS];
    static struct cells taken;
    uint32_t of_grid[DRM_GRID_SIZES];
    size_t i, references = 0;
    must(drm_grid_sizes(settings, DRM_SETTINGS_BYTES, of_grid, DRM_GRID_SIZES) == 0, "the settings have a grid");
    must(of_grid[2] == 3 * of_grid[0] * of_grid[1], "a grid has three numbers a place");
    must(drm_grid_place(settings, DRM_SETTINGS_BYTES, cells.fac, DRM_FAC_NUMBERS, cells.sdc, sizes[SDC_NUMBERS],
                        cells.msc, sizes[MSC_NUMBERS], grid, of_grid[2] - 1) == DRM_REFUSED_GRID_LENGTH,
         "a grid without its last number is refused by 17");
    must(drm_grid_place(settings, DRM_SETTINGS_BYTES, cells.fac, DRM_FAC_NUMBERS, cells.sdc, sizes[SDC_NUMBERS],
                        cells.msc, sizes[MSC_NUMBERS], grid, of_grid[2]) == DRM_ACCEPTED, "the cells are placed");
    for (i = 0; i < of_grid[2]; i += 3) {
        if (grid[i] < DRM_FAC_CELL) {
            must(grid[i + 1] == 0 && grid[i + 2] == 0, "references and empty places have the cell (0, 0)");
            references++;
            grid[i + 1] = 99;
        }
        grid[i] = -1;
    }
    must(of_grid[0] * of_grid[1] - references == (DRM_FAC_NUMBERS + sizes[SDC_NUMBERS] + sizes[MSC_NUMBERS]) / 2,
         "there is a place for each cell");
    memset(&taken, 0xA5, sizeof taken);
    must(drm_grid_take(settings, DRM_SETTINGS_BYTES, grid, of_grid[2], taken.fac, DRM_FAC_NUMBERS, taken.sdc,
                       sizes[SDC_NUMBERS], taken.msc, sizes[MSC_NUMBERS]) == DRM_ACCEPTED, "the cells are taken");
    must(memcmp(taken.fac, cells.fac, sizeof taken.fac) == 0, "FAC cells are taken as placed");
    must(memcmp(taken.sdc, cells.sdc, 2 * sizes[SDC_NUMBERS]) == 0, "SDC cells are taken as placed");
    must(memcmp(taken.msc, cells.msc, 2 * sizes[MSC_NUMBERS]) == 0, "MSC cells are taken as placed");
}

/* Treats 24 bits in two pieces, cut inside a byte, and compares them with one piece; then back. */
static void treat_in_pieces(void) {
    static const uint8_t whole[3] = {0xAB, 0xCD, 0xEF}, first[2] = {0xAB, 0xC0}, second[2] = {0xDE, 0xF0};
    uint8_t at_once[3], one[2], two[2], back[3];
    must(drm_disperse(0, 24, whole, 3, at_once, 3) == DRM_ACCEPTED, "24 bits are treated");
    must(drm_disperse(0, 12, first, 2, one, 2) == DRM_ACCEPTED, "the first 12 are treated");
    must(drm_disperse(12, 12, second, 2, two, 2) == DRM_ACCEPTED, "the other 12 go on from there");
    must(at_once[0] == one[0] && at_once[1] == (one[1] | two[0] >> 4) && at_once[2] == (uint8_t)(two[0] << 4 | two[1] >> 4),
         "two pieces are the whole");
    must(drm_disperse(0, 24, at_once, 3, back, 3) == DRM_ACCEPTED && memcmp(back, whole, 3) == 0, "twice gives the bits back");
    must(drm_disperse(0, 12, whole, 2, two, 2) == DRM_REFUSED_SPARE_BIT, "a spare bit is refused by 11");
}

/* A new hold file of the coder by hand: position and count, then a line for each slot. */
static void write_file(const uint8_t *settings, uint8_t *file) {
    static const char digits[] = "0123456789ABCDEF";
    size_t slots = settings[9] == 0 ? 5 : 1, i, k = 0;
    file[k++] = (uint8_t)digits[coder.state[10]];
    file[k++] = (uint8_t)digits[coder.state[11]];
    file[k++] = '\n';
    for (i = 0; i < sizes[MEMORY]; i++) {
        file[k++] = (uint8_t)digits[coder.memory[i] / 16];
        file[k++] = (uint8_t)digits[coder.memory[i] % 16];
        if ((i + 1) % (sizes[MEMORY] / slots) == 0)
            file[k++] = '\n';
    }
}

/* A coder or a reader is stored in the old form or in the new, lost, and restored with the settings. */
static void power_down(const uint8_t *settings, struct side *side, int in_old) {
    static uint8_t file[DRM_MOST_OLD_HOLD_BYTES];
    static struct side before;
    uint32_t bytes[DRM_HOLD_SIZES], n;
    must(drm_hold_sizes(settings, DRM_SETTINGS_BYTES, bytes, DRM_HOLD_SIZES) == DRM_ACCEPTED, "the settings have hold files");
    n = bytes[in_old ? 0 : 1];
    must((in_old ? drm_store_old : drm_store_new)(side->state, DRM_STATE_BYTES, side->memory, sizes[MEMORY], file, n) ==
             DRM_ACCEPTED, "state and memory are stored");
    before = *side;
    memset(side, 0xA5, sizeof *side);
    must((in_old ? drm_restore_old : drm_restore_new)(side->state, DRM_STATE_BYTES, settings, DRM_SETTINGS_BYTES, file, n,
                                                      side->memory, sizes[MEMORY]) == DRM_ACCEPTED, "they are restored");
    must(memcmp(side->state, before.state, DRM_STATE_BYTES) == 0 &&
             memcmp(side->memory, before.memory, sizes[MEMORY]) == 0, "state and memory are what they were");
}

/* The coder's hold file in the new form, turned into the old one and back; then files that are none. */
static void hold_files(const uint8_t *settings) {
    static uint8_t file[DRM_MOST_NEW_HOLD_BYTES], old[DRM_MOST_OLD_HOLD_BYTES], back[DRM_MOST_NEW_HOLD_BYTES];
    uint32_t bytes[DRM_HOLD_SIZES];
    must(drm_hold_sizes(settings, DRM_SETTINGS_BYTES, bytes, DRM_HOLD_SIZES) == DRM_ACCEPTED, "the settings have hold files");
    write_file(settings, file);
    must(drm_store_new(coder.state, DRM_STATE_BYTES, coder.memory, sizes[MEMORY], back, bytes[1]) == DRM_ACCEPTED &&
             memcmp(back, file, bytes[1]) == 0, "storing writes that file");
    must(drm_to_old(settings, DRM_SETTINGS_BYTES, file, bytes[1], old, bytes[0]) == DRM_ACCEPTED, "the file is turned");
    must(drm_to_new(settings, DRM_SETTINGS_BYTES, old, bytes[0], back, bytes[1]) == DRM_ACCEPTED, "it is turned back");
    must(memcmp(back, file, bytes[1]) == 0, "it is the file again");
    printf("hold file: %u bytes, %u in the old form, first cell %.2s and %.8s, turned there and back\n", bytes[1], bytes[0],
           (const char *)file + 3, (const char *)old + 3);
    must(drm_to_new(settings, DRM_SETTINGS_BYTES, old, bytes[0], back, bytes[1] - 1) == DRM_REFUSED_OUTPUT_LENGTH,
         "room without its last byte is refused by 10");
    must(drm_to_new(settings, DRM_SETTINGS_BYTES, old, bytes[0] - 1, back, bytes[1]) == DRM_REFUSED_HOLD_FILE,
         "a file without its last line feed is refused by 18");
    memcpy(old + 3, "00000000", 8);
    must(drm_to_new(settings, DRM_SETTINGS_BYTES, old, bytes[0], back, bytes[1]) == DRM_REFUSED_HOLD_FILE,
         "the cell (0, 0) is refused by 18");
    file[3] = 'f';
    must(drm_to_old(settings, DRM_SETTINGS_BYTES, file, bytes[1], old, bytes[0]) == DRM_REFUSED_HOLD_FILE,
         "a small letter is refused by 18");
}

/* Whether what was read is what was brought, out frames being handed out before. */
static void compare(size_t out, size_t finished) {
    size_t bytes = sizes[MSC_BYTES] / 3, i;
    must(memcmp(given.fac, brought.fac, DRM_FAC_BYTES) == 0, "FAC blocks are read as brought");
    must(memcmp(given.sdc, brought.sdc, sizes[SDC_BYTES]) == 0, "the SDC block is read as brought");
    must(memcmp(given.msc, frames + bytes * out, bytes * finished) == 0, "frames are read as brought, in order");
    for (i = bytes * finished; i < 3 * bytes; i++)
        must(given.msc[i] == 0, "bytes beyond the finished frames are zero");
}

static void begin(const uint8_t *settings) {
    must(drm_lengths(settings, DRM_SETTINGS_BYTES, lengths, DRM_LENGTHS) == 0, "the settings have lengths");
    must(drm_sizes(settings, DRM_SETTINGS_BYTES, sizes, DRM_SIZES) == 0, "the settings have sizes");
    must(drm_reset(coder.state, DRM_STATE_BYTES, settings, DRM_SETTINGS_BYTES, coder.memory, sizes[MEMORY]) == 0,
         "the coder is reset");
    must(drm_reset(reader.state, DRM_STATE_BYTES, settings, DRM_SETTINGS_BYTES, reader.memory, sizes[MEMORY]) == 0,
         "the reader is reset");
    printf("mode %c, occupancy %d, MSC mode %d, %s interleaving: N1 %d, N2 %d, L1 %d, L2 %d, L_VSPP %d\n",
           'A' + settings[0], settings[1], settings[2], settings[9] == 0 ? "long" : "short", lengths[0], lengths[1],
           lengths[2], lengths[3], lengths[4]);
}

static void run(const uint8_t *settings) {
    static const unsigned in_long[SUPER_FRAMES] = {0, 2, 3, 3, 3};
    size_t m, out = 0;
    begin(settings);
    printf("  finished frames:");
    for (m = 0; m < SUPER_FRAMES; m++) {
        unsigned finished;
        bring(settings, m);
        show_and_code();
        refused_calls();
        grid_and_back(settings);
        finished = read_back(DRM_STATE_BYTES);
        printf(" %u", finished);
        must(finished == (settings[9] == 0 ? in_long[m] : 3), "frames finish 0 2 3 3 3 in long interleaving, else 3");
        compare(out, finished);
        out += finished;
        power_down(settings, &coder, m % 2 == 0);
        power_down(settings, &reader, m % 2 == 1);
    }
    must(out >= 3 * (SUPER_FRAMES - CLOSING), "every frame before the closing is read");
    printf("; %d frames brought, %d read as brought\n", FRAMES, (int)out);
    printf("  ");
    hold_files(settings);
}

/* The coder restored with a table of its own: a file does not hold it, so without it the state has the standard's. */
static void restore_with(const uint8_t *settings, const uint8_t *table) {
    static uint8_t file[DRM_MOST_NEW_HOLD_BYTES], state[DRM_STATE_BYTES];
    uint32_t bytes[DRM_HOLD_SIZES];
    must(drm_hold_sizes(settings, DRM_SETTINGS_BYTES, bytes, DRM_HOLD_SIZES) == DRM_ACCEPTED, "the settings have hold files");
    must(drm_store_new(coder.state, DRM_STATE_BYTES, coder.memory, sizes[MEMORY], file, bytes[1]) == DRM_ACCEPTED,
         "a coder with a table is stored");
    must(drm_restore_new(state, DRM_STATE_BYTES, settings, DRM_SETTINGS_BYTES, file, bytes[1], coder.memory,
                         sizes[MEMORY]) == DRM_ACCEPTED &&
             memcmp(state, coder.state, DRM_STATE_BYTES) != 0, "without the table another state is restored");
    must(drm_restore_new_table(state, DRM_STATE_BYTES, settings, DRM_SETTINGS_BYTES, table, DRM_TABLE_NUMBERS, file,
                               bytes[1], coder.memory, sizes[MEMORY]) == DRM_ACCEPTED &&
             memcmp(state, coder.state, DRM_STATE_BYTES) == 0, "with it the same");
}

/* Whether the frames of a super frame are as brought, or zero where a mark says so, out frames being handed out before. */
static void compare_frames(const uint8_t *lost, size_t out, size_t finished) {
    size_t bytes = sizes[MSC_BYTES] / 3, i, k;
    for (i = 0; i < finished; i++)
        for (k = 0; k < bytes; k++)
            must(given.msc[bytes * i + k] == (lost[i] ? 0 : frames[bytes * (out + i) + k]), "a frame is as brought, or lost and zero");
    for (i = finished; i < 3; i++)
        must(lost[i] == 0, "a frame that is not finished is not lost");
}

/* A run of which one super frame comes in without a cell: reading on loses what that costs, and nothing else. */
static void spoiled(const uint8_t *settings) {
    enum { SPOILED = 1 };
    size_t before = settings[9] == 0 ? 4 : 0, m, i, out = 0;
    uint8_t lost[DRM_LOST_BYTES];
    begin(settings);
    printf("  lost of three FAC blocks, SDC block, finished frames:");
    for (m = 0; m < SUPER_FRAMES; m++) {
        unsigned finished;
        bring(settings, m);
        must(code(DRM_FAC_BYTES) == DRM_ACCEPTED, "the super frame is coded");
        if (m == SPOILED) {
            memset(&cells, 0, sizeof cells);
            must(read_back(DRM_STATE_BYTES) == 256 * DRM_REFUSED_POINT, "Read stops there with 13, block 0");
        }
        memset(lost, 0xA5, sizeof lost);
        must(read_on(lost, sizeof lost - 1) == 256 * DRM_REFUSED_OUTPUT_LENGTH, "six bytes for what is lost are refused by 10");
        finished = read_on(lost, sizeof lost);
        must(finished <= 3, "reading on accepts any cells");
        for (i = 0; i < 4; i++)
            must(lost[i] == (m == SPOILED), "FAC and SDC blocks of the spoiled super frame are lost, and no others");
        for (i = 0; i < finished; i++)
            must(lost[4 + i] == (out + i + before >= 3 * SPOILED && out + i <= 3 * SPOILED + 2),
                 "frames are lost that had cells in it, and no others");
        compare_frames(lost + 4, out, finished);
        if (m != SPOILED)
            must(memcmp(given.fac, brought.fac, DRM_FAC_BYTES) == 0 &&
                     memcmp(given.sdc, brought.sdc, sizes[SDC_BYTES]) == 0, "other blocks are read as brought");
        printf(" ");
        for (i = 0; i < sizeof lost; i++)
            printf("%d", lost[i]);
        out += finished;
    }
    printf("\n");
}

/* A super frame with a puncturing table of one's own: rate 3/5 keeps b1 of its second column, not of its third. */
static void own_table(const uint8_t *settings) {
    enum { TABLE = 12, RATE_3_5 = 56 };
    static struct cells standard;
    uint8_t table[DRM_TABLE_NUMBERS];
    begin(settings);
    bring(settings, 0);
    must(code(DRM_FAC_BYTES) == DRM_ACCEPTED, "the super frame is coded by the standard's table");
    standard = cells;
    memcpy(table, coder.state + TABLE, sizeof table);
    table[RATE_3_5 + 4] = 1;
    table[RATE_3_5 + 5] = 0;
    must(drm_reset_table(coder.state, DRM_STATE_BYTES, settings, DRM_SETTINGS_BYTES, table, sizeof table, coder.memory,
                         sizes[MEMORY]) == DRM_ACCEPTED, "the coder takes the table");
    must(drm_reset_table(reader.state, DRM_STATE_BYTES, settings, DRM_SETTINGS_BYTES, table, sizeof table,
                         reader.memory, sizes[MEMORY]) == DRM_ACCEPTED, "the reader takes the table");
    must(code(DRM_FAC_BYTES) == DRM_ACCEPTED, "the super frame is coded by the table");
    must(memcmp(cells.fac, standard.fac, sizeof cells.fac) != 0, "the FAC has other cells");
    must(memcmp(cells.sdc, standard.sdc, sizeof cells.sdc) == 0, "the SDC, of other rates, has the same");
    must(read_back(DRM_STATE_BYTES) == 3, "the reader with the table reads them");
    compare(0, 3);
    restore_with(settings, table);
    table[RATE_3_5] = 0;
    must(drm_reset_table(coder.state, DRM_STATE_BYTES, settings, DRM_SETTINGS_BYTES, table, sizeof table, coder.memory,
                         sizes[MEMORY]) == DRM_REFUSED_TABLE, "a table that leaves out a b0 is refused by 23");
    printf("own puncturing table: read as brought\n");
}

/* The first FAC block of the last super frame, from its cells with errors: wrong bits, and bits that are not known. */
static void nearest(void) {
    uint8_t received[DRM_FAC_VALUES], block[DRM_FAC_BLOCK_BYTES];
    uint16_t wrong = 7;
    size_t i;
    for (i = 0; i < DRM_FAC_VALUES; i++)
        received[i] = cells.fac[i] < 0;
    for (i = 0; i < DRM_FAC_VALUES; i += 10)
        received[i] = 2;
    received[33] ^= 1;
    received[77] ^= 1;
    must(drm_fac_nearest(received, DRM_FAC_VALUES, block, sizeof block, &wrong, 1) == DRM_ACCEPTED, "a block is found");
    must(memcmp(block, brought.fac, sizeof block) == 0 && wrong == 2, "it is the block brought, with two wrong bits");
    received[5] = 3;
    must(drm_fac_nearest(received, DRM_FAC_VALUES, block, sizeof block, &wrong, 1) == DRM_REFUSED_VALUE, "3 is no value");
    printf("nearest FAC block: found with 13 bits unknown and %d wrong\n", wrong);
}

/* The same block as a front end measures it: noise on every cell, three numbers with a wrong sign, eight fades. */
static void measured(const uint8_t *settings) {
    uint8_t kinds[DRM_FAC_CELLS], bits[DRM_FAC_VALUES], block[DRM_FAC_BLOCK_BYTES];
    float values[2 * DRM_FAC_CELLS];
    int16_t points[2 * DRM_FAC_CELLS];
    uint16_t wrong = 99;
    size_t i;
    for (i = 0; i < 2 * DRM_FAC_CELLS; i++)
        values[i] = (float)cells.fac[i] + (float)(i * 37 % 19) / 10.0f - 0.9f;
    for (i = 0; i < DRM_FAC_CELLS; i++)
        kinds[i] = i % 8 == 3 ? DRM_FADE : DRM_PAIR;
    for (i = 3; i < DRM_FAC_CELLS; i += 8)
        values[2 * i] = 0.01f; /* the gain */
    values[20] = (float)-cells.fac[20];
    values[75] = (float)-cells.fac[75];
    values[100] = (float)-cells.fac[100];
    must(drm_decide_fac(settings, DRM_SETTINGS_BYTES, kinds, DRM_FAC_CELLS, values, 2 * DRM_FAC_CELLS, points,
                        2 * DRM_FAC_CELLS, bits, DRM_FAC_VALUES) == DRM_ACCEPTED, "measured cells are decided");
    for (i = 0; i < 2 * DRM_FAC_CELLS; i++) {
        if (kinds[i / 2] == DRM_FADE)
            must(points[i] == 0 && bits[i] == 2, "a fade gives (0, 0) and unknown bits");
        else
            must(points[i] == 1 - 2 * bits[i], "bits and point agree");
    }
    must(drm_fac_nearest(bits, DRM_FAC_VALUES, block, sizeof block, &wrong, 1) == DRM_ACCEPTED, "a block is found");
    must(memcmp(block, brought.fac, sizeof block) == 0 && wrong == 3, "it is the block brought, with three wrong bits");
    values[6] = -1.0f;
    must(drm_decide_fac(settings, DRM_SETTINGS_BYTES, kinds, DRM_FAC_CELLS, values, 2 * DRM_FAC_CELLS, points,
                        2 * DRM_FAC_CELLS, bits, DRM_FAC_VALUES) == DRM_REFUSED_MEASURED, "a gain below zero is refused");
    printf("measured FAC cells: decided with noise and 8 fades, block found with %d wrong bits\n", wrong);
}

/* A frame of two streams, of which the first is the hierarchical frame where there is one, built and split again. */
static void streams(const uint8_t *settings) {
    static uint8_t lent[DRM_MOST_MSC_BYTES / 3], frame[DRM_MOST_MSC_BYTES / 3], back[DRM_MOST_MSC_BYTES / 3];
    size_t bytes, n, room, head = settings[2] == 1 || settings[2] == 2;
    uint16_t description[4];
    begin(settings);
    bytes = sizes[MSC_BYTES] / 3;
    room = ((size_t)lengths[2] + lengths[3]) / 8;
    description[0] = 0;
    description[1] = head ? lengths[4] / 8 : 7;
    description[2] = (uint16_t)(settings[6] * 256 + settings[7]);
    description[3] = (uint16_t)(room - description[2] - (head ? 0 : 7));
    n = (size_t)description[1] + description[2] + description[3];
    draw(lent, 8 * n);
    must(drm_mux_build(settings, DRM_SETTINGS_BYTES, description, 4, lent, n, frame, bytes) == DRM_ACCEPTED, "a frame is built");
    must(drm_mux_read(settings, DRM_SETTINGS_BYTES, description, 4, frame, bytes, back, n) == DRM_ACCEPTED, "it is split");
    must(memcmp(back, lent, n) == 0, "its streams are those lent");
    description[3] -= 1;
    must(drm_mux_read(settings, DRM_SETTINGS_BYTES, description, 4, frame, bytes, back, n - 1) ==
             (lent[n - 1] == 0 ? DRM_ACCEPTED : DRM_REFUSED_FILLING), "a byte more than the streams have is no filling");
    description[3] += 2;
    must(drm_mux_build(settings, DRM_SETTINGS_BYTES, description, 4, lent, n + 1, frame, bytes) ==
             DRM_REFUSED_STREAM_LENGTHS, "streams that do not fit are refused by 19");
    printf("streams: %d bytes in a frame of %d, split as lent\n", (int)n, (int)bytes);
}

/* How long bytes take in a programme that is all one stream of part B: no byte, a full frame, a byte more than a super frame. */
static void how_long(const uint8_t *with_part_a) {
    uint8_t settings[DRM_SETTINGS_BYTES];
    uint32_t numbers[DRM_HOW_LONG_NUMBERS], whole;
    must(drm_how_long(with_part_a, DRM_SETTINGS_BYTES, 1, numbers, DRM_HOW_LONG_NUMBERS) == DRM_REFUSED_PART_A_OR_VSPP,
         "part A is refused by 27");
    memcpy(settings, with_part_a, DRM_SETTINGS_BYTES);
    settings[6] = settings[7] = 0;
    begin(settings);
    whole = lengths[3] / 8;
    must(drm_how_long(settings, DRM_SETTINGS_BYTES, 0, numbers, DRM_HOW_LONG_NUMBERS) == DRM_ACCEPTED, "no byte has numbers");
    must(numbers[0] == CLOSING && numbers[1] == sizes[MEMORY] && numbers[2] == 0, "it needs only the closing");
    must(drm_how_long(settings, DRM_SETTINGS_BYTES, whole, numbers, DRM_HOW_LONG_NUMBERS) == DRM_ACCEPTED, "a frame has them");
    must(numbers[0] == CLOSING + 1 && numbers[2] == lengths[3] - 8 * whole, "a full frame has the bits that hold no byte");
    must(drm_how_long(settings, DRM_SETTINGS_BYTES, 3 * whole + 1, numbers, DRM_HOW_LONG_NUMBERS) == DRM_ACCEPTED, "so do four");
    must(numbers[0] == CLOSING + 2 && numbers[2] == lengths[3] - 8u, "the last has one byte");
    printf("how long: %d bytes a frame, %d bytes take %d super frames\n", (int)whole, (int)(3 * whole + 1), (int)numbers[0]);
}

/* A rule of minutes first to after - 1. */
static void rule(uint8_t *bytes, unsigned first, unsigned after, const uint8_t *settings) {
    bytes[0] = (uint8_t)(first / 256);
    bytes[1] = (uint8_t)(first % 256);
    bytes[2] = (uint8_t)(after / 256);
    bytes[3] = (uint8_t)(after % 256);
    memcpy(bytes + 4, settings, DRM_SETTINGS_BYTES);
}

/* A week of two halves, the second one's rule first in the list. */
static void week_plan(void) {
    static const uint32_t at[] = {0, 1, 251998, 251999, 252000, 503998, 503999};
    static const uint8_t places[] = {1, 1, 1, 1, 0, 0, 0}, marks[] = {2, 0, 1, 1, 2, 1, 1};
    uint8_t rules[2 * DRM_RULE_BYTES], answer[DRM_PLAN_ANSWER_BYTES];
    size_t i;
    rule(rules, 5040, 10080, runs[1]);
    rule(rules + DRM_RULE_BYTES, 0, 5040, runs[0]);
    for (i = 0; i < sizeof at / sizeof at[0]; i++) {
        must(drm_plan(rules, sizeof rules, at[i], answer, sizeof answer) == DRM_ACCEPTED, "the plan has an answer");
        must(answer[0] == places[i] && answer[1] == marks[i], "it is the rule's place and the mark");
    }
    must(drm_plan(rules, sizeof rules, 504000, answer, sizeof answer) == DRM_REFUSED_PLAN, "the week is over");
    rule(rules + DRM_RULE_BYTES, 1, 5040, runs[0]);
    must(drm_plan(rules, sizeof rules, 0, answer, sizeof answer) == DRM_REFUSED_GAP, "minute 0 has no rule");
    rule(rules + DRM_RULE_BYTES, 0, 5041, runs[0]);
    must(drm_plan(rules, sizeof rules, 0, answer, sizeof answer) == DRM_REFUSED_OVERLAP, "minute 5040 has two");
    printf("week plan: two rules, closings at super frames 251998 and 503998\n");
}

int main(void) {
    size_t k;
    for (k = 0; k < sizeof runs / sizeof runs[0]; k++)
        run(runs[k]);
    treat_in_pieces();
    nearest();
    measured(runs[sizeof runs / sizeof runs[0] - 1]);
    own_table(runs[1]);
    spoiled(runs[0]);
    spoiled(runs[1]);
    streams(runs[0]);
    streams(runs[2]);
    how_long(runs[0]);
    week_plan();
    printf("all as it must be\n");
    return 0;
}

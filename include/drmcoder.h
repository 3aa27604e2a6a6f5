/*
 * DRM channel coder and reader (ETSI ES 201 980, clause 7): bits of the FAC, SDC and MSC to QAM cells, and back.
 *
 * The library is for x86-64 Linux. It keeps nothing between calls, takes nothing from the heap, reads and writes
 * only what it is lent, and every call returns.
 *
 * Slices
 *   Every buffer is a slice: a pointer, and in the next argument its number of elements (not of bytes). A pointer
 *   is never null, is aligned for its type (2 bytes for int16_t and uint16_t, 4 for uint32_t and float, no more is asked) and is
 *   good for all its elements. Within one call a slice that is not const overlaps no other slice; const ones
 *   may overlap each other. Slices are lent for the time of the call only.
 *
 * Threads
 *   Any thread may call, and several at the same time, if no slice that one of them writes is lent to another
 *   meanwhile. Working arrays lie on the caller's stack: DRM_STACK_BYTES of free stack are enough.
 *
 * Settings: ten bytes
 *   0  robustness mode, 0 to 3 for A to D
 *   1  spectrum occupancy, 0 to 5; modes C and D have only 3 and 5
 *   2  MSC mode: 0 64-QAM standard mapping, 1 64-QAM HMmix, 2 64-QAM HMsym, 3 16-QAM standard mapping
 *   3  protection level of part A, 0 to 3 (0 to 1 in MSC mode 3); checked even where part A is empty
 *   4  protection level of part B, likewise
 *   5  VSPP level, 0 to 3; 0 in MSC modes 0 and 3
 *   6  X, the bytes in part A: high byte
 *   7  X: low byte
 *   8  SDC mode: 0 16-QAM, 1 4-QAM
 *   9  interleaving: 0 long, 1 short
 *
 * State: 208 bytes
 *   The ten bytes of the settings, the position (0 to 4: the slot of memory that is written next), the count of
 *   frames seen (0 to 4, where it stops), and the 196 numbers of the puncturing table. In short interleaving position
 *   and count are 0. A coder and a reader each have a state and a memory of their own; before the first drm_reset,
 *   drm_reset_table or drm_restore_.. both may hold anything.
 *
 * Puncturing table: 196 numbers
 *   For the code rates 1/4, 3/10, 1/3, 4/11, 1/2, 4/7, 3/5, 2/3, 8/11, 3/4, 4/5, 7/8, 8/9 in this order: the rows B0, B1,
 *   B2 and B3 of the rate, each with as many columns as the rate's numerator; 1 keeps a bit, 0 leaves it out. It passes
 *   if every number is 0 or 1, each B0 is all ones, and the ones of each rate number its denominator. It serves the
 *   FAC, the SDC and the MSC of a run; the tails of SDC and MSC are punctured by the standard's table 66, and no length
 *   changes. drm_reset takes the standard's table (table 65).
 *
 * Packed bits
 *   First bit highest; each block and frame begins a byte, and the spare bits of its last byte are zero. A call
 *   carries three FAC blocks (72 bits each, 27 bytes together), one SDC block and three multiplex frames one after
 *   another. A multiplex frame has L_VSPP + L1 + L2 bits: the very strongly protected part, part A, part B. With
 *   N_SDC cells (half the SDC numbers), an SDC block has N_SDC - 6 bits in 4-QAM, and in 16-QAM the greatest multiple
 *   of 3 that is not above 2 * N_SDC - 12.
 *
 * Memory
 *   A byte for each cell: its high half is the real number, its low half the imaginary one, each a 4-bit two's-complement
 *   number. Slot after slot of N1 + N2 cells in mapping order, five slots in long interleaving and one in short.
 *
 * Hold files
 *   Position, count and memory as text, for a power-down; settings and table are not in it. Lines of the digits 0 to 9 and
 *   A to F, each ended by a line feed (byte 10), and nothing after the last: a line of two digits, position and count, then
 *   a line for each slot of memory, slot 0 first, with its cells in mapping order. Old form: eight digits a cell, the real
 *   and the imaginary number in 16-bit two's complement, high digit first. New form: two digits a cell, memory's byte, high
 *   half first. Every position and count up to 4 (0 in short interleaving) passes, and every point of the MSC's
 *   constellation; the cell (0, 0), which was stored in a run's first frames while frames before the first had such
 *   cells, does not.
 *
 * Cells
 *   Two numbers a cell, real before imaginary, odd, from -1 to 1 in 4-QAM, -3 to 3 in 16-QAM and -7 to 7 in 64-QAM.
 *   The FAC has 390 numbers for its three blocks. The MSC numbers are three rows of N1 + N2 sent cells each, and then
 *   none, one or two fillers: (1, 1), (1, -1).
 *
 * Refusals
 *   A call answers by the first of these that applies, and a call that is refused writes nothing at all.
 *     1  robustness mode
 *     2  occupancy not allowed for the mode
 *     3  MSC mode
 *     4  protection level of part A or part B
 *     5  VSPP level
 *     6  SDC mode or interleaving
 *     7  part A too long: N1 leaves part B fewer than 20 cells
 *    23  a puncturing table, lent or in a state, that does not pass or has not 196 numbers (not the one of the old state
 *        that is handed to a reset or a restore); this goes after 7 and before 8
 *     8  memory of the wrong length
 *     9  an input of the wrong length
 *    10  an output of the wrong length
 *    11  a spare bit set in an input of drm_code, drm_disperse, drm_preview or drm_mux_read
 *    12  position or count above 4 (above 0 in short interleaving), or a memory cell that is no point of the MSC's
 *        constellation; drm_read_on lets (0, 0) pass
 *    13  a cell lent to drm_read is no point of its constellation, or a filler is wrong; cells of frames before the
 *        first are ignored and may be anything
 *    14  cells of a block or of a finished frame that no bits give
 *    15  a field of an FAC block too large for its bits, or against the settings
 *    16  an FAC block with a wrong CRC
 *    17  a grid of the wrong length
 *    18  a hold file with a wrong number of lines, a line of a wrong length, a digit outside 0 to 9 and A to F, a position
 *        or count that 12 refuses, or a cell that is no point of the MSC's constellation: a wrong length is 18 and not 9
 *    19  a multiplex description whose part A lengths do not add up to X, or whose bytes are too many for the frame or for
 *        its VSPP
 *    20  a multiplex frame whose filling is not zero
 *    21  a value lent to drm_fac_nearest is above 2
 *    22  a measured float that is infinite or not a number, or a fade's gain that is, or is below zero
 *    24  more than 64 rules, an empty or reversed rule, a minute above 10,080, or a super frame above 503,999
 *    25  a minute without a rule
 *    26  a minute with two rules
 *    27  part A or VSPP in use (X above 0, or MSC mode 1 or 2) where drm_how_long asks for one stream in part B
 *   255  a settings, state, lengths, sizes or next slice or a plan's answer of the wrong length, or rules that are not
 *        whole; this goes before all others
 *
 * Fields of an FAC block: fourteen numbers, with their bits (clauses 6.3.3 and 6.3.4 of the standard)
 *   0  base/enhancement flag (1)        1  identity (2)               2  spectrum occupancy (4)
 *   3  interleaver depth flag (1)       4  MSC mode (2)               5  SDC mode (1)
 *   6  number of services (4)           7  reconfiguration index (3)  8  service identifier (24)
 *   9  short identifier (2)            10  CA indication (1)         11  language (4)
 *  12  audio/data flag (1)             13  service descriptor (5)
 *   Fields 2 to 5 are the settings' own numbers. A block has its reserved bits beside them (two after field 7, seven
 *   after field 13) and ends with the 8-bit CRC of annex D: 72 bits, nine bytes, one of the three blocks of drm_code.
 */
#ifndef DRMCODER_H
#define DRMCODER_H

#include <stddef.h>
#include <stdint.h>

#ifdef __cplusplus
extern "C" {
#endif

/* Elements of the slices whose length is always the same. */
enum {
    DRM_SETTINGS_BYTES = 10,
    DRM_STATE_BYTES = 208,
    DRM_TABLE_NUMBERS = 196,
    DRM_LENGTHS = 5,
    DRM_SIZES = 6,
    DRM_FAC_BYTES = 27,
    DRM_FAC_NUMBERS = 390,
    DRM_FAC_BLOCK_BYTES = 9,
    DRM_FAC_FIELDS = 14,
    DRM_FAC_VALUES = 130,
    DRM_FAC_CELLS = 65,
    DRM_GRID_SIZES = 3,
    DRM_HOLD_SIZES = 2,
    DRM_LOST_BYTES = 7,
    DRM_HOW_LONG_NUMBERS = 3,
    DRM_RULE_BYTES = 14,
    DRM_PLAN_ANSWER_BYTES = 2
};

/* The most that any permitted settings ask of the other slices, for buffers that serve them all. */
enum {
    DRM_MOST_SDC_BYTES = 210,
    DRM_MOST_MSC_BYTES = 10797,
    DRM_MOST_SDC_NUMBERS = 1692,
    DRM_MOST_MSC_NUMBERS = 36708,
    DRM_MOST_MEMORY_BYTES = 30590,
    DRM_MOST_GRID_NUMBERS = 62235,
    DRM_MOST_OLD_HOLD_BYTES = 244728,
    DRM_MOST_NEW_HOLD_BYTES = 61188,
    DRM_MOST_RULES = 64
};

/* Free stack, in bytes, that is enough for any call. */
enum { DRM_STACK_BYTES = 524288 };

/* Answers: acceptance, and the refusals by their numbers above. */
enum {
    DRM_ACCEPTED = 0,
    DRM_REFUSED_MODE = 1,
    DRM_REFUSED_OCCUPANCY = 2,
    DRM_REFUSED_MSC_MODE = 3,
    DRM_REFUSED_LEVEL = 4,
    DRM_REFUSED_VSPP_LEVEL = 5,
    DRM_REFUSED_SDC_OR_INTERLEAVING = 6,
    DRM_REFUSED_PART_A = 7,
    DRM_REFUSED_MEMORY_LENGTH = 8,
    DRM_REFUSED_INPUT_LENGTH = 9,
    DRM_REFUSED_OUTPUT_LENGTH = 10,
    DRM_REFUSED_SPARE_BIT = 11,
    DRM_REFUSED_STATE_OR_MEMORY = 12,
    DRM_REFUSED_POINT = 13,
    DRM_REFUSED_BLOCK = 14,
    DRM_REFUSED_FIELD = 15,
    DRM_REFUSED_CRC = 16,
    DRM_REFUSED_GRID_LENGTH = 17,
    DRM_REFUSED_HOLD_FILE = 18,
    DRM_REFUSED_STREAM_LENGTHS = 19,
    DRM_REFUSED_FILLING = 20,
    DRM_REFUSED_VALUE = 21,
    DRM_REFUSED_MEASURED = 22,
    DRM_REFUSED_TABLE = 23,
    DRM_REFUSED_PLAN = 24,
    DRM_REFUSED_GAP = 25,
    DRM_REFUSED_OVERLAP = 26,
    DRM_REFUSED_PART_A_OR_VSPP = 27,
    DRM_REFUSED_SLICE = 255
};

/* The refusal in an answer of drm_read, 0 for acceptance, and the block that it names. */
#define DRM_READ_REFUSAL(answer) ((answer) / 256)
#define DRM_READ_BLOCK(answer) ((answer) % 256)

/*
 * Lengths of a multiplex frame: N1 and N2, the cells of parts A and B, then L1, L2 and L_VSPP, bits.
 *   settings   10 bytes
 *   lengths    5 numbers, written if the answer is 0
 * Answers 0, 1 to 7, or 255.
 */
uint8_t drm_lengths(const uint8_t *settings, size_t settings_len, uint16_t *lengths, size_t lengths_len);

/*
 * Sizes of the slices of drm_reset, drm_code and drm_read: SDC bytes, MSC bytes (three frames), FAC numbers,
 * SDC numbers, MSC numbers, memory bytes.
 *   settings   10 bytes
 *   sizes      6 numbers, written if the answer is 0
 * Answers 0, 1 to 7, or 255.
 */
uint8_t drm_sizes(const uint8_t *settings, size_t settings_len, uint32_t *sizes, size_t sizes_len);

/*
 * Begins a run: the state takes the settings and the standard's puncturing table, position and count become 0, and
 * every slot of memory is filled with the cells of a multiplex frame whose bits are all zero. These are the cells of
 * frames before the first: in long interleaving they are among the MSC cells of a run's first two super frames, and the
 * reader ignores them. So no cell of a run is (0, 0).
 *   state      208 bytes, whatever they hold
 *   settings   10 bytes
 *   memory     as many bytes as drm_sizes says, whatever they hold
 * Answers 0, 1 to 8, or 255.
 */
uint8_t drm_reset(uint8_t *state, size_t state_len, const uint8_t *settings, size_t settings_len, uint8_t *memory,
                  size_t memory_len);

/*
 * Begins a run with a puncturing table of one's own: drm_reset with that table in place of the standard's. The reader
 * of the run is reset with the same table. With the standard's table both calls are the same.
 *   state      208 bytes, whatever they hold
 *   settings   10 bytes
 *   table      196 numbers
 *   memory     as many bytes as drm_sizes says, whatever they hold
 * Answers 0, 1 to 7, 23, 8, or 255.
 */
uint8_t drm_reset_table(uint8_t *state, size_t state_len, const uint8_t *settings, size_t settings_len,
                        const uint8_t *table, size_t table_len, uint8_t *memory, size_t memory_len);

/*
 * Codes one super frame. Of memory only the slots of its three frames are written.
 *   state      208 bytes, as the last accepted call left them
 *   memory     likewise
 *   fac, sdc, msc                    27, SDC bytes, MSC bytes: the bits to code
 *   fac_cells, sdc_cells, msc_cells  390, SDC numbers, MSC numbers: all are written if the answer is 0
 * Answers 0, 1 to 7, 23, 8 to 12, or 255. At the end of a run code two super frames whose MSC bytes are zero: the reader then
 * has every frame before them.
 */
uint8_t drm_code(uint8_t *state, size_t state_len, uint8_t *memory, size_t memory_len, const uint8_t *fac,
                 size_t fac_len, const uint8_t *sdc, size_t sdc_len, const uint8_t *msc, size_t msc_len,
                 int16_t *fac_cells, size_t fac_cells_len, int16_t *sdc_cells, size_t sdc_cells_len,
                 int16_t *msc_cells, size_t msc_cells_len);

/*
 * Shows the next super frame: the cells, the state and the answer that drm_code would give for these bits. Neither state
 * nor memory is written, so that a run goes on as if nothing had been shown.
 *   state      208 bytes, as the last accepted call of the run left them
 *   memory     likewise
 *   fac, sdc, msc                    27, SDC bytes, MSC bytes: the bits that would be coded
 *   fac_cells, sdc_cells, msc_cells  390, SDC numbers, MSC numbers: all are written if the answer is 0
 *   next       208 bytes, the state that drm_code would leave: written if the answer is 0
 * Answers 0, 1 to 7, 23, 8 to 12, or 255 (state or next).
 */
uint8_t drm_preview(const uint8_t *state, size_t state_len, const uint8_t *memory, size_t memory_len,
                    const uint8_t *fac, size_t fac_len, const uint8_t *sdc, size_t sdc_len, const uint8_t *msc,
                    size_t msc_len, int16_t *fac_cells, size_t fac_cells_len, int16_t *sdc_cells,
                    size_t sdc_cells_len, int16_t *msc_cells, size_t msc_cells_len, uint8_t *next, size_t next_len);

/*
 * Reads one super frame.
 *   state      208 bytes, as the last accepted call left them
 *   memory     likewise
 *   fac_cells, sdc_cells, msc_cells  390, SDC numbers, MSC numbers: the cells received
 *   fac, sdc, msc                    27, SDC bytes, MSC bytes: all are written if the call is accepted; the finished
 *                                    frames stand first in msc, and the bytes beyond them are zero
 * Answers the number of frames that it finished, 0 to 3, if the call is accepted: 0, then 2, then 3 each time after a
 * reset in long interleaving, always 3 in short. Otherwise the answer is 256 * refusal + block, the refusal being 1 to
 * 7, 23, 8 to 10, 12 to 14 or 255. The block is the lowest at fault for 13 and 14, and 0 for the others: 0 to 2 an FAC block,
 * 3 the SDC block; from 4 on, for 13 the three sent rows of MSC cells and 7 the fillers, for 14 the finished frames.
 */
uint16_t drm_read(uint8_t *state, size_t state_len, uint8_t *memory, size_t memory_len, const int16_t *fac_cells,
                  size_t fac_cells_len, const int16_t *sdc_cells, size_t sdc_cells_len, const int16_t *msc_cells,
                  size_t msc_cells_len, uint8_t *fac, size_t fac_len, uint8_t *sdc, size_t sdc_len, uint8_t *msc,
                  size_t msc_len);

/*
 * Reads one super frame and goes on over spoiled cells: as drm_read, but each block or finished frame either has its
 * bits or is lost, with its bytes zero, in place of the refusals 13 and 14. A received MSC cell that is no point is
 * kept as (0, 0), which 12 lets pass in this call's memory and in no other's; fillers are passed over.
 *   lost       7 bytes, 1 for lost and 0 otherwise: the three FAC blocks, the SDC block, the finished frames in the
 *              order of msc; 0 beyond them
 *   the others as for drm_read
 * Answers the number of frames that it finished, lost ones counted, or 256 * refusal, the refusal being 1 to 7, 23, 8
 * to 10, 12 or 255.
 */
uint16_t drm_read_on(uint8_t *state, size_t state_len, uint8_t *memory, size_t memory_len, const int16_t *fac_cells,
                     size_t fac_cells_len, const int16_t *sdc_cells, size_t sdc_cells_len, const int16_t *msc_cells,
                     size_t msc_cells_len, uint8_t *fac, size_t fac_len, uint8_t *sdc, size_t sdc_len, uint8_t *msc,
                     size_t msc_len, uint8_t *lost, size_t lost_len);

/*
 * Sizes of hold files: bytes of an old and of a new one.
 *   settings   10 bytes
 *   sizes      2 numbers, written if the answer is 0
 * Answers 0, 1 to 7, or 255.
 */
uint8_t drm_hold_sizes(const uint8_t *settings, size_t settings_len, uint32_t *sizes, size_t sizes_len);

/*
 * Turns an old hold file into the new form. drm_to_old turns it back, byte for byte.
 *   settings   10 bytes, those that the file was stored under
 *   old_file   as many bytes as drm_hold_sizes says, else 18
 *   new_file   as many bytes as drm_hold_sizes says: all are written if the answer is 0
 * Answers 0, 1 to 7, 10 (new_file), 18 or 255.
 */
uint8_t drm_to_new(const uint8_t *settings, size_t settings_len, const uint8_t *old_file, size_t old_file_len,
                   uint8_t *new_file, size_t new_file_len);

/*
 * Turns a new hold file into the old form. drm_to_new turns it back, byte for byte.
 *   settings   10 bytes, those that the file was stored under
 *   new_file   as many bytes as drm_hold_sizes says, else 18
 *   old_file   as many bytes as drm_hold_sizes says: all are written if the answer is 0
 * Answers 0, 1 to 7, 10 (old_file), 18 or 255.
 */
uint8_t drm_to_old(const uint8_t *settings, size_t settings_len, const uint8_t *new_file, size_t new_file_len,
                   uint8_t *old_file, size_t old_file_len);

/*
 * Stores a state and its memory in an old hold file: between two calls of a coder's run only 10 refuses it; a memory in
 * which drm_read_on keeps a cell as (0, 0) is refused by 12. Neither state nor memory is written; keep the settings, and the
 * run's own table, beside the file.
 *   state      208 bytes, as the last accepted call of the run left them
 *   memory     likewise
 *   file       as many bytes as drm_hold_sizes says: all are written if the answer is 0
 * Answers 0, 1 to 7, 23, 8, 10 (file), 12, or 255.
 */
uint8_t drm_store_old(const uint8_t *state, size_t state_len, const uint8_t *memory, size_t memory_len, uint8_t *file,
                      size_t file_len);

/* The same in a new hold file: what drm_to_new makes of the old one. */
uint8_t drm_store_new(const uint8_t *state, size_t state_len, const uint8_t *memory, size_t memory_len, uint8_t *file,
                      size_t file_len);

/*
 * Restores a run from an old hold file: the state takes the settings, the standard's puncturing table, and position and
 * count of the file, and memory its cells. With the settings that it was stored under, the run goes on as if it had not
 * been interrupted.
 *   state      208 bytes, whatever they hold
 *   settings   10 bytes, those that the file was stored under
 *   file       as many bytes as drm_hold_sizes says, else 18
 *   memory     as many bytes as drm_sizes says, whatever they hold
 * Answers 0, 1 to 8, 18, or 255.
 */
uint8_t drm_restore_old(uint8_t *state, size_t state_len, const uint8_t *settings, size_t settings_len,
                        const uint8_t *file, size_t file_len, uint8_t *memory, size_t memory_len);

/* The same from a new hold file. */
uint8_t drm_restore_new(uint8_t *state, size_t state_len, const uint8_t *settings, size_t settings_len,
                        const uint8_t *file, size_t file_len, uint8_t *memory, size_t memory_len);

/*
 * Restores a run that has a puncturing table of its own from an old hold file: drm_restore_old with that table in place of
 * the standard's.
 *   table      196 numbers, those that the run was begun with
 *   the others as for drm_restore_old
 * Answers 0, 1 to 7, 23, 8, 18, or 255.
 */
uint8_t drm_restore_old_table(uint8_t *state, size_t state_len, const uint8_t *settings, size_t settings_len,
                              const uint8_t *table, size_t table_len, const uint8_t *file, size_t file_len,
                              uint8_t *memory, size_t memory_len);

/* The same from a new hold file. */
uint8_t drm_restore_new_table(uint8_t *state, size_t state_len, const uint8_t *settings, size_t settings_len,
                              const uint8_t *table, size_t table_len, const uint8_t *file, size_t file_len,
                              uint8_t *memory, size_t memory_len);

/*
 * Builds an FAC block from its fields; reserved bits are zero.
 *   settings   10 bytes
 *   fields     14 numbers
 *   block      9 bytes, written if the answer is 0
 * Answers 0, 1 to 7, 9 (fields), 10 (block), 15, or 255.
 */
uint8_t drm_fac_build(const uint8_t *settings, size_t settings_len, const uint32_t *fields, size_t fields_len,
                      uint8_t *block, size_t block_len);

/*
 * Reads an FAC block; its reserved bits are looked at by the CRC alone. A block that differs in one bit from
 * one that is read is always refused.
 *   settings   10 bytes
 *   block      9 bytes
 *   fields     14 numbers, written if the answer is 0
 * Answers 0, 1 to 7, 9 (block), 10 (fields), 15, 16, or 255.
 */
uint8_t drm_fac_read(const uint8_t *settings, size_t settings_len, const uint8_t *block, size_t block_len,
                     uint32_t *fields, size_t fields_len);

/*
 * The FAC block nearest to received bits: the one whose coded bits disagree with the fewest known ones, and of equals the
 * one that is smaller as a binary number, first bit highest. The block is as it is before dispersal, as drm_code takes
 * it. The standard's puncturing is used.
 *   received      130 values in the order of the mapped cells (of each cell the real axis first): 0, 1, or 2 for unknown
 *   block         9 bytes, written if the answer is 0
 *   disagreement  1 number, how many known values disagree with the block's coded bits; written if the answer is 0
 * Answers 0, 9 (received), 10 (block or disagreement) or 21. If nothing is known, the block is zero and the number 0.
 */
uint8_t drm_fac_nearest(const uint8_t *received, size_t received_len, uint8_t *block, size_t block_len,
                        uint16_t *disagreement, size_t disagreement_len);

/*
 * Energy dispersal from any bit (clause 7.2.2): bit i is added modulo 2 to p(treated + i), where treated counts the bits
 * since the nine ones that stand before the sequence. A second call undoes the first; a half that begins at bit c of an
 * FAC block, an SDC block, a VSPP or the remainder of a multiplex frame goes on with treated = c of that part.
 *   treated    the bits that have been treated before these, 0 at the start of each of those parts
 *   bits       how many bits
 *   bytes      the packed bits, first bit highest: bits / 8 bytes, rounded up
 *   out        as many bytes: all are written if the answer is 0, spare bits as zero
 * Answers 0, 9 (bytes), 10 (out) or 11 (a spare bit of bytes is set).
 */
uint8_t drm_disperse(uint16_t treated, uint16_t bits, const uint8_t *bytes, size_t bytes_len, uint8_t *out,
                     size_t out_len);

/*
 * A multiplex frame from the logical frames of one to four streams (clause 6.2.3): part A of each stream, part B of each,
 * and zero bits to the end. In MSC modes 1 and 2 stream 0 is the hierarchical frame: it goes in front as VSPP, with zero
 * bits to its end, counts in neither part, and what follows begins at bit L_VSPP, inside a byte as a rule. Protection
 * levels come from the settings. Three frames, one after the other, are what drm_code takes.
 *   settings     10 bytes
 *   description  two numbers a stream, its bytes in part A and in part B; in MSC modes 1 and 2 the second of stream 0 is
 *                the hierarchical frame's bytes, and its first is not looked at
 *   streams      the logical frames in the order of their numbers, each part A and then part B: all the bytes that the
 *                description says, without that first number
 *   frame        a third of the MSC bytes, all written if the answer is 0
 * Answers 0, 1 to 7, 9 (description or streams), 10 (frame), 19 or 255.
 */
uint8_t drm_mux_build(const uint8_t *settings, size_t settings_len, const uint16_t *description, size_t description_len,
                      const uint8_t *streams, size_t streams_len, uint8_t *frame, size_t frame_len);

/*
 * Splits a multiplex frame into its streams again.
 *   settings     10 bytes
 *   description  as above
 *   frame        a third of the MSC bytes
 *   streams      as above, all written if the answer is 0
 * Answers 0, 1 to 7, 9 (description or frame), 10 (streams), 11, 19, 20 (filling that is not zero) or 255.
 */
uint8_t drm_mux_read(const uint8_t *settings, size_t settings_len, const uint16_t *description, size_t description_len,
                     const uint8_t *frame, size_t frame_len, uint8_t *streams, size_t streams_len);

/*
 * How long so many bytes take on air, one stream in part B, without coding anything: each frame but the last in use
 * carries as many whole bytes as L2 holds.
 *   settings   10 bytes
 *   bytes      how many, 0 to 4,294,967,295
 *   numbers    3, written if the answer is 0: super frames with the two of the closing, bytes of memory, and zero bits
 *              after the last byte in its frame, 0 where there are no bytes. A super frame lasts 1.2 seconds.
 * Answers 0, 1 to 7, 10 (numbers), 27 or 255.
 */
uint8_t drm_how_long(const uint8_t *settings, size_t settings_len, uint32_t bytes, uint32_t *numbers,
                     size_t numbers_len);

/*
 * Measured cells, n of any channel, to points and bits. A cell is either a measured pair or a fade that carries only its
 * gain. On each axis a pair is decided to the nearest coordinate of the constellation, the larger where two are equally
 * near; minus zero counts as zero, and (0, 0), which is no point, goes to (1, 1). The constellation is 4-QAM for the FAC,
 * by the SDC mode for the SDC, by the MSC mode for the MSC. The bits are the level bits of the point, real axis i0, i1,
 * i2, then imaginary axis i0, i1, i2, 1 to 3 an axis: 2 a cell in 4-QAM, 4 in 16-QAM, 6 in 64-QAM. A fade gives the
 * point (0, 0) and bits that are all 2, for unknown. drm_fac_nearest takes the bits of 65 FAC cells as they are.
 *   settings   10 bytes
 *   kinds      n numbers: 0 a measured pair (DRM_PAIR), any other a fade; n may be 0
 *   values     2 n floats: of a pair the real and the imaginary one, of a fade the gain and one that is not looked at
 *   points     2 n numbers, real before imaginary, written if the answer is 0
 *   bits       2, 4 or 6 times n values, each 0, 1 or 2, written if the answer is 0
 * Answers 0, 1 to 7, 9 (values of a wrong length), 10 (points or bits of a wrong length), 22 or 255.
 */
enum { DRM_PAIR = 0, DRM_FADE = 1 };

uint8_t drm_decide_fac(const uint8_t *settings, size_t settings_len, const uint8_t *kinds, size_t kinds_len,
                       const float *values, size_t values_len, int16_t *points, size_t points_len,
                       uint8_t *bits, size_t bits_len);

uint8_t drm_decide_sdc(const uint8_t *settings, size_t settings_len, const uint8_t *kinds, size_t kinds_len,
                       const float *values, size_t values_len, int16_t *points, size_t points_len,
                       uint8_t *bits, size_t bits_len);

uint8_t drm_decide_msc(const uint8_t *settings, size_t settings_len, const uint8_t *kinds, size_t kinds_len,
                       const float *values, size_t values_len, int16_t *points, size_t points_len,
                       uint8_t *bits, size_t bits_len);

/*
 * Grids (clause 8). A grid has a row for each symbol of a transmission super frame, and in it a place for each carrier
 * from k_min to k_max, carriers rising; every place is three numbers, its kind and its cell. Kinds: 0 empty, 1 frequency,
 * 2 time, 3 gain reference, 4 FAC, 5 SDC, 6 MSC; the cell is (0, 0) for kinds 0 to 3. FAC block f goes to frame f, SDC and
 * MSC cells go symbol after symbol with carriers rising.
 */
enum {
    DRM_EMPTY = 0,
    DRM_FREQUENCY_REFERENCE = 1,
    DRM_TIME_REFERENCE = 2,
    DRM_GAIN_REFERENCE = 3,
    DRM_FAC_CELL = 4,
    DRM_SDC_CELL = 5,
    DRM_MSC_CELL = 6
};

/*
 * Sizes of a grid: symbols of a super frame, carriers of a symbol, numbers of a grid (three times their product).
 *   settings   10 bytes
 *   sizes      3 numbers, written if the answer is 0
 * Answers 0, 1 to 7, or 255.
 */
uint8_t drm_grid_sizes(const uint8_t *settings, size_t settings_len, uint32_t *sizes, size_t sizes_len);

/*
 * Places the cells of one super frame on a grid, whatever they are.
 *   settings   10 bytes
 *   fac_cells, sdc_cells, msc_cells  390, SDC numbers, MSC numbers, as drm_code writes them
 *   grid       as many numbers as drm_grid_sizes says: all are written if the answer is 0
 * Answers 0, 1 to 7, 9 (cells of a wrong length), 17 (a grid of a wrong length) or 255.
 */
uint8_t drm_grid_place(const uint8_t *settings, size_t settings_len, const int16_t *fac_cells, size_t fac_cells_len,
                       const int16_t *sdc_cells, size_t sdc_cells_len, const int16_t *msc_cells, size_t msc_cells_len,
                       int16_t *grid, size_t grid_len);

/*
 * Takes the cells of one super frame off a grid. Kinds in the grid are not looked at, nor places of kinds 0 to 3.
 *   settings   10 bytes
 *   grid       as many numbers as drm_grid_sizes says
 *   fac_cells, sdc_cells, msc_cells  390, SDC numbers, MSC numbers: all are written if the answer is 0
 * Answers 0, 1 to 7, 10 (cells of a wrong length), 17 (a grid of a wrong length) or 255.
 */
uint8_t drm_grid_take(const uint8_t *settings, size_t settings_len, const int16_t *grid, size_t grid_len,
                      int16_t *fac_cells, size_t fac_cells_len, int16_t *sdc_cells, size_t sdc_cells_len,
                      int16_t *msc_cells, size_t msc_cells_len);

/*
 * The week plan: a list of at most 64 rules, each the minutes from its first to the one before its `after`, and settings. A week has
 * 10,080 minutes from 0, a minute 50 super frames. The rules may stand in any order, and must give each minute exactly one.
 *   rules        DRM_RULE_BYTES each: first minute, minute after the last (two bytes, high byte first), 10 bytes of settings
 *   super_frame  0 to 503,999
 *   answer       DRM_PLAN_ANSWER_BYTES, written if the answer is 0: the rule's place in the list, from 0; and the mark
 * Mark 1: one of the last two super frames before a rule with unequal settings, the week's first after its last included. Bring zero
 * MSC bits, and the FAC and SDC blocks of the super frame before those two again. Mark 2: the first with other settings. Reset before it.
 * Mark 0: any other.
 * Answers 0; 1 to 7 of the first rule at fault among the first 64; then 24 (more than 64 rules, an empty or reversed rule, a minute
 * above 10,080, or super_frame above 503,999), 25 (a minute without a rule) or 26 (a minute with two); 255 for rules that are not whole
 * or an answer that has not 2 bytes.
 */
uint8_t drm_plan(const uint8_t *rules, size_t rules_len, uint32_t super_frame, uint8_t *answer, size_t answer_len);

#ifdef __cplusplus
}
#endif

#endif

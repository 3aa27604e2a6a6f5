/*
 * Measures the deepest stack of each call: the call is made in a thread whose stack was painted, and afterwards the
 * paint that is left is counted. Exits with 1 if a call needs more than DRM_STACK_BYTES.
 */
#define _POSIX_C_SOURCE 200809L
#include <pthread.h>
#include <stdio.h>
#include <stdlib.h>
#include <string.h>

#include "drmcoder.h"

enum { STACK = 8 * 1024 * 1024, PAINT = 0xA5 };

static unsigned char *stack;

/* What the calls are lent; all bits are zero. */
static uint8_t settings[DRM_SETTINGS_BYTES], state[DRM_STATE_BYTES];
static uint8_t fac[DRM_FAC_BYTES], sdc[DRM_MOST_SDC_BYTES], msc[DRM_MOST_MSC_BYTES];
static int16_t fac_cells[DRM_FAC_NUMBERS], sdc_cells[DRM_MOST_SDC_NUMBERS], msc_cells[DRM_MOST_MSC_NUMBERS];
static uint8_t memory[DRM_MOST_MEMORY_BYTES];
static uint16_t lengths[DRM_LENGTHS];
static uint32_t sizes[DRM_SIZES];
static uint8_t received[DRM_FAC_VALUES], block[DRM_FAC_BLOCK_BYTES];
static uint16_t disagreement[1];
static uint8_t packed[8192], treated[8192];
static uint32_t fields[DRM_FAC_FIELDS], of_grid[DRM_GRID_SIZES];
static int16_t grid[DRM_MOST_GRID_NUMBERS];
static uint8_t measured_kinds[DRM_FAC_CELLS], measured_bits[6 * DRM_FAC_CELLS];
static float measured[2 * DRM_FAC_CELLS];
static int16_t points[2 * DRM_FAC_CELLS];
static uint8_t logical[DRM_MOST_MSC_BYTES / 3];
static uint8_t new_file[DRM_MOST_NEW_HOLD_BYTES], old_file[DRM_MOST_OLD_HOLD_BYTES];
static uint32_t of_files[DRM_HOLD_SIZES];
static uint8_t table[DRM_TABLE_NUMBERS];
static unsigned answer;

/* Bodies of the threads. */
static void *nothing(void *unused) {
    answer = 0;
    return unused;
}

static void *call_lengths(void *unused) {
    answer = drm_lengths(settings, sizeof settings, lengths, DRM_LENGTHS);
    return unused;
}

static void *call_sizes(void *unused) {
    answer = drm_sizes(settings, sizeof settings, sizes, DRM_SIZES);
    return unused;
}

static void *call_reset(void *unused) {
    answer = drm_reset(state, sizeof state, settings, sizeof settings, memory, sizes[5]);
    return unused;
}

/* With the table of the last accepted reset. */
static void *call_reset_table(void *unused) {
    memcpy(table, state + sizeof state - sizeof table, sizeof table);
    answer = drm_reset_table(state, sizeof state, settings, sizeof settings, table, sizeof table, memory, sizes[5]);
    return unused;
}

static void *call_code(void *unused) {
    answer = drm_code(state, sizeof state, memory, sizes[5], fac, sizeof fac, sdc, sizes[0], msc, sizes[1], fac_cells,
                      sizes[2], sdc_cells, sizes[3], msc_cells, sizes[4]);
    return unused;
}

static void *call_preview(void *unused) {
    static uint8_t next[DRM_STATE_BYTES];
    answer = drm_preview(state, sizeof state, memory, sizes[5], fac, sizeof fac, sdc, sizes[0], msc, sizes[1], fac_cells,
                         sizes[2], sdc_cells, sizes[3], msc_cells, sizes[4], next, sizeof next);
    return unused;
}

/* Three finished frames at most, or a refusal. */
static void *call_read(void *unused) {
    answer = drm_read(state, sizeof state, memory, sizes[5], fac_cells, sizes[2], sdc_cells, sizes[3], msc_cells,
                      sizes[4], fac, sizeof fac, sdc, sizes[0], msc, sizes[1]) > 3;
    return unused;
}

static void *call_read_on(void *unused) {
    static uint8_t lost[DRM_LOST_BYTES];
    answer = drm_read_on(state, sizeof state, memory, sizes[5], fac_cells, sizes[2], sdc_cells, sizes[3], msc_cells,
                         sizes[4], fac, sizeof fac, sdc, sizes[0], msc, sizes[1], lost, sizeof lost) > 3;
    return unused;
}

/* Without part A and VSPP, as it asks. */
static void *call_how_long(void *unused) {
    static uint32_t numbers[DRM_HOW_LONG_NUMBERS];
    uint8_t plain[DRM_SETTINGS_BYTES];
    memcpy(plain, settings, sizeof plain);
    plain[2] = settings[2] == 3 ? 3 : 0;
    plain[7] = 0;
    answer = drm_how_long(plain, sizeof plain, UINT32_MAX, numbers, DRM_HOW_LONG_NUMBERS);
    return unused;
}

/* As many rules as there may be, of 157 minutes each but the last; the week's last super frame. */
static void *call_plan(void *unused) {
    static uint8_t rules[DRM_MOST_RULES * DRM_RULE_BYTES], of_plan[DRM_PLAN_ANSWER_BYTES];
    unsigned k;
    for (k = 0; k < DRM_MOST_RULES; k++) {
        uint8_t *rule = rules + k * DRM_RULE_BYTES;
        unsigned first = k * 157, after = k + 1 < DRM_MOST_RULES ? first + 157 : 10080;
        rule[0] = (uint8_t)(first >> 8);
        rule[1] = (uint8_t)first;
        rule[2] = (uint8_t)(after >> 8);
        rule[3] = (uint8_t)after;
        memcpy(rule + 4, settings, DRM_SETTINGS_BYTES);
    }
    answer = drm_plan(rules, sizeof rules, 503999, of_plan, sizeof of_plan);
    return unused;
}

/* The bytes of files, state and memory to files, a file to the other form, and state and memory back. */
static void *call_hold_sizes(void *unused) {
    answer = drm_hold_sizes(settings, sizeof settings, of_files, DRM_HOLD_SIZES);
    return unused;
}

static void *call_store_old(void *unused) {
    answer = drm_store_old(state, sizeof state, memory, sizes[5], old_file, of_files[0]);
    return unused;
}

static void *call_store_new(void *unused) {
    answer = drm_store_new(state, sizeof state, memory, sizes[5], new_file, of_files[1]);
    return unused;
}

static void *call_to_old(void *unused) {
    answer = drm_to_old(settings, sizeof settings, new_file, of_files[1], old_file, of_files[0]);
    return unused;
}

static void *call_to_new(void *unused) {
    answer = drm_to_new(settings, sizeof settings, old_file, of_files[0], new_file, of_files[1]);
    return unused;
}

static void *call_restore_old(void *unused) {
    answer = drm_restore_old(state, sizeof state, settings, sizeof settings, old_file, of_files[0], memory, sizes[5]);
    return unused;
}

static void *call_restore_new_table(void *unused) {
    answer = drm_restore_new_table(state, sizeof state, settings, sizeof settings, table, sizeof table, new_file,
                                   of_files[1], memory, sizes[5]);
    return unused;
}

static void *call_nearest(void *unused) {
    answer = drm_fac_nearest(received, sizeof received, block, sizeof block, disagreement, 1);
    return unused;
}

static void *call_disperse(void *unused) {
    answer = drm_disperse(65535, 65535, packed, sizeof packed, treated, sizeof treated);
    return unused;
}

/* Two streams of as many bytes as the frame holds; in MSC modes 1 and 2 the first is the hierarchical frame. */
static size_t streams(uint16_t description[4]) {
    size_t room = ((size_t)lengths[2] + lengths[3]) / 8;
    description[0] = 0;
    description[1] = (uint16_t)(lengths[4] / 8);
    description[2] = settings[7];
    description[3] = (uint16_t)(room - settings[7]);
    return description[1] + room;
}

static void *call_mux_build(void *unused) {
    uint16_t description[4];
    size_t n = streams(description);
    answer = drm_mux_build(settings, sizeof settings, description, 4, logical, n, msc, sizes[1] / 3);
    return unused;
}

static void *call_mux_read(void *unused) {
    uint16_t description[4];
    size_t n = streams(description);
    answer = drm_mux_read(settings, sizeof settings, description, 4, msc, sizes[1] / 3, logical, n);
    return unused;
}

/* The four fields that must agree with the settings. */
static void *call_fac_build(void *unused) {
    fields[2] = settings[1];
    fields[3] = settings[9];
    fields[4] = settings[2];
    fields[5] = settings[8];
    answer = drm_fac_build(settings, sizeof settings, fields, DRM_FAC_FIELDS, block, sizeof block);
    return unused;
}

static void *call_fac_read(void *unused) {
    answer = drm_fac_read(settings, sizeof settings, block, sizeof block, fields, DRM_FAC_FIELDS);
    return unused;
}

static void *call_grid_sizes(void *unused) {
    answer = drm_grid_sizes(settings, sizeof settings, of_grid, DRM_GRID_SIZES);
    return unused;
}

static void *call_grid_place(void *unused) {
    answer = drm_grid_place(settings, sizeof settings, fac_cells, sizes[2], sdc_cells, sizes[3], msc_cells, sizes[4],
                            grid, of_grid[2]);
    return unused;
}

static void *call_grid_take(void *unused) {
    answer = drm_grid_take(settings, sizeof settings, grid, of_grid[2], fac_cells, sizes[2], sdc_cells, sizes[3],
                           msc_cells, sizes[4]);
    return unused;
}

/* As many cells as the FAC has, decided as MSC cells: 16-QAM in MSC mode 3, else 64-QAM. */
static void *call_decide(void *unused) {
    answer = drm_decide_msc(settings, sizeof settings, measured_kinds, DRM_FAC_CELLS, measured, 2 * DRM_FAC_CELLS, points,
                            2 * DRM_FAC_CELLS, measured_bits, (settings[2] == 3 ? 4 : 6) * DRM_FAC_CELLS);
    return unused;
}

static void must(int holds, const char *what) {
    if (!holds) {
        fprintf(stderr, "%s\n", what);
        exit(1);
    }
}

/* Bytes of stack that a thread with this body touches. */
static size_t depth(void *(*body)(void *)) {
    pthread_attr_t attributes;
    pthread_t thread;
    size_t left = 0;
    memset(stack, PAINT, STACK);
    must(pthread_attr_init(&attributes) == 0, "no thread attributes");
    must(pthread_attr_setstack(&attributes, stack, STACK) == 0, "the stack cannot be set");
    must(pthread_create(&thread, &attributes, body, NULL) == 0, "no thread");
    must(pthread_join(thread, NULL) == 0, "the thread is not joined");
    must(pthread_attr_destroy(&attributes) == 0, "thread attributes stay");
    while (left < STACK && stack[left] == PAINT)
        left++;
    return STACK - left;
}

/* In this order; a reader, just reset, reads the cells that the coder gave three times, and then goes on over them. */
static const struct {
    const char *name;
    void *(*body)(void *);
} calls[] = {
    {"lengths", call_lengths},
    {"sizes", call_sizes},
    {"reset", call_reset},
    {"code", call_code},
    {"code", call_code},
    {"code", call_code},
    {"reset", call_reset},
    {"read", call_read},
    {"read", call_read},
    {"read", call_read},
    {"nearest", call_nearest},
    {"fac_build", call_fac_build},
    {"fac_read", call_fac_read},
    {"grid_sizes", call_grid_sizes},
    {"grid_place", call_grid_place},
    {"grid_take", call_grid_take},
    {"decide", call_decide},
    {"disperse", call_disperse},
    {"reset_table", call_reset_table},
    {"preview", call_preview},
    {"mux_build", call_mux_build},
    {"mux_read", call_mux_read},
    {"reset", call_reset},
    {"read_on", call_read_on},
    {"read_on", call_read_on},
    {"read_on", call_read_on},
    {"how_long", call_how_long},
    {"plan", call_plan},
    {"reset", call_reset},
    {"hold_sizes", call_hold_sizes},
    {"store_old", call_store_old},
    {"store_new", call_store_new},
    {"to_old", call_to_old},
    {"to_new", call_to_new},
    {"restore_old", call_restore_old},
    {"restore_new_table", call_restore_new_table},
};

enum { CALLS = sizeof calls / sizeof calls[0] };

/* The first of the calls with the name of call k. */
static size_t first(size_t k) {
    size_t i = 0;
    while (strcmp(calls[i].name, calls[k].name) != 0)
        i++;
    return i;
}

/* Makes all calls with these settings. */
static void measure(size_t deepest[CALLS]) {
    size_t empty = depth(nothing), k;
    for (k = 0; k < CALLS; k++) {
        size_t used = depth(calls[k].body) - empty;
        must(answer == 0, "a good call is refused");
        if (used > deepest[first(k)])
            deepest[first(k)] = used;
    }
}

/* All pairings, MSC modes and interleavings, without and with part A. */
static void measure_all(size_t deepest[CALLS]) {
    unsigned k, measured = 0;
    for (k = 0; k < 4 * 6 * 4 * 2 * 2; k++) {
        settings[0] = (uint8_t)(k % 4);
        settings[1] = (uint8_t)(k / 4 % 6);
        settings[2] = (uint8_t)(k / 24 % 4);
        settings[7] = (uint8_t)(k / 96 % 2 * 100);
        settings[9] = (uint8_t)(k / 192);
        if (drm_lengths(settings, sizeof settings, lengths, DRM_LENGTHS) == 0) {
            measure(deepest);
            measured++;
        }
    }
    must(measured == 16 * 4 * 2 * 2, "settings of a pairing are refused");
}

int main(void) {
    size_t deepest[CALLS] = {0}, k;
    void *place;
    must(posix_memalign(&place, 4096, STACK) == 0, "no memory for a stack");
    stack = place;
    measure_all(deepest);
    for (k = 0; k < CALLS; k++) {
        if (first(k) != k)
            continue;
        printf("%s: %lu bytes of stack\n", calls[k].name, (unsigned long)deepest[k]);
        must(deepest[k] <= DRM_STACK_BYTES, "more than DRM_STACK_BYTES");
    }
    return 0;
}

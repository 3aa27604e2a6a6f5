/*
 * Decides measured cells that are refused by 22, for a caller whom the floating-point exception "invalid" would end: no
 * infinity and no quiet NaN raises one. Exits with 1, or by a signal, if anything is not as it must be.
 */
#define _GNU_SOURCE /* feenableexcept */
#include <fenv.h>
#include <math.h>
#include <stdio.h>
#include <stdlib.h>

#include "drmcoder.h"

typedef uint8_t decide(const uint8_t *, size_t, const uint8_t *, size_t, const float *, size_t, int16_t *, size_t,
                       uint8_t *, size_t);

/* A channel's call, and the bits of one of its cells. */
static const struct channel {
    const char *name;
    decide *call;
    size_t bits;
} channels[] = {{"FAC", drm_decide_fac, 2}, {"SDC", drm_decide_sdc, 4}, {"MSC", drm_decide_msc, 6}};

/* Annex C's example: 16-QAM for the SDC, 64-QAM for the MSC. */
static const uint8_t settings[DRM_SETTINGS_BYTES] = {0, 3, 0, 0, 1, 0, 0x01, 0x1D, 0, 0};

/* Cells with an infinity or a quiet NaN in either place, and gains that are one, or below zero. */
static const struct cell {
    uint8_t kind;
    float values[2];
} cells[] = {
    {DRM_PAIR, {INFINITY, 1}},         {DRM_PAIR, {-INFINITY, 1}},        {DRM_PAIR, {1, INFINITY}},
    {DRM_PAIR, {1, -INFINITY}},        {DRM_PAIR, {INFINITY, -INFINITY}}, {DRM_PAIR, {NAN, 1}},
    {DRM_PAIR, {1, NAN}},              {DRM_FADE, {INFINITY, 0}},         {DRM_FADE, {-INFINITY, 0}},
    {DRM_FADE, {NAN, 0}},              {DRM_FADE, {-1, 0}},
};

static void must(int holds, const char *what, const char *channel, size_t cell) {
    if (!holds) {
        fprintf(stderr, "not as it must be: %s, %s, cell %d\n", what, channel, (int)cell);
        exit(1);
    }
}

/* Every call refuses every cell by 22, and raises no exception. */
static void refused(void) {
    int16_t points[2];
    uint8_t bits[6];
    size_t i, k;
    for (i = 0; i < sizeof channels / sizeof channels[0]; i++)
        for (k = 0; k < sizeof cells / sizeof cells[0]; k++) {
            uint8_t answer;
            feclearexcept(FE_ALL_EXCEPT);
            answer = channels[i].call(settings, sizeof settings, &cells[k].kind, 1, cells[k].values, 2, points, 2, bits,
                                      channels[i].bits);
            must(!fetestexcept(FE_ALL_EXCEPT), "no exception is raised", channels[i].name, k);
            must(answer == DRM_REFUSED_MEASURED, "the cell is refused by 22", channels[i].name, k);
        }
}

int main(void) {
    refused();
    if (feenableexcept(FE_INVALID) == -1) {
        fprintf(stderr, "the exception cannot be unmasked here\n");
        return 1;
    }
    refused();
    printf("measured cells that are infinite or not a number: refused, no floating-point exception\n");
    return 0;
}

/*
 * Reads typical frames over and over: by the frame reader, by another build of it where OTHER is defined, and each frame's performative by Qpid Proton's generic decoder.
 * They take turns. Usage: codec [NAME READER ROUNDS]
 * Without words a line for each frame has its name, its bytes, and the nanoseconds of each reader, the best of many rounds; without OTHER the second is 0.
 * With words one reader (0, 1 or 2) reads one frame so many times, for counting instructions.
 */
#define _POSIX_C_SOURCE 199309L
#include "hisproat_frame_reader.h"

#include <proton/codec.h>
#include <stdio.h>
#include <stdlib.h>
#include <string.h>
#include <time.h>

enum { READERS = 3, TURNS = 40, CALLS = 100000, MOST = 64, HEADER = 8 };

static const struct {
    const char *name;
    size_t performative; /* the bytes of the performative; a payload comes after it */
    const char *bytes;   /* the body */
} FRAMES[] = {
    { "Open", 23, "005310C01205A1047061643140700000400060000752FF" },
    { "Begin", 15, "005311C00A04404370000000645264" },
    { "Flow", 21, "005313C0100943526443526452015200520A520041" },
    { "Transfer", 18, "005314C00D0552035207A004010203044341005375A0156C616E652034207072657373657320303030323137" },
    { "Disposition", 16, "005315C00B0541520152034100532445" },
    { "End", 28, "005317C0170100531DC01101A30E616D71703A6E6F742D616C6C6F77" },
};

static uint8_t frame[MOST], answer[27];
static size_t len, performative;
static pn_data_t *data;

#ifdef OTHER
uint8_t other_read_frame(const uint8_t *frame, size_t frame_len, uint32_t reading_limit, uint16_t channel_max, uint8_t *answer, size_t answer_len);
#endif

/* Returns 0 where the frame is read. */
static int read_by(int reader)
{
    if (reader == 0)
        return hisproat_read_frame(frame, len, MOST, 0, answer, sizeof answer);
#ifdef OTHER
    if (reader == 1)
        return other_read_frame(frame, len, MOST, 0, answer, sizeof answer);
#endif
    if (reader == 1)
        return 0;
    pn_data_clear(data);
    return pn_data_decode(data, (const char *)frame + HEADER, performative) != (ssize_t)performative;
}

static void lay(size_t n)
{
    memset(frame, 0, HEADER);
    len = HEADER + strlen(FRAMES[n].bytes) / 2;
    frame[3] = (uint8_t)len;
    frame[4] = 2;
    for (size_t i = HEADER; i < len; i++)
        frame[i] = (uint8_t)strtoul((char[]){ FRAMES[n].bytes[2 * (i - HEADER)], FRAMES[n].bytes[2 * (i - HEADER) + 1], 0 }, NULL, 16);
    performative = FRAMES[n].performative;
}

static void repeat(int reader, long rounds)
{
    for (long i = 0; i < rounds; i++)
        if (read_by(reader) != 0)
            exit(1);
}

static double nanoseconds(int reader)
{
    struct timespec from, to;
    clock_gettime(CLOCK_PROCESS_CPUTIME_ID, &from);
    repeat(reader, CALLS);
    clock_gettime(CLOCK_PROCESS_CPUTIME_ID, &to);
    return ((double)(to.tv_sec - from.tv_sec) * 1e9 + (double)(to.tv_nsec - from.tv_nsec)) / CALLS;
}

static void measure(size_t n)
{
    double best[READERS] = { 1e9, 1e9, 1e9 };
    lay(n);
    for (int turn = 0; turn < TURNS; turn++)
        for (int reader = 0; reader < READERS; reader++) {
            double taken = nanoseconds(reader);
            best[reader] = taken < best[reader] ? taken : best[reader];
        }
#ifndef OTHER
    best[1] = 0;
#endif
    printf("%s %zu %.1f %.1f %.1f\n", FRAMES[n].name, len, best[0], best[1], best[2]);
}

int main(int argc, char **argv)
{
    data = pn_data(16);
    for (size_t n = 0; n < sizeof FRAMES / sizeof FRAMES[0]; n++) {
        if (argc < 4) {
            measure(n);
        } else if (strcmp(argv[1], FRAMES[n].name) == 0) {
            lay(n);
            repeat(atoi(argv[2]), atol(argv[3]));
        }
    }
    pn_data_free(data);
    return 0;
}

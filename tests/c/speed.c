/*
 * What a call through C costs.
 *   speed                               a line for each operation: its name, how many sessions or ties there are, nanoseconds, bytes of stack
 *   speed OPERATION COUNT ROUNDS        does so many rounds with so many sessions or ties and prints nothing: for a tool that counts instructions
 *   speed stack                         the most bytes of stack that any of the operations was seen to use
 * bin/speed makes a table of the first two. The tables of the state are those of 65,536 channels in each case. A round is one call:
 *   transfer    a Transfer that comes, on the highest channel that has a session
 *   allocate    takes a channel that was never taken
 *   pair        two calls, allocate and deallocate, of the channel that was freed last
 *   new         a new listener with as many channels as there are sessions
 *   fault       a frame for no session, which is answered with a Close
 *   deep        the call that is known to use the most stack: a close order with an error, while a Begin waits whose last field is an array in an array and so on, down
 *               to the sixteenth level
 * Of so many ties all are through one outgoing channel, in one list, but the one that the call is about, on the channel in the middle. It is
 *   tie         made by a Begin, the last of them
 *   retie       replaced by a Begin for the other of two outgoing channels, which are taken in turn
 *   untie       ended by an End
 *   free        dropped when its outgoing channel is freed, which has this tie alone
 * Each round of `allocate`, `deallocate`, `fault`, `deep`, `tie`, `untie` and `free` begins by putting back what such a call changes of the state.
 */
#define _POSIX_C_SOURCE 200809L

#include "hisproat.h"

#include <pthread.h>
#include <stdio.h>
#include <stdlib.h>
#include <string.h>
#include <time.h>

enum { MOST_WAITING = 256, CHANNEL_MAX = 65535, NEAR = 6, MOVING_AT = 16, MOVING_SIZE = 26 }; /* of a state's fixed part only the moving bytes ever change */

typedef struct {
    uint8_t state[HISPROAT_STATE_SIZE(CHANNEL_MAX)];
    uint8_t set_up[MOVING_SIZE];        /* the moving bytes as they were set up */
    uint8_t place[HISPROAT_PLACE_SIZE]; /* the place of the highest channel as it was set up */
    unsigned highest;                   /* the highest channel that has a session */
    uint16_t tied;                      /* of ties: the channel in the middle, */
    uint32_t near[NEAR];                /* the places that change with its tie, */
    uint8_t nearby[NEAR][HISPROAT_PLACE_SIZE]; /* and what they were as set up */
    unsigned turn;
    uint8_t waiting[MOST_WAITING];
    uint8_t output[HISPROAT_OUTPUT_ROOM + 2 * MOST_WAITING];
    uint8_t answer[HISPROAT_ANSWER_SIZE];
} Work;

typedef uint8_t Round(Work *work);

static const uint8_t NOTHING = 0;

/* ---- The operations */

static uint8_t nothing(Work *w)
{
    (void)w;
    return 0;
}

static uint8_t *place_of(Work *w, uint32_t channel)
{
    return w->state + HISPROAT_FIXED_SIZE + (size_t)HISPROAT_PLACE_SIZE * channel;
}

static uint8_t *highest_place(Work *w)
{
    return place_of(w, w->highest);
}

static void put_back(Work *w)
{
    memcpy(w->state + MOVING_AT, w->set_up, sizeof w->set_up);
}

static uint8_t frame_in(Work *w, const uint8_t *frame, size_t len)
{
    return hisproat_on_incoming(w->state, sizeof w->state, frame, len, 0, &NOTHING, 0, w->output, sizeof w->output, w->answer, sizeof w->answer);
}

/* A press: handle, delivery-id, tag, format, settled; the value 1 */
static uint8_t transfer(Work *w)
{
    static uint8_t frame[] = { 0,    0,    0,    0x1A, 2,    0,    0, 0,    0x00, 0x53, 0x14, 0xC0, 0x08,
                               0x05, 0x43, 0x43, 0xA0, 1,    0,    0x43, 0x41, 0x00, 0x53, 0x77, 0x52, 0x01 };
    frame[6] = (uint8_t)(w->highest >> 8);
    frame[7] = (uint8_t)w->highest;
    return frame_in(w, frame, sizeof frame);
}

static uint8_t tick(Work *w)
{
    return hisproat_on_tick(w->state, sizeof w->state, w->output, sizeof w->output, w->answer, sizeof w->answer);
}

static uint8_t pair(Work *w)
{
    uint8_t refused = hisproat_on_allocate(w->state, sizeof w->state, 7, w->answer, sizeof w->answer);
    return refused ? refused : hisproat_on_deallocate(w->state, sizeof w->state, hisproat_channel(w->answer), w->answer, sizeof w->answer);
}

static uint8_t allocate(Work *w)
{
    put_back(w);
    return hisproat_on_allocate(w->state, sizeof w->state, 7, w->answer, sizeof w->answer);
}

static uint8_t deallocate(Work *w)
{
    put_back(w);
    memcpy(highest_place(w), w->place, sizeof w->place);
    return hisproat_on_deallocate(w->state, sizeof w->state, (uint16_t)w->highest, w->answer, sizeof w->answer);
}

static uint8_t new(Work *w)
{
    return hisproat_listener(w->state, sizeof w->state, (const uint8_t *)"hub", 3, 16384, (uint16_t)w->highest, 1, 30000);
}

static uint8_t fault(Work *w)
{
    static const uint8_t frame[] = { 0, 0, 0, 0x0C, 2, 0, 0xFF, 0xFF, 0x00, 0x53, 0x12, 0x45 };
    put_back(w);
    return frame_in(w, frame, sizeof frame);
}

/* A Begin of eight fields, of which the last is `arrays` arrays, one in the other. Returns its length. */
static size_t deep_begin(uint8_t *frame, unsigned arrays)
{
    static const uint8_t START[] = { 0, 0, 0, 0, 2, 0, 0, 0, 0x00, 0x53, 0x11, 0xC0, 0, 8, 0x40, 0x43, 0x43, 0x43, 0x43, 0x40, 0x40, 0xF0 };
    size_t len = sizeof START, end = len + 9 * arrays;
    memcpy(frame, START, len);
    frame[3] = (uint8_t)end;
    frame[12] = (uint8_t)(end - 13);
    for (; len < end; len += 9) {
        const uint8_t array[] = { 0, 0, 0, (uint8_t)(end - len - 4), 0, 0, 0, 1, len + 9 < end ? 0xF0 : 0x40 };
        memcpy(frame + len, array, sizeof array);
    }
    return end;
}

static uint8_t deep(Work *w)
{
    size_t len = deep_begin(w->waiting, 15);
    put_back(w);
    return hisproat_on_close_with_error(w->state, sizeof w->state, (const uint8_t *)"amqp:connection:forced", 22, 0, &NOTHING, 0, w->waiting, len, w->output,
                                        sizeof w->output, w->answer, sizeof w->answer);
}

/* ---- The operations on ties. The outgoing channel ONE has all ties but that of `tied`; OTHER has that one, or none. */

enum { ONE = 0, OTHER = 1 };

static void put_ties_back(Work *w)
{
    put_back(w);
    for (unsigned i = 0; i < NEAR; i++)
        memcpy(place_of(w, w->near[i]), w->nearby[i], HISPROAT_PLACE_SIZE);
}

static uint8_t begin_for(Work *w, uint16_t channel, uint16_t outgoing)
{
    uint8_t frame[] = { 0,    0,    0,    0x16, 2,    0, (uint8_t)(channel >> 8), (uint8_t)channel, 0x00, 0x53, 0x11, 0xC0, 0x09,
                        0x04, 0x60, (uint8_t)(outgoing >> 8), (uint8_t)outgoing, 0x43, 0x52, 100, 0x52, 100 };
    uint8_t refused = frame_in(w, frame, sizeof frame);
    return refused ? refused : w->answer[HISPROAT_AT_KIND] != HISPROAT_KIND_FORWARD;
}

static uint8_t tie(Work *w)
{
    put_ties_back(w);
    return begin_for(w, w->tied, ONE);
}

static uint8_t retie(Work *w)
{
    w->turn += 1;
    return begin_for(w, w->tied, w->turn % 2 ? OTHER : ONE);
}

static uint8_t untie(Work *w)
{
    const uint8_t frame[] = { 0, 0, 0, 0x0C, 2, 0, (uint8_t)(w->tied >> 8), (uint8_t)w->tied, 0x00, 0x53, 0x17, 0x45 };
    put_ties_back(w);
    uint8_t refused = frame_in(w, frame, sizeof frame);
    return refused ? refused : w->answer[HISPROAT_AT_KIND] != HISPROAT_KIND_FORWARD;
}

static uint8_t free_tied(Work *w)
{
    put_ties_back(w);
    return hisproat_on_deallocate(w->state, sizeof w->state, OTHER, w->answer, sizeof w->answer);
}

static uint8_t status(Work *w)
{
    return hisproat_status(w->state, sizeof w->state, w->answer, sizeof w->answer);
}

/* What is set up for an operation: sessions; or ties, where that of the channel in the middle is still to be made, is in the list of ONE, or is OTHER's. */
typedef enum { SESSIONS, TIE_TO_COME, TIE_IN_LIST, TIE_APART } Setting;

static const struct {
    const char *name;
    Round *round;
    Setting setting;
} OPERATIONS[] = {
    { "transfer", transfer, SESSIONS }, { "tick", tick, SESSIONS },   { "allocate", allocate, SESSIONS }, { "deallocate", deallocate, SESSIONS },
    { "pair", pair, SESSIONS },         { "fault", fault, SESSIONS }, { "deep", deep, SESSIONS },         { "status", status, SESSIONS },
    { "new", new, SESSIONS },           { "tie", tie, TIE_TO_COME },  { "retie", retie, TIE_IN_LIST },    { "untie", untie, TIE_IN_LIST },
    { "free", free_tied, TIE_APART },
};

enum { COUNT = sizeof OPERATIONS / sizeof OPERATIONS[0] };

/* ---- What the operations begin with */

static void need(uint8_t refused, const char *what)
{
    if (refused != 0) {
        fprintf(stderr, "speed: %s: refused with %u\n", what, refused);
        exit(1);
    }
}

static void open_listener(Work *w)
{
    static const uint8_t open[] = { 0, 0, 0, 0x11, 2, 0, 0, 0, 0x00, 0x53, 0x10, 0xC0, 0x04, 0x01, 0xA1, 1, 'p' };
    need(hisproat_listener(w->state, sizeof w->state, (const uint8_t *)"hub", 3, 16384, CHANNEL_MAX, 1, 30000), "settings");
    need(hisproat_receive_header(w->state, sizeof w->state, (const uint8_t *)"AMQP\0\1\0\0", 8, w->answer, sizeof w->answer), "header");
    need(hisproat_send_header(w->state, sizeof w->state, w->output, sizeof w->output, w->answer, sizeof w->answer), "header");
    need(frame_in(w, open, sizeof open), "Open");
    need(hisproat_send_open(w->state, sizeof w->state, w->output, sizeof w->output, w->answer, sizeof w->answer), "Open");
}

/* A listener with so many sessions, the first of them on channel 0. The last channel is left free. */
static void set_up_sessions(Work *w, unsigned sessions)
{
    uint8_t begin[] = { 0, 0, 0, 0x14, 2, 0, 0, 0, 0x00, 0x53, 0x11, 0xC0, 0x07, 0x04, 0x40, 0x43, 0x52, 100, 0x52, 100 };
    open_listener(w);
    for (unsigned i = 0; i < sessions; i++) {
        begin[6] = (uint8_t)(i >> 8);
        begin[7] = (uint8_t)i;
        need(frame_in(w, begin, sizeof begin), "Begin");
    }
    w->highest = sessions - 1;
    memcpy(w->set_up, w->state + MOVING_AT, sizeof w->set_up);
    memcpy(w->place, highest_place(w), sizeof w->place);
}

/* A listener with so many ties, on the channels from 0 on. A channel that is tied comes first in its list, so beside `tied` stand the one above and the one below. */
static void set_up_ties(Work *w, unsigned ties, Setting setting)
{
    open_listener(w);
    for (uint32_t handle = ONE; handle <= OTHER; handle++)
        need(hisproat_on_allocate(w->state, sizeof w->state, handle, w->answer, sizeof w->answer), "a channel");
    w->tied = (uint16_t)((ties - 1) / 2);
    w->turn = 0;
    for (unsigned i = 0; i < ties; i++)
        if (i != w->tied || setting != TIE_TO_COME)
            need(begin_for(w, (uint16_t)i, i == w->tied && setting == TIE_APART ? OTHER : ONE), "a tie");
    memcpy(w->set_up, w->state + MOVING_AT, sizeof w->set_up);
    const uint32_t near[NEAR] = { w->tied, ONE, OTHER, w->tied > 0 ? w->tied - 1u : 0, w->tied < CHANNEL_MAX ? w->tied + 1u : 0, ties - 1 };
    for (unsigned i = 0; i < NEAR; i++) {
        w->near[i] = near[i];
        memcpy(w->nearby[i], place_of(w, near[i]), HISPROAT_PLACE_SIZE);
    }
}

static void set_up(Work *w, size_t operation, unsigned count)
{
    if (OPERATIONS[operation].setting == SESSIONS)
        set_up_sessions(w, count);
    else
        set_up_ties(w, count, OPERATIONS[operation].setting);
}

/* ---- Measuring */

static void rounds(Round *round, Work *w, unsigned long count)
{
    for (unsigned long i = 0; i < count; i++)
        need(round(w), "a round");
}

static double seconds(void)
{
    struct timespec now;
    clock_gettime(CLOCK_PROCESS_CPUTIME_ID, &now);
    return (double)now.tv_sec + 1e-9 * (double)now.tv_nsec;
}

/* The best of many short runs, in nanoseconds a round. */
static double nanoseconds(Round *round, Work *w)
{
    enum { RUNS = 40, EACH = 2000 };
    double best = 1e9;
    for (int i = 0; i < RUNS; i++) {
        double start = seconds();
        rounds(round, w, EACH);
        double spent = (seconds() - start) * 1e9 / EACH;
        best = spent < best ? spent : best;
    }
    return best;
}

typedef struct {
    Round *round;
    Work *work;
} Job;

static void *one_round(void *job)
{
    need(((Job *)job)->round(((Job *)job)->work), "a round");
    return NULL;
}

/* How many bytes of a painted stack are left untouched by a thread that does one round. */
static size_t untouched(Round *round, Work *w)
{
    enum { STACK = 1 << 20 };
    pthread_t thread;
    pthread_attr_t attributes;
    Job job = { round, w };
    uint8_t *stack = aligned_alloc(4096, STACK);
    size_t left = 0;
    if (stack == NULL)
        exit(2);
    memset(stack, 0xA5, STACK);
    pthread_attr_init(&attributes);
    if (pthread_attr_setstack(&attributes, stack, STACK) != 0 || pthread_create(&thread, &attributes, one_round, &job) != 0)
        exit(2);
    pthread_join(thread, NULL);
    while (left < STACK && stack[left] == 0xA5)
        left++;
    pthread_attr_destroy(&attributes);
    free(stack);
    return left;
}

static size_t stack_of(Round *round, Work *w)
{
    return untouched(nothing, w) - untouched(round, w);
}

static void measure_all(void)
{
    enum { COUNTS = 3 };
    static const unsigned OF_SESSIONS[COUNTS] = { 1, 255, 65535 }, OF_TIES[COUNTS] = { 1, 256, 65536 };
    static Work w;
    for (size_t i = 0; i < COUNT; i++)
        for (size_t j = 0; j < COUNTS; j++) {
            unsigned count = (OPERATIONS[i].setting == SESSIONS ? OF_SESSIONS : OF_TIES)[j];
            set_up(&w, i, count);
            size_t stack = stack_of(OPERATIONS[i].round, &w);
            printf("%s %u %.0f %zu\n", OPERATIONS[i].name, count, nanoseconds(OPERATIONS[i].round, &w), stack);
        }
}

static size_t most_stack(void)
{
    static Work w;
    size_t most = 0;
    for (size_t i = 0; i < COUNT; i++) {
        set_up(&w, i, 1);
        size_t stack = stack_of(OPERATIONS[i].round, &w);
        most = stack > most ? stack : most;
    }
    return most;
}

int main(int argc, char **argv)
{
    static Work w;
    if (argc == 1) {
        measure_all();
        return 0;
    }
    if (argc == 2 && strcmp(argv[1], "stack") == 0) {
        printf("%zu\n", most_stack());
        return 0;
    }
    for (size_t i = 0; argc == 4 && i < COUNT; i++)
        if (strcmp(argv[1], OPERATIONS[i].name) == 0) {
            set_up(&w, i, (unsigned)strtoul(argv[2], NULL, 10));
            rounds(OPERATIONS[i].round, &w, strtoul(argv[3], NULL, 10));
            return 0;
        }
    fprintf(stderr, "usage: speed [stack | OPERATION COUNT ROUNDS]\n");
    return 2;
}

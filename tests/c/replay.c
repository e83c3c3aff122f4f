/*
 * Replays recorded lists of events (tests/oracle.txt) against the archive, and compares every answer with the recorded one.
 * The recording was made with the Rust at hand: oracle/harness/src/record.rs says what its lines mean.
 *
 * Usage: replay FILE. The last line is 'N lists, N events, 0 wrong'; the exit status is 1 where an answer differs or a line is not understood.
 */
#include <stdio.h>
#include <stdlib.h>
#include <string.h>

#include "hisproat.h"

enum { LONGEST_LINE = 65536, MOST_WORDS = 16 };

/* Bytes on the heap, of exactly their length, so that a tool sees every access outside them. */
struct bytes {
    uint8_t *at;
    size_t length;
};

struct run {
    uint8_t state[HISPROAT_STATE_SIZE(HISPROAT_MAX_CHANNEL_MAX)];
    size_t state_length; /* as many of them as the list's channel-max asks for */
    uint8_t answer[HISPROAT_ANSWER_SIZE];
    struct bytes output;
    uint8_t refused;
    unsigned long line, lists, events, wrong;
};

static void fail(struct run *run, const char *what)
{
    if (run->wrong < 20)
        printf("line %lu: %s\n", run->line, what);
    run->wrong++;
}

static struct bytes room(size_t length)
{
    struct bytes bytes = {malloc(length + (length == 0)), length};
    if (bytes.at == NULL)
        exit(2);
    return bytes;
}

static unsigned digit(char letter)
{
    return letter <= '9' ? (unsigned)(letter - '0') : (unsigned)(letter - 'a' + 10);
}

/* A word of hexadecimal digits; "-" is no bytes. */
static struct bytes read_hex(const char *word)
{
    size_t length = word[0] == '-' ? 0 : strlen(word) / 2;
    struct bytes bytes = room(length);
    for (size_t i = 0; i < length; i++)
        bytes.at[i] = (uint8_t)(digit(word[2 * i]) << 4 | digit(word[2 * i + 1]));
    return bytes;
}

static uint32_t number(const char *word)
{
    return (uint32_t)strtoul(word, NULL, 10);
}

static size_t split(char *line, char *words[MOST_WORDS])
{
    size_t count = 0;
    for (char *word = strtok(line, " \n"); word != NULL && count < MOST_WORDS; word = strtok(NULL, " \n"))
        words[count++] = word;
    return count;
}

/* list ROLE CONTAINER-ID MAX-FRAME-SIZE CHANNEL-MAX HAS-IDLE IDLE */
static void begin(struct run *run, char *words[MOST_WORDS])
{
    struct bytes id = read_hex(words[2]);
    uint32_t size = number(words[3]), idle = number(words[6]);
    uint16_t most = (uint16_t)number(words[4]);
    uint8_t has = (uint8_t)number(words[5]);
    run->state_length = HISPROAT_STATE_SIZE(most);
    uint8_t refused = number(words[1]) == HISPROAT_ROLE_DIALLER
                          ? hisproat_dialler(run->state, run->state_length, id.at, id.length, size, most, has, idle)
                          : hisproat_listener(run->state, run->state_length, id.at, id.length, size, most, has, idle);
    if (refused != 0)
        fail(run, "settings are refused");
    free(id.at);
    run->lists++;
}

/* One call. The lent slices are a, b and c, as many as the event has. */
static uint8_t call(struct run *run, char *words[MOST_WORDS], struct bytes a, struct bytes b, struct bytes c)
{
    uint8_t *s = run->state, *w = run->answer, *o = run->output.at;
    const size_t n = run->state_length, wn = sizeof run->answer, on = run->output.length;
    const char *name = words[1];
    if (strcmp(name, "send-header") == 0)
        return hisproat_send_header(s, n, o, on, w, wn);
    if (strcmp(name, "receive-header") == 0)
        return hisproat_receive_header(s, n, a.at, a.length, w, wn);
    if (strcmp(name, "send-open") == 0)
        return hisproat_send_open(s, n, o, on, w, wn);
    if (strcmp(name, "incoming") == 0)
        return hisproat_on_incoming(s, n, a.at, a.length, number(words[3]), b.at, b.length, o, on, w, wn);
    if (strcmp(name, "close") == 0)
        return hisproat_on_close(s, n, a.at, a.length, o, on, w, wn);
    if (strcmp(name, "close-with-error") == 0)
        return hisproat_on_close_with_error(s, n, a.at, a.length, (uint8_t)number(words[3]), b.at, b.length, c.at, c.length, o, on, w, wn);
    if (strcmp(name, "allocate") == 0)
        return hisproat_on_allocate(s, n, number(words[2]), w, wn);
    if (strcmp(name, "deallocate") == 0)
        return hisproat_on_deallocate(s, n, (uint16_t)number(words[2]), w, wn);
    if (strcmp(name, "outgoing") == 0)
        return hisproat_on_outgoing(s, n, a.at, a.length, o, on, w, wn);
    if (strcmp(name, "tick") == 0)
        return hisproat_on_tick(s, n, o, on, w, wn);
    if (strcmp(name, "end-of-input") == 0)
        return hisproat_on_end_of_input(s, n, o, on, w, wn);
    if (strcmp(name, "not-delivered") == 0)
        return hisproat_on_not_delivered(s, n, (uint8_t)number(words[2]), o, on, w, wn);
    fail(run, "an event of an unknown name");
    return 0;
}

/* Which of the lent slices has the frames that wait. */
static size_t waiting_length(const char *name, struct bytes a, struct bytes b, struct bytes c)
{
    if (strcmp(name, "incoming") == 0)
        return b.length;
    if (strcmp(name, "close") == 0)
        return a.length;
    return strcmp(name, "close-with-error") == 0 ? c.length : 0;
}

/* do NAME ARGUMENT.. The output has exactly the room that is asked for. */
static void event(struct run *run, char *words[MOST_WORDS], size_t count)
{
    struct bytes none = room(0), a = none, b = none, c = none;
    int numeric = strcmp(words[1], "allocate") == 0 || strcmp(words[1], "deallocate") == 0 || strcmp(words[1], "not-delivered") == 0;
    if (count > 2 && !numeric)
        a = read_hex(words[2]);
    if (count > 4)
        b = read_hex(words[4]);
    if (count > 5)
        c = read_hex(words[5]);
    free(run->output.at);
    run->output = room(hisproat_room(waiting_length(words[1], a, b, c)));
    run->refused = call(run, words, a, b, c);
    run->events++;
    if (a.at != none.at)
        free(a.at);
    if (b.at != none.at)
        free(b.at);
    if (c.at != none.at)
        free(c.at);
    free(none.at);
}

/* is STOPPED OUTCOME KIND DETAIL CHANNEL NUMBER BODY-START BODY-LENGTH CONSUMED WRITTEN */
static void answered(struct run *run, char *words[MOST_WORDS])
{
    static const struct {
        size_t at, width;
    } places[] = {
        {HISPROAT_AT_STOPPED, 1},    {HISPROAT_AT_OUTCOME, 1},     {HISPROAT_AT_KIND, 1},
        {HISPROAT_AT_DETAIL, 1},     {HISPROAT_AT_CHANNEL, 2},     {HISPROAT_AT_NUMBER, 4},
        {HISPROAT_AT_BODY_START, 8}, {HISPROAT_AT_BODY_LENGTH, 8}, {HISPROAT_AT_CONSUMED, 8},
    };
    if (run->refused != 0) {
        fail(run, "refused, and was not when it was recorded");
        return;
    }
    for (size_t i = 0; i < sizeof places / sizeof places[0]; i++)
        if (hisproat_number(run->answer + places[i].at, places[i].width) != number(words[i + 1]))
            fail(run, "another answer");
    struct bytes written = read_hex(words[10]);
    if (hisproat_written(run->answer) != written.length || memcmp(run->output.at, written.at, written.length) != 0)
        fail(run, "other bytes are written");
    free(written.at);
}

/* at PHASE OUTCOME STATE READING-LIMIT WRITING-LIMIT AGREED CHANNEL-MAX TAKEN */
static void stands(struct run *run, char *words[MOST_WORDS])
{
    static const struct {
        size_t at, width;
    } places[] = {
        {HISPROAT_STATUS_AT_PHASE, 1},         {HISPROAT_STATUS_AT_OUTCOME, 1},       {HISPROAT_STATUS_AT_STATE, 1},
        {HISPROAT_STATUS_AT_READING_LIMIT, 4}, {HISPROAT_STATUS_AT_WRITING_LIMIT, 4}, {HISPROAT_STATUS_AT_AGREED, 1},
        {HISPROAT_STATUS_AT_CHANNEL_MAX, 2},   {HISPROAT_STATUS_AT_TAKEN, 4},
    };
    uint8_t status[HISPROAT_STATUS_SIZE];
    if (hisproat_status(run->state, run->state_length, status, sizeof status) != 0)
        fail(run, "the state cannot be read");
    for (size_t i = 0; i < sizeof places / sizeof places[0]; i++)
        if (hisproat_number(status + places[i].at, places[i].width) != number(words[i + 1]))
            fail(run, "another status");
}

/* taken CHANNEL HANDLE, tied CHANNEL HANDLE; dropped CHANNEL: the Rust alone has a tie, whose outgoing channel was freed */
static void holds(struct run *run, char *words[MOST_WORDS], int is_held)
{
    uint8_t found[HISPROAT_HANDLE_SIZE];
    uint16_t channel = (uint16_t)number(words[1]);
    uint8_t refused = strcmp(words[0], "taken") == 0 ? hisproat_handle_at(run->state, run->state_length, channel, found, sizeof found)
                                                     : hisproat_tied_handle(run->state, run->state_length, channel, found, sizeof found);
    if (refused != 0 || found[HISPROAT_HANDLE_AT_FOUND] != is_held ||
        (is_held && hisproat_number(found + HISPROAT_HANDLE_AT_NUMBER, 4) != number(words[2])))
        fail(run, "another handle");
}

static void line(struct run *run, char *words[MOST_WORDS], size_t count)
{
    const char *first = words[0];
    if (first[0] == '#' || strcmp(first, "rule") == 0 || strcmp(first, "end") == 0)
        return;
    if (strcmp(first, "list") == 0 && count == 7)
        begin(run, words);
    else if (strcmp(first, "do") == 0 && count >= 2)
        event(run, words, count);
    else if (strcmp(first, "refused") == 0 && count == 2) {
        if (run->refused != number(words[1]))
            fail(run, "another refusal");
    } else if (strcmp(first, "is") == 0 && count == 11)
        answered(run, words);
    else if (strcmp(first, "at") == 0 && count == 9)
        stands(run, words);
    else if ((strcmp(first, "taken") == 0 || strcmp(first, "tied") == 0) && count == 3)
        holds(run, words, 1);
    else if (strcmp(first, "dropped") == 0 && count == 2)
        holds(run, words, 0);
    else
        fail(run, "a line that is not understood");
}

int main(int count, char **arguments)
{
    static char text[LONGEST_LINE];
    static struct run run;
    FILE *file = count == 2 ? fopen(arguments[1], "r") : NULL;
    if (file == NULL) {
        fprintf(stderr, "usage: replay FILE\n");
        return 2;
    }
    while (fgets(text, sizeof text, file) != NULL) {
        char *words[MOST_WORDS];
        run.line++;
        size_t found = split(text, words);
        if (found > 0)
            line(&run, words, found);
    }
    fclose(file);
    free(run.output.at);
    printf("%lu lists, %lu events, %lu wrong\n", run.lists, run.events, run.wrong);
    return run.wrong != 0 || run.events == 0;
}

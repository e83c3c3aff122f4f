/* See judge.h. */
#include "judge.h"

#include <string.h>

/* ---- Numbers */

static size_t width_at(size_t at)
{
    return at == AT_CHANNEL_MAX || at == AT_AGREED_MAX || at == AT_ID_LENGTH ? 2 : 4;
}

static void put_number(uint8_t *at, uint32_t number, size_t width)
{
    while (width-- > 0)
        *at++ = (uint8_t)(number >> 8 * width);
}

uint32_t fixed_number(const uint8_t *state, size_t at)
{
    return (uint32_t)hisproat_number(state + at, width_at(at));
}

void put_fixed_number(uint8_t *state, size_t at, uint32_t number)
{
    put_number(state + at, number, width_at(at));
}

static size_t place_of(uint32_t channel, unsigned field)
{
    return AT_TABLES + (size_t)HISPROAT_PLACE_SIZE * channel + 4 * field;
}

uint32_t field_of(const uint8_t *state, uint32_t channel, unsigned field)
{
    return (uint32_t)hisproat_number(state + place_of(channel, field), 4);
}

void put_field(uint8_t *state, uint32_t channel, unsigned field, uint32_t number)
{
    put_number(state + place_of(channel, field), number, 4);
}

size_t needed(const uint8_t *state, size_t len)
{
    return len < HISPROAT_FIXED_SIZE ? HISPROAT_FIXED_SIZE : HISPROAT_STATE_SIZE(fixed_number(state, AT_CHANNEL_MAX));
}

/* ---- Which fixed parts are an engine's */

/* How many bytes the character at the front takes, by RFC 3629; 0 where it is none. */
static size_t character(const uint8_t *s, size_t n)
{
    size_t more = s[0] < 0x80 ? 0 : s[0] >= 0xC2 && s[0] <= 0xDF ? 1 : (s[0] & 0xF0) == 0xE0 ? 2 : s[0] >= 0xF0 && s[0] <= 0xF4 ? 3 : 4;
    if (more == 4 || more >= n)
        return 0;
    for (size_t i = 1; i <= more; i++)
        if ((s[i] & 0xC0) != 0x80)
            return 0;
    if ((s[0] == 0xE0 && s[1] < 0xA0) || (s[0] == 0xED && s[1] > 0x9F) || (s[0] == 0xF0 && s[1] < 0x90) || (s[0] == 0xF4 && s[1] > 0x8F))
        return 0;
    return more + 1;
}

int is_utf8(const uint8_t *s, size_t n)
{
    while (n > 0) {
        size_t taken = character(s, n);
        if (taken == 0)
            return 0;
        s += taken;
        n -= taken;
    }
    return 1;
}

static int has_settings(const uint8_t *s)
{
    uint32_t size = fixed_number(s, AT_MAX_FRAME_SIZE), id = fixed_number(s, AT_ID_LENGTH);
    return s[AT_HAS_IDLE] <= 1 && size >= HISPROAT_MIN_FRAME_SIZE && size <= HISPROAT_MAX_FRAME_SIZE && id <= HISPROAT_MAX_CONTAINER_ID && is_utf8(s + AT_ID, id);
}

#define IN(state) (1u << HISPROAT_STATE_##state)

/* Which phases go with which states. A running engine has no outcome, and is not in CloseReceived: a Close is answered by the event that reads it. One awaits the peer's Close because of an error that it told
 * by its own, and only where that is on its way. It can stop anywhere because of a transport error, where nothing can be told of what is illegal, and with the other outcomes only at the end. */
static int has_phase(const uint8_t *s)
{
    static const uint32_t AWAITS = IN(CLOSE_PIPE) | IN(CLOSE_SENT) | IN(DISCARDING);
    static const uint32_t STOPS[] = {
        [HISPROAT_OUTCOME_FINE] = IN(CLOSE_PIPE) | IN(DISCARDING) | IN(END),
        [HISPROAT_OUTCOME_TRANSPORT_ERROR] = 0xFFFFFFFF,
        [HISPROAT_OUTCOME_ILLEGAL_STATE] = IN(START) | IN(HEADER_RECEIVED) | IN(HEADER_SENT) | IN(HEADER_EXCHANGE) | IN(OPEN_CLOSE_PIPE) | IN(OPEN_RECEIVED) | IN(CLOSE_PIPE) | IN(CLOSE_SENT) | IN(END),
        [HISPROAT_OUTCOME_NOT_FOUND] = IN(END),
        [HISPROAT_OUTCOME_NOT_IMPLEMENTED] = IN(END),
        [HISPROAT_OUTCOME_REMOTE_CLOSED] = IN(END),
        [HISPROAT_OUTCOME_REMOTE_CLOSED_WITH_ERROR] = IN(END),
    };
    uint8_t outcome = s[AT_OUTCOME], state = s[AT_STATE];
    if (outcome > HISPROAT_OUTCOME_REMOTE_CLOSED_WITH_ERROR || state > HISPROAT_STATE_END)
        return 0;
    switch (s[AT_PHASE]) {
    case HISPROAT_PHASE_RUNNING:
        return outcome == 0 && state != HISPROAT_STATE_CLOSE_RECEIVED;
    case HISPROAT_PHASE_AWAITING:
        return outcome >= HISPROAT_OUTCOME_ILLEGAL_STATE && outcome <= HISPROAT_OUTCOME_NOT_IMPLEMENTED && (AWAITS >> state & 1);
    case HISPROAT_PHASE_STOPPED:
        return STOPS[outcome] >> state & 1;
    default:
        return 0;
    }
}

/* Three states follow the peer's Open, and three its Open or its Close; the others come before both. */
static int fits_state(const uint8_t *s)
{
    uint8_t state = s[AT_STATE];
    int after_open = state == HISPROAT_STATE_OPEN_RECEIVED || state == HISPROAT_STATE_OPENED || state == HISPROAT_STATE_CLOSE_SENT;
    int after_either = state == HISPROAT_STATE_CLOSE_RECEIVED || state == HISPROAT_STATE_DISCARDING || state == HISPROAT_STATE_END;
    return state <= HISPROAT_STATE_END && s[AT_AGREED] <= 1 && (after_either || s[AT_AGREED] == after_open);
}

/* Both limits are 512 until the peer's Open, which sets them, and there are no channels. The channel that was freed last was handed out before; where none is free that was, the number is 0. */
static int has_limits(const uint8_t *s)
{
    uint32_t reading = fixed_number(s, AT_READING_LIMIT), writing = fixed_number(s, AT_WRITING_LIMIT), most = fixed_number(s, AT_AGREED_MAX);
    uint32_t used = fixed_number(s, AT_USED), head = fixed_number(s, AT_HEAD), freed = fixed_number(s, AT_FREED);
    if (!s[AT_AGREED])
        return reading == 512 && writing == 512 && most == 0 && used == 0 && head == 0 && freed == 0;
    return reading == fixed_number(s, AT_MAX_FRAME_SIZE) && writing >= 512 && writing <= 16384 && most <= fixed_number(s, AT_CHANNEL_MAX)
        && freed <= used && used <= most + 1 && (freed == 0 ? head == 0 : head < used);
}

int stands(const uint8_t *s, size_t len)
{
    return len >= HISPROAT_FIXED_SIZE && memcmp(s + AT_VERSION, "HSP2", 4) == 0 && s[AT_ROLE] <= HISPROAT_ROLE_LISTENER && has_phase(s) && has_settings(s) && fits_state(s)
        && has_limits(s) && len >= needed(s, len);
}

/* ---- What the tables say */

int64_t taken_by(const uint8_t *s, uint32_t channel)
{
    return channel < fixed_number(s, AT_USED) && field_of(s, channel, LINK) == TAKEN_LINK ? (int64_t)field_of(s, channel, HANDLE) : -1;
}

int64_t tied_to(const uint8_t *s, uint32_t channel)
{
    return tied_through(s, channel) >= 0 ? (int64_t)field_of(s, channel, TIED_HANDLE) : -1;
}

int64_t tied_through(const uint8_t *s, uint32_t channel)
{
    return channel <= fixed_number(s, AT_CHANNEL_MAX) ? (int64_t)field_of(s, channel, TIED_THROUGH) - 1 : -1;
}

int64_t first_free(const uint8_t *s)
{
    if (!s[AT_AGREED])
        return -1;
    if (fixed_number(s, AT_FREED) > 0)
        return fixed_number(s, AT_HEAD);
    return fixed_number(s, AT_USED) <= fixed_number(s, AT_AGREED_MAX) ? (int64_t)fixed_number(s, AT_USED) : -1;
}

int64_t hand_out_list(const uint8_t *s, uint16_t list[MOST_CHANNELS])
{
    uint32_t k = fixed_number(s, AT_HEAD), freed = fixed_number(s, AT_FREED), most = fixed_number(s, AT_AGREED_MAX), count = 0;
    if (!s[AT_AGREED])
        return 0;
    while (count < freed) {
        if (k > most)
            return -1;
        list[count++] = (uint16_t)k;
        k = field_of(s, k, LINK);
    }
    for (k = fixed_number(s, AT_USED); k <= most && count < MOST_CHANNELS; k++)
        list[count++] = (uint16_t)k;
    return count;
}

int are_shared(const uint8_t *s)
{
    static uint16_t list[MOST_CHANNELS];
    static uint8_t times[MOST_CHANNELS];
    uint32_t most = fixed_number(s, AT_AGREED_MAX);
    int64_t count = hand_out_list(s, list);
    if (!s[AT_AGREED])
        return 1;
    if (count < 0)
        return 0;
    memset(times, 0, (size_t)most + 1);
    for (int64_t i = 0; i < count; i++) {
        if (times[list[i]])
            return 0;
        times[list[i]] = 1;
    }
    for (uint32_t k = 0; k <= most; k++)
        if (times[k] == (taken_by(s, k) >= 0))
            return 0;
    return 1;
}

/* Goes along the list of an outgoing channel. Each channel in it must be tied through this one to its handle, and be linked back to the one before. Returns how many
 * there are, or -1 where something is wrong. No channel stands in a list twice: the one before it would have to be two. */
static int64_t listed(const uint8_t *s, uint32_t outgoing)
{
    uint32_t most = fixed_number(s, AT_CHANNEL_MAX), previous = 0, next = field_of(s, outgoing, FIRST);
    int64_t count = 0;
    while (next != 0) {
        uint32_t k = next - 1;
        if (k > most || count > most || tied_through(s, k) != outgoing || field_of(s, k, PREVIOUS) != previous || tied_to(s, k) != taken_by(s, outgoing))
            return -1;
        count += 1;
        previous = next;
        next = field_of(s, k, NEXT);
    }
    return count;
}

int are_tied(const uint8_t *s)
{
    int64_t ties = 0, in_lists = 0;
    for (uint32_t k = 0; k <= fixed_number(s, AT_CHANNEL_MAX); k++) {
        int64_t count = listed(s, k);
        if (count < 0)
            return 0;
        in_lists += count;
        ties += tied_through(s, k) >= 0;
    }
    return ties == in_lists;
}

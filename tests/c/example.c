/* Runs the example of the header's first comment (tests/c.sh takes it out of there) on the input of a short connection, and looks at what it sends. */
#include "hisproat.h"

#include <stdio.h>
#include <string.h>

int listen_to(const uint8_t *input, size_t length, void (*send)(const uint8_t *bytes, size_t count));

/* All that the example sent. It hands its function no place of our own, so this one is global. */
static uint8_t sent[256];
static size_t sent_len;

static void keep(const uint8_t *bytes, size_t count)
{
    if (count > sizeof sent - sent_len)
        return;
    memcpy(sent + sent_len, bytes, count);
    sent_len += count;
}

static const uint8_t INPUT[] = {
    'A', 'M', 'Q', 'P', 0, 1, 0, 0,                                                                         /* header */
    0, 0, 0, 0x13, 2, 0, 0, 0, 0x00, 0x53, 0x10, 0xC0, 0x06, 0x01, 0xA1, 3, 'p', 'a', 'd',                  /* Open */
    0, 0, 0, 0x14, 2, 0, 0, 0, 0x00, 0x53, 0x11, 0xC0, 0x07, 0x04, 0x40, 0x43, 0x52, 100, 0x52, 100,        /* Begin */
    0, 0, 0, 0x0C, 2, 0, 0, 0, 0x00, 0x53, 0x14, 0x45,                                                      /* Transfer */
    0, 0, 0, 0x0C, 2, 0, 0, 0, 0x00, 0x53, 0x18, 0x45,                                                      /* Close */
};

/* container-id hub, max-frame-size 4096, channel-max 7 */
static const uint8_t EXPECTED[] = {
    'A', 'M', 'Q', 'P', 0, 1, 0, 0,                                                                                                    /* header */
    0, 0, 0, 0x1C, 2, 0, 0, 0, 0x00, 0x53, 0x10, 0xC0, 0x0F, 0x04, 0xA1, 3, 'h', 'u', 'b', 0x40, 0x70, 0, 0, 0x10, 0, 0x60, 0, 7,      /* Open */
    0, 0, 0, 0x0C, 2, 0, 0, 0, 0x00, 0x53, 0x18, 0x45,                                                                                 /* Close */
};

int main(void)
{
    int whole = listen_to(INPUT, sizeof INPUT, keep) == HISPROAT_OUTCOME_REMOTE_CLOSED;
    int bytes = sent_len == sizeof EXPECTED && memcmp(sent, EXPECTED, sizeof EXPECTED) == 0;
    int cut_off = listen_to(INPUT, sizeof INPUT - 1, keep) == HISPROAT_OUTCOME_TRANSPORT_ERROR;
    int no_header = listen_to(INPUT, 7, keep) == -1;
    if (whole && bytes && cut_off && no_header)
        return 0;
    printf("wrong: the header's example: %d %d %d %d\n", whole, bytes, cut_off, no_header);
    return 1;
}

/*
 * Every set of causes for which a call refuses.
 */
#include "expect.h"

/* The ways in which a buffer is wrong: it is none at all, one byte too short, and one too long. */
enum way { NO_BUFFER, TOO_SHORT, TOO_LONG, WAYS };

/* The buffer that a refusal is about, if it is about one. */
static struct buffer *about(struct lent *lent, uint8_t refusal)
{
    switch (refusal) {
    case SLIPGREASE_REPLY_SCHEDULE_LENGTH:
        return &lent->schedule;
    case SLIPGREASE_REPLY_INPUT_LENGTH:
        return &lent->input;
    case SLIPGREASE_REPLY_OUTPUT_LENGTH:
        return &lent->output;
    case SLIPGREASE_REPLY_MASKS_LENGTH:
        return &lent->masks;
    case SLIPGREASE_REPLY_OFFSET_PER_BYTE:
        return &lent->offsets;
    case SLIPGREASE_REPLY_RECORD_LENGTH:
        return &lent->record;
    case SLIPGREASE_REPLY_KEY_DATA_LENGTH:
        return &lent->key_data;
    case SLIPGREASE_REPLY_WRAPPED_LENGTH:
        return &lent->wrapped;
    case SLIPGREASE_REPLY_PACKET_LENGTH:
        return &lent->packet;
    case SLIPGREASE_REPLY_PIPES_WRONG:
        return &lent->pipes;
    default:
        return NULL;
    }
}

/* Packets that both ways refuse: code 00, and fields that do not fit their code; bits 01, and others over 15 bytes and over none.
   The field comes second, and leaves the bits. */
static void spoil_field(uint8_t *packet, enum way way)
{
    static const uint8_t codes[WAYS] = {0x00, 0x20, 0x30}, lengths[WAYS] = {0, 182, 183};
    packet[3] = (uint8_t)((packet[3] & 0xc0) | codes[way]);
    packet[4] = lengths[way];
}

static void spoil_bits(uint8_t *packet, enum way way)
{
    static const uint8_t bits[WAYS] = {0x50, 0xb0, 0xe0}, lengths[WAYS] = {0, 168, 183};
    packet[3] = bits[way];
    packet[4] = lengths[way];
}

/* The one offset, or that of a byte. */
static void spoil_offset(struct lent *lent, enum way way)
{
    static const uint8_t above[WAYS] = {255, 17, 16}, places[WAYS] = {0, 7, 15};
    lent->offset = above[way];
    if (lent->offsets.bytes != NULL)
        lent->offsets.bytes[places[way]] = above[way];
}

static void spoil(struct lent *lent, uint8_t refusal, enum way way)
{
    static const uint8_t steps[WAYS] = {0, 3, 16}, forms[WAYS] = {1, 2, 255}, damaged[WAYS] = {0, 7, 23};
    static const uint8_t syncs[WAYS] = {0x00, 0x46, 0xc7};
    struct buffer *buffer = about(lent, refusal);
    if (refusal == SLIPGREASE_REPLY_OFFSET_RANGE)
        spoil_offset(lent, way);
    else if (refusal == SLIPGREASE_REPLY_STEP_WRONG)
        lent->step = steps[way];
    else if (refusal == SLIPGREASE_REPLY_FORM_UNKNOWN)
        lent->form = forms[way];
    else if (refusal == SLIPGREASE_REPLY_INTEGRITY)
        lent->wrapped.bytes[damaged[way]] ^= 1;
    else if (refusal == SLIPGREASE_REPLY_SYNC_LOST)
        lent->packet.bytes[0] = syncs[way];
    else if (refusal == SLIPGREASE_REPLY_FIELD_WRONG)
        spoil_field(lent->packet.bytes, way);
    else if (refusal == SLIPGREASE_REPLY_BITS_WRONG)
        spoil_bits(lent->packet.bytes, way);
    else if (way == NO_BUFFER)
        *buffer = (struct buffer){NONE};
    else if (way == TOO_SHORT)
        buffer->length--;
    else
        buffer->length++;
}

void refusals(const struct call *call, struct lent (*right)(void), unsigned (*written)(void))
{
    size_t count = 0;
    while (call->refusals[count])
        count++;
    for (unsigned set = 1; set < 1u << count; set++)
        for (enum way way = NO_BUFFER; way < WAYS; way++) {
            struct lent lent = right();
            uint8_t first = 0;
            /* Backwards: what is damaged is still there, and the first cause is left. */
            for (size_t i = count; i-- > 0;)
                if (set >> i & 1) {
                    first = call->refusals[i];
                    spoil(&lent, first, way);
                }
            number(call->name, call->answer(&lent), first);
            number(call->name, written(), 0);
        }
}

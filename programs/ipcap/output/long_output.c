#include "output/long_output.h"

#include <string.h>

/* Sets the snap length of an interface to 0, which means any, if the block describes one. */
static void lift_snap_len(uint8_t *block, const struct wolfaren_record *record)
{
    enum { INTERFACE_DESCRIPTION = 1, SNAP_LEN_AT = 12, SNAP_LEN_LEN = 4 };
    if (record->block_type == INTERFACE_DESCRIPTION) memset(block + SNAP_LEN_AT, 0, SNAP_LEN_LEN);
}

/* Sets the snap lengths of all interfaces that some blocks describe. */
static void lift_snap_lens(uint8_t *blocks, size_t len)
{
    struct wolfaren_interface last;
    struct wolfaren_capture reader = {.interfaces = &last, .room = 1, .limit = MOST_BLOCK, .form = WOLFAREN_PCAPNG};
    struct wolfaren_record record;
    for (size_t at = 0; at < len; at += record.record_len) {
        reader.interface_count = 0; /* there is room for one, and none is asked for */
        wolfaren_next_record(&reader, blocks + at, len - at, &record);
        if (record.kind != WOLFAREN_NEXT_BLOCK) return;
        lift_snap_len(blocks + at, &record);
    }
}

/* How blocks were copied before. */
static block_call *copy_block;

/* Copies a block that is no packet, but for the snap length of an interface. */
static bool copy_long_block(struct capture *capture, uint8_t *block, const struct wolfaren_record *record)
{
    lift_snap_len(block, record);
    return copy_block(capture, block, record);
}

/* Begins a classic file, or with numbers a pcapng file, with the link layer and the timestamp precision of the capture. */
static bool begin_long_classic(struct output *output, struct capture *capture, FILE *file)
{
    struct classic_form form = capture->form;
    form.extension = 0;
    if (form.snap_len < MOST_SNAP_LEN) form.snap_len = MOST_SNAP_LEN;
    return begin_form(output, &form, file) && (!capture->is_live || flush_output(output));
}

bool begin_long_output(struct output *output, struct capture *capture, FILE *file)
{
    if (capture->is_classic) return begin_long_classic(output, capture, file);
    lift_snap_lens(capture->blocks.head, capture->blocks.head_len);
    bool is_begun = begin_output(output, capture, file);
    copy_block = capture->copy;
    capture->copy = copy_long_block;
    return is_begun;
}

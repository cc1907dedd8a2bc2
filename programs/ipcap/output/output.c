#include "output/output.h"

#include <errno.h>
#include <string.h>

/* Sets the error to that of the system, which is in `errno`, or if that is 0 to `words`, and returns false. */
static bool fail(struct output *output, const char *words)
{
    output->system_error = errno;
    snprintf(output->error, sizeof output->error, "%s", errno ? strerror(errno) : words);
    return false;
}

bool has_output_failed(const struct output *output)
{
    return *output->error != '\0';
}

/* Flushing says why writing failed if `errno` was 0 before the data was written. */
bool flush_output(struct output *output)
{
    if (has_output_failed(output)) return false;
    return fflush(output->file) == 0 && !ferror(output->file) ? true : fail(output, "write failed");
}

/* Begins a pcapng file, in which packets have numbers. */
static bool begin_numbered(struct output *output, const struct classic_form *form, FILE *file)
{
    uint8_t head[NUMBERED_HEAD];
    output->is_fine = form->is_fine;
    size_t len = write_numbered_head(head, form->link_type, form->snap_len, form->is_fine);
    errno = 0;
    return fwrite(head, 1, len, file) == len || flush_output(output);
}

/* Begins a classic file. */
static bool begin_classic(struct output *output, const struct classic_form *form, FILE *file)
{
    static const uint32_t microseconds = 0xa1b2c3d4, nanoseconds = 0xa1b23c4d;
    struct pcap_file_header head = {.magic = form->is_fine ? nanoseconds : microseconds,
                                    .version_major = PCAP_VERSION_MAJOR,
                                    .version_minor = PCAP_VERSION_MINOR,
                                    .snaplen = form->snap_len,
                                    .linktype = file_link_type(form->link_type) | form->extension};
    output->is_classic = true;
    errno = 0;
    return fwrite(&head, sizeof head, 1, file) == 1 || flush_output(output);
}

bool begin_form(struct output *output, const struct classic_form *form, FILE *file)
{
    output->file = file;
    return output->has_numbers ? begin_numbered(output, form, file) : begin_classic(output, form, file);
}

bool begin_joint_output(struct output *output, int link_type, FILE *file)
{
    struct classic_form form = {.link_type = link_type, .snap_len = MOST_SNAP_LEN, .is_fine = true};
    output->is_joint = true;
    return begin_form(output, &form, file);
}

bool write_blocks(struct output *output, const struct capture *capture, const uint8_t *blocks, size_t len)
{
    errno = 0;
    bool is_written = fwrite(blocks, 1, len, output->file) == len;
    return is_written && !capture->is_live ? true : flush_output(output);
}

/* Writes a block that is no packet, as it is. */
static bool copy_block(struct capture *capture, uint8_t *block, const struct wolfaren_record *record)
{
    return write_blocks(capture->copier, capture, block, record->record_len);
}

/* Begins an output with the blocks of a pcapng file. */
static bool begin_blocks(struct output *output, struct capture *capture, FILE *file)
{
    output->file = file;
    capture->copy = copy_block;
    capture->copier = output;
    return write_blocks(output, capture, capture->blocks.head, capture->blocks.head_len);
}

bool begin_empty_output(struct output *output, FILE *file)
{
    uint8_t section[NUMBERED_HEAD];
    size_t len;
    output->file = file;
    if (wolfaren_write_section(0, section, sizeof section, &len) != WOLFAREN_WRITTEN) return fail(output, "no room");
    return fwrite(section, 1, len, file) == len || flush_output(output);
}

bool begin_output(struct output *output, struct capture *capture, FILE *file)
{
    bool is_begun = capture->is_classic ? begin_form(output, &capture->form, file) : begin_blocks(output, capture, file);
    return is_begun && (!capture->is_live || flush_output(output));
}

/* Writes a packet with its number. */
static void write_numbered(struct output *output, const struct capture *capture, const struct packet *packet)
{
    struct numbered *numbered = &output->numbered;
    bool is_numbered = true;
    bool is_copied = packet->block && !output->is_joint;
    bool is_made = is_copied ? copy_numbered(numbered, capture, packet, &is_numbered)
                             : make_numbered(numbered, capture, packet, output->is_fine);
    errno = 0;
    if (!is_made)
        fail(output, "out of memory");
    else
        write_blocks(output, capture, numbered->block, numbered->len);
    if (!is_numbered && output->unnumbered == 0) output->unnumbered = capture->number;
}

/* Writes a packet to a classic file. */
static void write_record(struct output *output, const struct capture *capture, const struct packet *packet)
{
    const struct pcap_pkthdr *header = &packet->header;
    uint32_t seconds = (uint32_t)(output->is_joint ? packet->time.tv_sec : header->ts.tv_sec);
    uint32_t fraction = (uint32_t)(output->is_joint ? packet->time.tv_nsec : header->ts.tv_usec);
    uint32_t head[] = {seconds, fraction, header->caplen, header->len};
    errno = 0;
    bool is_written = fwrite(head, sizeof head, 1, output->file) == 1 &&
                      fwrite(packet->frame, 1, header->caplen, output->file) == header->caplen;
    if (capture->is_live || !is_written) flush_output(output);
}

void write_packet(struct output *output, const struct capture *capture, const struct packet *packet)
{
    output->written++;
    if (output->has_numbers) {
        write_numbered(output, capture, packet);
        return;
    }
    if (!output->is_classic)
        write_blocks(output, capture, packet->block, packet->block_len);
    else
        write_record(output, capture, packet);
}

void end_output(struct output *output)
{
    end_numbered(&output->numbered);
    if (output->file && output->file != stdout) fclose(output->file);
}

bool does_match(const struct wolfaren_filter *condition, const struct packet *packet)
{
    if (packet->is_left_out) return false;
    return wolfaren_filter_matches_frame(condition, &packet->found, packet->header.len, packet->frame + packet->ip_offset,
                                         packet->header.caplen - packet->ip_offset);
}

#include "output/print_counts.h"

#include <inttypes.h>
#include <stdlib.h>

#include "counts/chain_text.h"
#include "counts/fields.h"
#include "counts/protocol_key.h"
#include "output/text.h"

/* How many protocols other than IP the human-readable table has by default. */
enum { MOST_PROTOCOLS = 5 };

struct output {
    FILE *file;
    bool json;
    uint64_t most;            /* rows of each table */
    uint64_t most_protocols;  /* rows of the table of protocols */
    const char *before_title; /* what each title of a table begins with */
    const char *before_name;  /* what the name of each count and table in JSON begins with */
    const char *separator;    /* of members of a JSON object */
};

/* Writes one line of a table, or one member of a JSON object, whose name consists of a prefix and a name. */
static void write_named(struct output *output, const char *prefix, const char *name, uint64_t count)
{
    if (!output->json) {
        fprintf(output->file, "%12" PRIu64 "  %s\n", count, name);
        return;
    }
    fprintf(output->file, "%s\"%s%s\":%" PRIu64, output->separator, prefix, name, count);
    output->separator = ",";
}

static void write_count(struct output *output, const char *name, uint64_t count)
{
    write_named(output, "", name, count);
}

/* Begins a table, or a member whose value is an object. */
static void begin_table(struct output *output, const char *title, const char *name)
{
    if (output->json)
        fprintf(output->file, "%s\"%s%s\":{", output->separator, output->before_name, name);
    else
        fprintf(output->file, "%s%s\n", output->before_title, title);
    output->separator = "";
}

static void end_table(struct output *output)
{
    if (output->json) putc('}', output->file);
    output->separator = ",";
}

/* Writes the most frequent keys, in order, each as `write_text` formats it, and then the sum of all others. */
static void write_keys(struct output *output, const struct key_counts *counts, uint64_t most,
                       void (*write_text)(const uint8_t *key, size_t len, char text[CHAIN_TEXT_ROOM]))
{
    char text[CHAIN_TEXT_ROOM];
    uint64_t other = count_of_others(counts);
    for (size_t i = 0; i < number_of_keys(counts); i++) {
        const struct wolfaren_chain_count *entry = key_at(counts, i);
        if (i < most) {
            write_text(entry->key, entry->len, text);
            write_count(output, text, entry->count);
        } else {
            other = add_counts(other, entry->count);
        }
    }
    if (other > 0) write_count(output, "other", other);
    end_table(output);
}

/* An element of an array, with its count. */
struct item {
    uint64_t count;
    size_t element;
};

static int compare_items(const void *left, const void *right)
{
    const struct item *one = left, *other = right;
    if (one->count != other->count) return one->count > other->count ? -1 : 1;
    return one->element < other->element ? -1 : one->element > other->element;
}

static void write_item(struct output *output, const struct array *array, const struct item *item)
{
    char name[ELEMENT_NAME_ROOM], text[2 * ELEMENT_NAME_ROOM];
    array->write_name(item->element, name);
    const char *words = array->has_numbers && !output->json ? wolfaren_number_word((uint8_t)item->element) : "";
    snprintf(text, sizeof text, "%s%s%s", name, *words ? " " : "", words);
    write_count(output, text, item->count);
}

/* Writes the items from `first` on as one. */
static void write_other_items(struct output *output, const struct item *items, size_t first, size_t count)
{
    uint64_t other = 0;
    for (size_t i = first; i < count; i++) other = add_counts(other, items[i].count);
    if (other > 0) write_count(output, "other", other);
}

/* Lists the elements of an array that aren't 0, by descending count, and returns their number. */
static size_t list_items(const struct array *array, const uint64_t *counts, struct item items[ARRAY_ELEMENTS])
{
    size_t count = 0;
    for (size_t i = 0; i < array->len; i++)
        if (counts[i] > 0) items[count++] = (struct item){counts[i], i};
    qsort(items, count, sizeof *items, compare_items);
    return count;
}

/* Writes the elements of an array that aren't 0, by descending count, and the sum of those past the last row. */
static void write_array(struct output *output, const struct array *array, const uint64_t *counts)
{
    struct item items[ARRAY_ELEMENTS];
    size_t count = list_items(array, counts, items);
    begin_table(output, array->words, array->name);
    for (size_t i = 0; i < count && i < output->most; i++) write_item(output, array, &items[i]);
    if (count > output->most) write_other_items(output, items, (size_t)output->most, count);
    end_table(output);
}

/* Writes what comes before the counts. */
static void begin_counts(FILE *file, const struct form *form)
{
    if (form->json) fprintf(file, "{\"version\":\"%d.%d\"", FORMAT_MAJOR, FORMAT_MINOR);
    if (form->file) fputs(form->json ? ",\"file\":" : "file ", file);
    if (form->file) (form->json ? write_json_text : write_escaped)(file, form->file);
    if (form->file && !form->json) putc('\n', file);
}

/* Writes the counts that are in no table of their own. Without JSON, only the number of packets is written if it is 0. */
static void write_scalars(struct output *output, struct packet_counts *counts)
{
    if (!output->json) fprintf(output->file, "%spackets\n", output->before_title);
    for (size_t i = 0; i < SCALARS; i++) {
        uint64_t count = *scalar_in(counts, &scalars[i]);
        if (count == 0 && !output->json && i != PACKETS) continue;
        write_named(output, output->before_name, output->json ? scalars[i].name : scalars[i].words, count);
    }
}

/* Writes the protocols of frames without an IP packet. Without JSON, there is no table if there are no such frames. */
static void write_protocols(struct output *output, struct packet_counts *counts)
{
    if (!output->json && counts->statistics.other_frames == 0) return;
    begin_table(output, "protocols of frames without an IP packet", "other_protocols");
    order_keys(&counts->protocols, compare_protocols);
    write_keys(output, &counts->protocols, output->most_protocols, write_protocol);
}

static void write_packet_counts(struct output *output, struct packet_counts *counts)
{
    write_scalars(output, counts);
    write_protocols(output, counts);
    begin_table(output, "chains", "chains");
    order_keys(&counts->chains, compare_chains);
    write_keys(output, &counts->chains, output->most, write_key);
    for (size_t i = 0; i < ARRAYS; i++) write_array(output, &arrays[i], array_in(counts, &arrays[i]));
}

void print_counts(struct counts *counts, FILE *file, const struct form *form)
{
    bool has_top = form->top > 0 && !form->json;
    uint64_t most = has_top ? form->top : UINT64_MAX;
    struct output output = {file, form->json, most, form->json || has_top ? most : MOST_PROTOCOLS, "", "", ","};
    begin_counts(file, form);
    write_packet_counts(&output, &counts->outer);
    output.before_title = "in tunnels: ";
    output.before_name = INNER_PREFIX;
    if (counts->has_inner) write_packet_counts(&output, &counts->inner);
    if (form->json) fputs("}\n", file);
}

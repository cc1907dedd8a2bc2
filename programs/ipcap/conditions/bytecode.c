#include "conditions/bytecode.h"

#include <pcap/pcap.h>
#include <stdio.h>
#include <string.h>

#include "commands/options.h"
#include "commands/report.h"
#include "wolfaren.h"

struct bytecode_program {
    struct wolfaren_bpf_instruction instructions[WOLFAREN_BPF_INSTRUCTIONS];
    size_t count;
};

bool read_bytecode_argument(const char *argument, void *place)
{
    *(enum bytecode *)place = argument ? BYTECODE_TEXT : BYTECODE_NUMBERS;
    return !argument || strcmp(argument, "text") == 0;
}

bool read_undecided_argument(const char *argument, void *place)
{
    bool keeps = strcmp(argument, "keep") == 0;
    *(enum undecided *)place = keeps ? UNDECIDED_KEEP : UNDECIDED_DROP;
    return keeps || strcmp(argument, "drop") == 0;
}

static bool compile(const struct wolfaren_filter *filter, bool keeps, struct bytecode_program *program)
{
    return wolfaren_compile_filter(filter, keeps, program->instructions, WOLFAREN_BPF_INSTRUCTIONS, &program->count);
}

/* Whether two programs are the same. If those that keep and that drop what they can't decide are, they decide each packet. */
static bool are_equal(const struct bytecode_program *program, const struct bytecode_program *other)
{
    return program->count == other->count
        && memcmp(program->instructions, other->instructions, program->count * sizeof *program->instructions) == 0;
}

static void print_numbers(const struct bytecode_program *program)
{
    printf("%zu\n", program->count);
    for (size_t i = 0; i < program->count; i++) {
        const struct wolfaren_bpf_instruction *it = &program->instructions[i];
        printf("%u %u %u %u\n", it->code, it->jt, it->jf, it->k);
    }
}

/* Prints a program in the words of libpcap. */
static void print_text(const struct bytecode_program *program)
{
    for (size_t i = 0; i < program->count; i++) {
        const struct wolfaren_bpf_instruction *it = &program->instructions[i];
        const struct bpf_insn instruction = {it->code, it->jt, it->jf, it->k};
        puts(bpf_image(&instruction, (int)i));
    }
}

int print_bytecode(const struct wolfaren_filter *condition, enum bytecode form, enum undecided undecided)
{
    static struct bytecode_program kept, dropped;
    if (!compile(condition, true, &kept) || !compile(condition, false, &dropped)) {
        complain("the program has %zu instructions, and the kernel accepts %d", kept.count, WOLFAREN_BPF_INSTRUCTIONS);
        return STATUS_FAILED;
    }
    if (undecided == UNDECIDED_NONE && !are_equal(&kept, &dropped))
        return refuse_usage("ipcap filter", "the program can't decide each packet: --undecided keep accepts the others, "
                                            "--undecided drop refuses them");
    const struct bytecode_program *program = undecided == UNDECIDED_DROP ? &dropped : &kept;
    (form == BYTECODE_TEXT ? print_text : print_numbers)(program);
    return -1;
}

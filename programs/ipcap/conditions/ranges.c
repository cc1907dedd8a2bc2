#include "conditions/ranges.h"

#include <stddef.h>
#include <stdint.h>

#include "commands/report.h"

/* The terms that compare, by the kinds of their tests, and the largest number of each. */
static const struct {
    const char *term;
    uint64_t most;
} ranges[] = {
    [WOLFAREN_TEST_HEADERS] = {"headers", UINT64_MAX},  [WOLFAREN_TEST_CHAIN_BYTES] = {"chain-bytes", UINT64_MAX},
    [WOLFAREN_TEST_PAYLOAD] = {"payload", UINT64_MAX},  [WOLFAREN_TEST_LENGTH] = {"length", UINT64_MAX},
    [WOLFAREN_TEST_HOP_LIMIT] = {"hop-limit", 0xff},    [WOLFAREN_TEST_DSCP] = {"dscp", 0x3f},
    [WOLFAREN_TEST_ECN] = {"ecn", 3},                   [WOLFAREN_TEST_FLOW_LABEL] = {"flow", 0xfffff},
    [WOLFAREN_TEST_SEGMENTS_LEFT] = {"segments-left", 0xff},
};

/* Whether a number up to `most` can meet a comparison. Stores the sign of one that none can meet. */
static bool is_possible(const struct wolfaren_filter_test *test, uint64_t most, const char **sign)
{
    switch (test->comparison) {
    case WOLFAREN_EQUAL: *sign = "="; return test->number <= most;
    case WOLFAREN_LESS: *sign = "<"; return test->number > 0;
    case WOLFAREN_GREATER: *sign = ">"; return test->number < most;
    case WOLFAREN_AT_LEAST: *sign = ">="; return test->number <= most;
    default: return true;
    }
}

bool has_impossible(const struct wolfaren_filter *condition)
{
    bool is_any = false;
    for (size_t i = 0; i < condition->count; i++) {
        const struct wolfaren_filter_test *test = &condition->tests[i];
        const char *term = test->kind < sizeof ranges / sizeof *ranges ? ranges[test->kind].term : NULL, *sign;
        if (!term || is_possible(test, ranges[test->kind].most, &sign)) continue;
        complain("condition: no packet meets `%s %s %llu`: the number is from 0 to %llu", term, sign, (unsigned long long)test->number,
                 (unsigned long long)ranges[test->kind].most);
        is_any = true;
    }
    return is_any;
}

#include "packets/refusals.h"

#include "commands/report.h"
#include "wolfaren.h"

static const char *const reasons[REFUSALS] = {
    [WOLFAREN_REFUSED_HEADERS] = "headers that are truncated or faulty",
    [WOLFAREN_REFUSED_MISSING] = "bytes that are missing",
    [WOLFAREN_REFUSED_LATER_FRAGMENT] = "a later fragment",
    [WOLFAREN_REFUSED_NO_HEADER] = "no such header",
    [WOLFAREN_REFUSED_FRAGMENT_HEADER] = "the fragment header of a fragment",
    [WOLFAREN_REFUSED_FRAGMENTED] = "a header in the part that is fragmented",
    [WOLFAREN_REFUSED_AUTHENTICATED] = "an authentication header that covers the change",
    [WOLFAREN_REFUSED_HEADER_FOLLOWS] = "a payload that would be read as a header",
    [WOLFAREN_REFUSED_NO_LENGTH] = "a length that isn't stated",
    [WOLFAREN_REFUSED_NOT_A_JUMBOGRAM] = "a jumbogram that would no longer be one",
    [WOLFAREN_REFUSED_TOO_LONG] = "a length that the length field can't state",
    [WOLFAREN_REFUSED_NO_ROOM] = "no room",
};

void report_refusals(const char *name, const uint64_t counts[REFUSALS], const char *one, const char *many)
{
    for (size_t i = 1; i < REFUSALS; i++)
        if (counts[i] > 0)
            complain("%s: %llu %s unchanged: %s", name, (unsigned long long)counts[i], counts[i] == 1 ? one : many, reasons[i]);
}

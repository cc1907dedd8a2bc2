/* Prints the number of headers of a chain of two, and the name of the number that follows them. */
#include <wolfaren.h>
#include <stdio.h>

int main(void)
{
    const uint8_t bytes[16] = {60, 0, 0, 0, 0, 0, 0, 0, 17};
    struct wolfaren_chain chain;
    wolfaren_parse_chain(43, bytes, sizeof bytes, NULL, 0, &chain);
    printf("%d headers, then %s\n", (int)chain.headers, wolfaren_number_name((uint8_t)chain.next_header));
    return wolfaren_abi() != WOLFAREN_ABI;
}

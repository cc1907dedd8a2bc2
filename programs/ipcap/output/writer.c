#include "output/writer.h"

#include <stdio.h>

void end_text(struct writer *writer)
{
    if (writer->len > 0) fwrite(writer->bytes, 1, writer->len, stdout);
    writer->len = 0;
}

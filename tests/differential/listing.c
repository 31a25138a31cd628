/* The listing of the table on standard input, by the call of whatever archive this is linked with. */
#include "listing_text.h"

#include <stdio.h>

int main(void)
{
    static uint8_t table[1 << 16], text[KEEPER_LISTING_ROOM];
    size_t length = fread(table, 1, sizeof table, stdin), written = 0;
    if (keeper_listing(table, length, text, sizeof text, &written) != KEEPER_OK)
        return 1;
    fwrite(text, 1, written, stdout);
    return 0;
}

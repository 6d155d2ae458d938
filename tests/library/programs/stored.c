/* stored TEXT: a host with one file, named `file`, of this text. It answers the messages on standard input, byte by byte, as mode `bytes`
 * of sam_play does. */
#include "sulgrevad.h"

#include <stdio.h>
#include <string.h>

int main(int argc, char **argv)
{
    sam_host host = {0};
    uint16_t tag;
    if (argc != 2 || sam_host_new(&host) != SAM_OK)
        return 2;
    if (sam_host_add_file(&host, (const uint8_t *)"file", 4, (const uint8_t *)argv[1], strlen(argv[1]), &tag) != SAM_OK)
        return 2;
    for (int byte = getchar(); byte != EOF; byte = getchar()) {
        uint8_t one = (uint8_t)byte, answer[3];
        size_t count = 1;
        if (sam_host_feed(&host, &one, 1) != SAM_OK)
            return 1;
        while (count > 0) {
            if (sam_host_take_out(&host, answer, sizeof answer, &count) != SAM_OK)
                return 1;
            fwrite(answer, 1, count, stdout);
        }
    }
    return sam_host_free(&host) == SAM_OK ? 0 : 1;
}

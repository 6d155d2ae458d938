/* A host and a terminal in one process: a file is opened, a word is typed into it, and both ends agree. */
#include "sulgrevad.h"

#include <stdio.h>
#include <stdlib.h>
#include <string.h>

static void must(sam_status status)
{
    if (status != SAM_OK) {
        fprintf(stderr, "%s\n", sam_status_text(status));
        exit(1);
    }
}

/* Carries bytes both ways until neither side has any. In an editor a pipe or a socket stands between. */
static void carry(sam_term *term, sam_host *host)
{
    uint8_t piece[512];
    size_t up = 1, down = 1;
    while (up > 0 || down > 0) {
        must(sam_term_take_out(term, piece, sizeof piece, &up));
        must(sam_host_feed(host, piece, up));
        must(sam_host_take_out(host, piece, sizeof piece, &down));
        must(sam_term_feed(term, piece, down));
    }
}

int main(void)
{
    sam_host host = SAM_HOST_INIT;
    sam_term term = SAM_TERM_INIT;
    uint16_t file;
    must(sam_host_new(&host));
    must(sam_host_add_file(&host, (const uint8_t *)"notes", 5, (const uint8_t *)"hello\n", 6, &file));
    must(sam_term_new(&term));
    must(sam_term_offer_version(&term, 2)); /* asks for the names of the files, too */
    carry(&term, &host);

    must(sam_term_open(&term, file));
    must(sam_term_select(&term, file, 5, 5)); /* waits until the file is open */
    must(sam_term_type(&term, file, (const uint8_t *)" world", 6));
    must(sam_term_view(&term, file, 0, 80)); /* loads what the window shows */
    carry(&term, &host);
    must(sam_term_flush_now(&term)); /* the user pauses: what was typed is sent */
    carry(&term, &host);

    uint8_t text[64];
    uint32_t runes[64], count;
    size_t bytes;
    must(sam_host_text(&host, file, 0, text, sizeof text, &bytes, &count));
    printf("host:     %.*s", (int)bytes, (const char *)text);
    must(sam_term_read(&term, file, 0, runes, 64, &count));
    printf("terminal: ");
    for (uint32_t i = 0; i < count; i++)
        putchar(runes[i] == SAM_GAP ? '_' : (int)runes[i]);
    must(sam_term_free(&term));
    must(sam_host_free(&host));
    return 0;
}

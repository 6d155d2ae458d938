/* copies.h: an editor's own text of a client's file, which takes each splice. What sessions.c and wrong_host.c have. */
#ifndef COPIES_H
#define COPIES_H

#include "runes.h"

/* Fails unless the copy of a file is what the client shows; of a file that is not open it may be any. */
static inline void same_as_client(sam_client *client, uint16_t tag, const struct text *copy)
{
    static struct text shown;
    sam_file file;
    uint32_t len = 0;
    WANT(sam_client_file(client, tag, &file), SAM_OK);
    if (!file.is_open)
        return;
    WANT(sam_client_read(client, tag, 0, shown.runes, MOST_KEPT, &shown.len), SAM_OK);
    WANT(sam_client_len(client, tag, &len), SAM_OK);
    WANT(shown.len, len);
    WANT(is_same_text(&shown, copy), true);
}

/* The copy takes a splice of its file, which brought these runes. */
static inline void change_by(struct text *copy, const sam_splice *splice, const uint32_t *runes)
{
    uint32_t gone = splice->kind == SAM_SPLICE_CAME ? 0 : splice->count, came = splice->kind == SAM_SPLICE_WENT ? 0 : splice->count;
    if (splice->kind == SAM_SPLICE_EMPTIED)
        copy->len = 0;
    else
        change(copy, splice->place, gone, runes, came);
}

/* The copy takes a splice of its file, whose runes are read of the client. */
static inline void take_into(struct text *copy, sam_client *client, const sam_splice *splice)
{
    static uint32_t runes[MOST_KEPT];
    uint32_t count = 0;
    if (splice->kind == SAM_SPLICE_CAME || splice->kind == SAM_SPLICE_FILLED) {
        WANT(splice->count <= MOST_KEPT, 1);
        WANT(sam_client_read(client, splice->tag, splice->place, runes, splice->count, &count), SAM_OK);
        WANT(count, splice->count);
    }
    change_by(copy, splice, runes);
}

#endif

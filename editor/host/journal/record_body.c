/* record_body.c: the bodies of a journal's records, made and read. */
#include <stdlib.h>
#include <string.h>

#include "journal/record_body.h"

enum { ROOM_FIRST = 256, NUMBER = 8 }; /* bytes of a body at first, and of a number */

bool has_room(struct body *body, size_t more)
{
    size_t room = body->room == 0 ? ROOM_FIRST : body->room;

    while (room - body->len < more)
        room *= 2;
    if (room != body->room) {
        uint8_t *bytes = realloc(body->bytes, room);
        body->is_short |= bytes == NULL;
        if (bytes == NULL)
            return false;
        body->bytes = bytes;
        body->room = room;
    }
    return true;
}

void add_number(struct body *body, uint64_t number)
{
    uint8_t bytes[NUMBER];

    for (int at = NUMBER - 1; at >= 0; at--, number >>= 8)
        bytes[at] = (uint8_t)number;
    add_raw(body, bytes, NUMBER);
}

void add_raw(struct body *body, const void *bytes, size_t len)
{
    if (len > 0 && has_room(body, len)) {
        memcpy(body->bytes + body->len, bytes, len);
        body->len += len;
    }
}

void add_words(struct body *body, const void *words, size_t len)
{
    add_number(body, words != NULL);
    if (words != NULL) {
        add_number(body, len);
        add_raw(body, words, len);
    }
}

void add_entry_head(struct body *body, enum entry kind, size_t len)
{
    const uint8_t byte = (uint8_t)kind;

    add_raw(body, &byte, 1);
    add_number(body, len);
}

uint8_t take_byte(struct record *record)
{
    record->is_wrong |= record->len == 0;
    if (record->is_wrong)
        return 0;
    record->len--;
    return *record->body++;
}

uint64_t take_number(struct record *record)
{
    uint64_t number = 0;

    record->is_wrong |= record->len < NUMBER;
    for (int at = 0; at < NUMBER && record->len > 0; at++)
        number = number << 8 | take_byte(record);
    return record->is_wrong ? 0 : number;
}

const uint8_t *take_data(struct record *record, size_t *len)
{
    uint64_t wanted = take_number(record);

    *len = 0;
    record->is_wrong |= wanted > record->len;
    if (record->is_wrong)
        return NULL;
    *len = (size_t)wanted;
    record->body += wanted;
    record->len -= wanted;
    return record->body - wanted;
}

char *take_words(struct record *record, size_t *len)
{
    *len = 0;
    const uint8_t *bytes = take_number(record) != 0 ? take_data(record, len) : NULL;
    char *words = bytes == NULL ? NULL : malloc(*len + 1);

    record->is_short |= bytes != NULL && words == NULL;
    if (words != NULL) {
        memcpy(words, bytes, *len);
        words[*len] = '\0';
    }
    return words;
}

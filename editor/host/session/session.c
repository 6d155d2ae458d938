/* session.c: the files of a session, from its begin to its end. */
#define _XOPEN_SOURCE 700
#include <stdlib.h>
#include <string.h>
#include <sys/stat.h>
#include <unistd.h>

#include "session/session.h"
#include "disk/file_reader.h"
#include "disk/recovery.h"
#include "net/event_loop.h"

bool is_closing(struct session *session, uint16_t tag)
{
    sam_effect effect;

    return sam_server_next_effect(session->server, &effect) == SAM_OK && effect.kind == SAM_EFFECT_CLOSE && effect.tag == tag;
}

uint64_t count_of(struct session *session, sam_status (*reader)(sam_server *server, uint64_t *count))
{
    uint64_t count = 0;

    return reader(session->server, &count) == SAM_OK ? count : 0;
}

size_t count_tags(struct session *session)
{
    size_t tags = 0;

    return sam_server_tags(session->server, &tags) == SAM_OK ? tags : 0;
}

bool has_file(struct session *session, size_t tag)
{
    bool has = false;

    return sam_server_has_file(session->server, (uint16_t)tag, &has) == SAM_OK && has;
}

bool is_tag(struct session *session, uint64_t number)
{
    return number > 0 && number < count_tags(session) && has_file(session, number);
}

sam_status add_to_server(struct session *session, const char *name, const struct text *text, uint16_t *tag)
{
    size_t next = count_tags(session);
    sam_status code = sam_server_add_file(session->server, (const uint8_t *)name, strlen(name), text->bytes, text->len, tag);

    if (code == SAM_UNFINISHED) /* it has joined */
        *tag = (uint16_t)next;
    return code == SAM_UNFINISHED ? SAM_OK : code == SAM_WAITING ? SAM_NO_MEMORY : code;
}

bool is_hidden(const struct session *session, size_t tag)
{
    return session->documents[tag].purpose != FOR_USER;
}

bool tell_hidden(struct session *session)
{
    size_t tags = count_tags(session);

    for (size_t tag = 1; tag < tags; tag++) {
        if (is_hidden(session, tag) && !put_message(session, &(struct event){.kind = SAM_NOTE_ANEW, .number = tag}, NULL))
            return false;
    }
    return true;
}

static mode_t mode_of_new_files(void)
{
    mode_t mask = umask(0);

    umask(mask);
    return 0666 & ~mask;
}

void enter_folder(struct session *session)
{
    struct stat status;
    bool is_gone = stat(".", &status) != 0 || status.st_nlink == 0; /* 0: it is removed, and only open still */

    if (is_gone && session->folder != NULL && chdir(session->folder) == 0)
        delay_save(&session->due);
}

bool make_session(struct session *session)
{
    session->documents = calloc(ALL_TAGS, sizeof *session->documents);
    session->text.bytes = malloc(MOST_BYTES);
    session->cut.bytes = malloc(MOST_BYTES);
    session->server = calloc(1, sizeof *session->server);
    session->mode_of_new_files = mode_of_new_files();
    return session->documents != NULL && session->text.bytes != NULL && session->cut.bytes != NULL && session->server != NULL;
}

void free_session(struct session *session)
{
    size_t tags = session->server == NULL ? 0 : count_tags(session);

    (void)sam_server_free(session->server);
    free(session->server);
    for (size_t tag = 0; tag < tags; tag++)
        free_document(&session->documents[tag]);
    free(session->documents);
    free(session->text.bytes);
    free(session->cut.bytes);
    free(session->folder);
    free(session);
}

int open_session(struct session *session, char **paths, int count, const struct options *options)
{
    if (!make_session(session) || sam_server_new(session->server, session->id) != SAM_OK) {
        say("out of memory");
        return STATUS_MEMORY;
    }
    session->folder = getcwd(NULL, 0);
    int status = add_files(session, paths, count);
    if (status != STATUS_OK)
        return status;
    if (options->tells_times)
        tell_times(session);
    report_left(session, options->offers_left);
    if (!tell_hidden(session)) {
        say("out of memory");
        return STATUS_MEMORY;
    }
    return STATUS_OK;
}

int close_session(struct session *session, enum ending ending)
{
    return !save_last(session, ending == LEFT) ? STATUS_LOST
           : ending == FAULT                   ? STATUS_FAULT
           : ending == LINE_BROKE              ? STATUS_BROKEN
                                               : STATUS_OK;
}

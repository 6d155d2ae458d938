/* samhost.c: what the words ask for. man/samhost.1 has them, and what samhost does.
 *
 * Its parts: session has a session and the folders of those that stay, net what carries bytes, disk the files, journal what a session that
 * stays has done. Each header says what its file is for. Calls that can fail return 0 or an error number of errno.h, unless they say
 * otherwise.
 */
#define _GNU_SOURCE
#include <fcntl.h>
#include <getopt.h>
#include <stdio.h>
#include <stdlib.h>
#include <string.h>
#include <unistd.h>

#include "session/daemon.h"
#include "session/ending.h"
#include "session/session.h"
#include "session/session_control.h"
#include "session/session_directory.h"

enum {
    USUAL_HOURS = 72, /* that a session stays alone */
    MOST_HOURS = 100000
};

#define USAGE                                                                                                                              \
    "usage: samhost [--left] [--times] [--] [FILE ..]\n"                                                                                   \
    "       samhost --serve NAME [--left] [--times] [--stay HOURS] [--] [FILE ..]\n"                                                       \
    "       samhost --attach NAME | --take [NAME] | --end NAME | --list\n"                                                                 \
    "       samhost --open [--wait] [--session NAME] [--] FILE [+LINE]\n"                                                                  \
    "       samhost --version\n"

/* ---- Words ---- */

enum word { PLAIN, SERVE, ATTACH, END, TAKE, LIST, OPEN, SESSION, WAIT, LEFT_TEXTS, TIMES, STAY };

static const struct option options_known[] = {
    {"serve", required_argument, NULL, SERVE}, {"attach", required_argument, NULL, ATTACH},
    {"end", required_argument, NULL, END},     {"take", no_argument, NULL, TAKE},
    {"list", no_argument, NULL, LIST},         {"open", no_argument, NULL, OPEN},
    {"wait", no_argument, NULL, WAIT},         {"session", required_argument, NULL, SESSION},
    {"left", no_argument, NULL, LEFT_TEXTS},   {"times", no_argument, NULL, TIMES},
    {"stay", required_argument, NULL, STAY},   {0},
};

/* The milliseconds of hours in words; -1 where that is no number of hours. */
static int64_t hours_of(const char *word)
{
    char *end;
    double hours = strtod(word, &end);

    return *word == '\0' || *end != '\0' || !(hours >= 0 && hours <= MOST_HOURS) ? -1 : (int64_t)(hours * 3600000);
}

/* Takes a word before the files, with what stands behind it. Returns whether it is right there. */
static bool take_word(int word, enum word *verb, struct options *options)
{
    bool is_first = *verb == PLAIN;

    switch (word) {
    case LEFT_TEXTS:
        options->offers_left = true;
        return true;
    case TIMES:
        options->tells_times = true;
        return true;
    case STAY:
        options->longest_alone = hours_of(optarg);
        return options->longest_alone >= 0;
    case WAIT:
        options->waits = true;
        return *verb == OPEN;
    case SERVE:
    case ATTACH:
    case END:
    case SESSION:
        options->name = optarg;
        is_first = is_home_name(optarg) && (word == SESSION ? *verb == OPEN : is_first);
        break;
    }
    if (word >= SERVE && word <= OPEN)
        *verb = (enum word)word;
    return is_first && word != '?';
}

/* Gives the numbers of closed standard streams to what can't be read or written as these: else a file of a session had them. */
static void fill_streams(void)
{
    for (int file = STDIN_FILENO; file <= STDERR_FILENO; file++) {
        if (fcntl(file, F_GETFD) < 0)
            (void)open("/dev/null", file == STDIN_FILENO ? O_WRONLY : O_RDONLY);
    }
}

int main(int count, char **words)
{
    struct options options = {.longest_alone = USUAL_HOURS * INT64_C(3600000)};
    enum word verb = PLAIN;
    bool is_right = true;
    int word;

    fill_streams();
    if (count == 2 && strcmp(words[1], "--version") == 0) {
        puts("samhost " VERSION);
        return STATUS_OK;
    }
    opterr = 0; /* the usage says it */
    while (is_right && (word = getopt_long(count, words, "+", options_known, NULL)) != -1)
        is_right = take_word(word, &verb, &options);
    int first = optind, last = count - 1;
    if (verb == TAKE && first < count && is_home_name(words[first]))
        options.name = words[first++];
    bool has_line = verb == OPEN && last > first && words[last][0] == '+';
    if (!is_right || (verb == OPEN ? first + has_line != last : verb > SERVE && first < count)) {
        fputs(USAGE, stderr);
        return STATUS_WORDS;
    }
    switch (verb) {
    case ATTACH:
        return attach(options.name);
    case OPEN:
        return open_in_session(options.name, words[first], has_line ? words[last] + 1 : "", options.waits);
    case TAKE:
        return take(options.name);
    case LIST:
        return list_sessions();
    case END:
        return end_session(options.name);
    default:
        break;
    }
    if (verb == SERVE && options.longest_alone > 0)
        return begin_to_stay(words + first, count - first, &options);
    return serve_streams(words + first, count - first, &options);
}

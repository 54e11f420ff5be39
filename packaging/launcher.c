// sums: begins the build of the program for the highest level of x86-64 that this processor has.
//
// The builds are PREFIX/libexec/sums/LEVEL/sums for a launcher PREFIX/bin/sums. PREFIX is where this file is, so that
// an installation may be moved: /proc/self/exe says it, and without /proc the name that the system began this file by.
// Where no builds are there, LIBEXEC is the folder that was named when this was compiled, or empty where none was. What
// is begun takes the place of this process: words, environment, streams, status and signals are the program's own.
// SUMS_LEVEL=x86-64-v2 asks for a build by its level.
#include <errno.h>
#include <limits.h>
#include <stdio.h>
#include <stdlib.h>
#include <string.h>
#include <sys/auxv.h>
#include <unistd.h>

#include "level.h"

#ifndef LIBEXEC
#define LIBEXEC "/usr/libexec/sums"
#endif

// as the shell has them
enum { NOT_BEGUN = 126, NO_BUILD = 127 };

static const char *const levels[] = {"x86-64", "x86-64-v2", "x86-64-v3"};
enum { LEVELS = sizeof levels / sizeof *levels };

// Prints a word of the environment or a path, with \xHH for each byte that is no printable character of ASCII.
static void tell(const char *text) {
    for (const unsigned char *at = (const unsigned char *)text; *at != 0; at++) {
        if (*at == '\\')
            fputs("\\\\", stderr);
        else if (*at < ' ' || *at > '~')
            fprintf(stderr, "\\x%02x", *at);
        else
            fputc(*at, stderr);
    }
}

// Takes the last name off a path; whether there was one.
static int leave(char *path) {
    char *end = strrchr(path, '/');
    if (end == NULL) return 0;
    *end = 0;
    return 1;
}

// Writes the path of this file; whether it is known.
static int find_self(char self[PATH_MAX]) {
    ssize_t length = readlink("/proc/self/exe", self, PATH_MAX - 1);
    if (length > 0 && length < PATH_MAX - 1) {
        self[length] = 0;
        return 1;
    }
    const char *begun_by = (const char *)getauxval(AT_EXECFN);
    return begun_by != NULL && realpath(begun_by, self) != NULL;
}

// Writes the folder of the builds beside this file; whether its path is known.
static int beside(char *folder, size_t size) {
    char self[PATH_MAX];
    return find_self(self) && leave(self) && leave(self) && snprintf(folder, size, "%s/libexec/sums", self) < (int)size;
}

// Says why a file or folder cannot be run or searched.
static int cannot_run(const char *path, int fault) {
    fputs("sums: ", stderr);
    tell(path);
    fprintf(stderr, ": %s\n", strerror(fault));
    return NOT_BEGUN;
}

// Becomes the build of a level; comes back where there is none.
static void begin(const char *folder, const char *level, char **words) {
    char path[PATH_MAX];
    if (snprintf(path, sizeof path, "%s/%s/sums", folder, level) >= (int)sizeof path) return;
    execv(path, words);
    if (errno == ENOENT || errno == ENOTDIR) return;
    exit(cannot_run(path, errno));
}

// Begins the build of the level that was asked for, which may be none that there is.
static int begin_asked(const char *folder, const char *asked, char **words) {
    for (int i = 0; i < LEVELS; i++)
        if (strcmp(asked, levels[i]) == 0) begin(folder, asked, words);
    fputs("sums: SUMS_LEVEL: no such build in ", stderr);
    tell(folder);
    fputs(": ", stderr);
    tell(asked);
    fputs("\n", stderr);
    return NO_BUILD;
}

// Begins the highest build that this processor runs.
static int begin_best(const char *folder, char **words) {
    for (int i = processor_level() - 1; i >= 0; i--) begin(folder, levels[i], words);
    // Where all builds are above the processor, the lowest says itself what is missing.
    for (int i = processor_level(); i < LEVELS; i++) begin(folder, levels[i], words);
    fputs("sums: no build of the program is in ", stderr);
    tell(folder);
    fputs("\n", stderr);
    return NO_BUILD;
}

// Why a folder cannot be searched: 0 where it can, ENOENT where it is not there.
static int closed_by(const char *folder) {
    if (access(folder, X_OK) == 0) return 0;
    return errno == ENOTDIR ? ENOENT : errno;
}

// Says that no place has builds, as where this file was copied alone.
static int stands_alone(const char *own) {
    fputs("sums: this file only starts the program, and no build is in ", stderr);
    tell(own != NULL ? own : *LIBEXEC != 0 ? LIBEXEC : "libexec/sums");
    if (own != NULL && *LIBEXEC != 0) {
        fputs(" or ", stderr);
        tell(LIBEXEC);
    }
    fputs(": make a link to the installed file, or copy its whole folder\n", stderr);
    return NO_BUILD;
}

int main(int count, char **words) {
    char found[PATH_MAX];
    const char *own = beside(found, sizeof found) ? found : NULL;
    const char *places[] = {own, *LIBEXEC != 0 ? LIBEXEC : NULL};
    const char *asked = getenv("SUMS_LEVEL");
    (void)count;
    // a message leaves in one write
    static char message[8 * PATH_MAX + BUFSIZ];
    setvbuf(stderr, message, _IOLBF, sizeof message);
    for (int i = 0; i < 2; i++) {
        int fault = places[i] != NULL ? closed_by(places[i]) : ENOENT;
        if (fault == ENOENT) continue;
        if (fault != 0) return cannot_run(places[i], fault);
        return asked != NULL && *asked != 0 ? begin_asked(places[i], asked, words) : begin_best(places[i], words);
    }
    return stands_alone(own);
}

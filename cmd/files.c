#define _XOPEN_SOURCE 700
#include "files.h"
#include <errno.h>
#include <fcntl.h>
#include <signal.h>
#include <stdio.h>
#include <stdlib.h>
#include <string.h>
#include <sys/stat.h>
#include <unistd.h>

enum { TARGETS = 2, MOST_GIB = 4 };

/* The names of files that are being written beside, for a run that is stopped. */
static char *volatile beside[TARGETS];

static void say(struct text *said, const char *name, const char *what, int why) {
    put(said, "imdagluz: %s: %s: %s\n", name, what, strerror(why));
}

static bool is_standard(const char *name) {
    return name == NULL || strcmp(name, "-") == 0;
}

/* Reads until the end, into room that grows; the first room is one byte more than a file of known size has, so that its end is seen without another. */
static bool read_all(int file, size_t expected, struct text *bytes) {
    bytes->held = expected + 1;
    bytes->bytes = lend(bytes->held, 1);
    for (;;) {
        if (bytes->length == bytes->held) {
            size_t room = 2 * bytes->held;
            uint8_t *more = lend(room, 1);
            memcpy(more, bytes->bytes, bytes->length);
            free(bytes->bytes);
            bytes->bytes = more;
            bytes->held = room;
        }
        ssize_t n = read(file, bytes->bytes + bytes->length, bytes->held - bytes->length);
        if (n < 0 && errno == EINTR) continue;
        if (n <= 0) return n == 0;
        bytes->length += (size_t)n;
        if (bytes->length >> 30 >= MOST_GIB) {
            errno = EFBIG;
            return false;
        }
    }
}

bool read_file(const char *name, struct text *bytes, struct text *said) {
    bool standard = is_standard(name);
    int file = standard ? STDIN_FILENO : open(name, O_RDONLY | O_CLOEXEC);
    struct stat facts;
    bool read = file >= 0;
    if (read) {
        size_t expected = 1 << 16;
        if (fstat(file, &facts) == 0 && S_ISREG(facts.st_mode) && facts.st_size >> 30 < MOST_GIB) expected = (size_t)facts.st_size;
        read = read_all(file, expected, bytes);
    }
    if (!read) say(said, standard ? "standard input" : name, "it can't be read", errno);
    if (!standard && file >= 0) close(file);
    return read;
}

/* Writes all bytes to a descriptor. */
static bool write_all(int file, const struct text *bytes) {
    size_t at = 0;
    while (at < bytes->length) {
        ssize_t n = write(file, bytes->bytes + at, bytes->length - at);
        if (n < 0 && errno == EINTR) continue;
        if (n < 0) return false;
        at += (size_t)n;
    }
    return true;
}

/* The rights of a file that is made anew. */
static mode_t new_rights(void) {
    mode_t mask = umask(0);
    umask(mask);
    return 0666 & ~mask;
}

/* A name in the folder of another, for mkstemp. */
static char *name_beside(const char *name) {
    static const char ours[] = ".imdagluz-XXXXXX";
    const char *slash = strrchr(name, '/');
    size_t folder = slash == NULL ? 0 : (size_t)(slash - name) + 1;
    char *made = lend(folder + sizeof ours, 1);
    memcpy(made, name, folder);
    memcpy(made + folder, ours, sizeof ours);
    return made;
}

/* Writes a file beside the one of this name: its name is then in beside[i]. */
static bool write_beside(size_t i, const char *name, const struct text *bytes, mode_t rights) {
    char *made = name_beside(name);
    int file = mkstemp(made);
    if (file < 0) {
        free(made);
        return false;
    }
    beside[i] = made;
    bool written = write_all(file, bytes) && fchmod(file, rights) == 0 && fsync(file) == 0;
    int why = errno;
    if (close(file) != 0 && written) return false;
    errno = why;
    return written;
}

/* Writes to a device or a pipe. */
static bool write_through(const char *name, const struct text *bytes) {
    int file = open(name, O_WRONLY | O_CLOEXEC);
    if (file < 0) return false;
    bool written = write_all(file, bytes);
    int why = errno;
    if (close(file) != 0 && written) return false;
    errno = why;
    return written;
}

/* The file that a name leads to, links followed, and what is known of it; or the name itself, where nothing is there. */
static char *real_name(const char *name, struct stat *facts, bool *there) {
    *there = stat(name, facts) == 0;
    char *real = *there ? realpath(name, NULL) : NULL;
    if (real != NULL) return real;
    real = lend(strlen(name) + 1, 1);
    return strcpy(real, name);
}

/* Writes a target so far that only its name is missing: the name is in *real then, and NULL where none is. */
static bool prepare(size_t i, const struct target *target, char **real) {
    struct stat facts;
    bool there;
    *real = NULL;
    if (is_standard(target->name)) return write_all(STDOUT_FILENO, target->bytes);
    *real = real_name(target->name, &facts, &there);
    if (there && S_ISDIR(facts.st_mode)) errno = EISDIR;
    else if (there && access(*real, W_OK) != 0) return false;
    else if (!there || S_ISREG(facts.st_mode)) return write_beside(i, *real, target->bytes, there ? facts.st_mode & 0777 : new_rights());
    else {
        bool written = write_through(*real, target->bytes);
        free(*real);
        *real = NULL;
        return written;
    }
    return false;
}

/* Removes what stands beside. */
static void remove_beside(void) {
    for (size_t i = 0; i < TARGETS; i++) {
        if (beside[i] == NULL) continue;
        unlink(beside[i]);
        free(beside[i]);
        beside[i] = NULL;
    }
}

bool write_files(const struct target *targets, size_t n, struct text *said) {
    char *real[TARGETS] = {NULL};
    size_t failed = 0;
    bool written = true;
    /* Standard output comes after the files beside, since what it took is not taken back. */
    for (int standard = 0; standard < 2; standard++) {
        for (size_t i = 0; i < n && written; i++) {
            if (is_standard(targets[i].name) != standard) continue;
            failed = i;
            written = prepare(i, &targets[i], &real[i]);
        }
    }
    for (size_t i = n; written && i-- > 0;) {
        if (real[i] == NULL) continue;
        failed = i;
        written = rename(beside[i], real[i]) == 0;
        if (!written) break;
        free(beside[i]);
        beside[i] = NULL;
    }
    if (!written) say(said, is_standard(targets[failed].name) ? "standard output" : targets[failed].name, "it can't be written", errno);
    remove_beside();
    for (size_t i = 0; i < TARGETS; i++) free(real[i]);
    return written;
}

bool same_file(const char *one, const char *other) {
    struct stat first, second;
    if (is_standard(one) || is_standard(other)) return false;
    if (stat(one, &first) != 0 || stat(other, &second) != 0) return strcmp(one, other) == 0;
    return first.st_dev == second.st_dev && first.st_ino == second.st_ino && S_ISREG(first.st_mode);
}

/* What a run does that is stopped: what stands beside goes, and the signal does what it does. */
static void stopped(int signal_number) {
    for (size_t i = 0; i < TARGETS; i++) {
        if (beside[i] != NULL) unlink(beside[i]);
    }
    signal(signal_number, SIG_DFL);
    raise(signal_number);
}

void guard_files(void) {
    static const int stops[] = {SIGINT, SIGTERM, SIGHUP, SIGQUIT, SIGXCPU};
    for (int file = STDIN_FILENO; file <= STDERR_FILENO; file++) {
        if (fcntl(file, F_GETFD) >= 0) continue;
        if (open("/dev/null", file == STDIN_FILENO ? O_WRONLY : O_RDONLY) != file) _exit(2);
    }
    signal(SIGPIPE, SIG_IGN);
    signal(SIGXFSZ, SIG_IGN);
    for (size_t i = 0; i < sizeof stops / sizeof *stops; i++) {
        if (signal(stops[i], SIG_IGN) != SIG_IGN) signal(stops[i], stopped);
    }
}

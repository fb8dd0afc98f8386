/* Files: read whole, and written whole or not at all. */
#ifndef FILES_H
#define FILES_H

#include "text.h"
#include <stdbool.h>

/* Reads all bytes of a file, or of standard input where its name is "-". Says why not, and answers false. */
bool read_file(const char *name, struct text *bytes, struct text *said);

/* A file that is to be written. A name that is NULL or "-" stands for standard output. */
struct target {
    const char *name;
    const struct text *bytes;
};

/* Writes the targets, each beside the file that it becomes, and gives them their names once all are whole, the first one last. Where one can't be written
 * none gets its name; says why not, and answers false. A device or a pipe is written as it stands. */
bool write_files(const struct target *targets, size_t n, struct text *said);

/* Whether two names are those of one file that is there. */
bool same_file(const char *one, const char *other);

/* What every run does first: a descriptor that was closed gets a device that refuses, so that no file comes into its place; a reader that goes away is a
 * write that fails; and a run that is stopped leaves no half file beside. */
void guard_files(void);

#endif

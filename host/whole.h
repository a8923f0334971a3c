/* whole.h: files that appear only whole, and places in the file system that must not be the same.

   A file is written beside its name (NAME.part-PROCESS-TRY), flushed to disk and only then given its name; then the
   folder is flushed. A process that is killed can leave such a part beside; nothing ever reads one. */
#ifndef WHOLE_H
#define WHOLE_H

#include "sum.h"

#include <sys/stat.h>
#include <sys/types.h>

/* What may be written over: nothing, any file, or the one file that has this sum. */
struct over {
    bool any, own;
    struct hex sum;
};

/* Writes a whole file. A file that stands at path and may not be written over stays, and the writing fails. One that is
   written over hands on its mode. */
enum status whole_write(const char *path, const void *bytes, size_t length, const struct over *over);

/* Gives a file that is written and flushed its name, and flushes the folder. */
enum status whole_name(const char *from, const char *path, const struct over *over);

/* Opens a file to read and write it, for this process alone: *made is whether it was not there before. The lock ends
   when the file is closed, or any other that was opened by this name. */
enum status open_alone(const char *path, int *file, bool *made);

/* Whether an open file still has a name. */
bool still_named(int file, const char *path);

/* Gives an open file the mode and group of another and these bits more, so that nobody else reads it who could not read
   that one. */
void keep_mode(int file, const struct stat *of, mode_t more);

/* A fresh file that is to take the place of one that is open for this process alone, and is so too: it is locked before
   it has the name, the old one until it has lost it. */
struct next {
    int file;
    char *part;
};
enum status next_begin(const char *path, int alone, struct next *next);

/* Flushes what was written to it and gives it the name, if all went well so far: *alone becomes the new file. */
enum status next_end(const char *path, int *alone, struct next *next, enum status so_far);

/* Whether a file stands at path whose bytes have this sum. */
bool stands_with(const char *path, const struct hex *sum);

/* Adds `length` bytes of an open file, from its beginning, to a sum; whether they are all there. */
bool sum_start(int file, uint64_t length, struct sum *sum);

/* All bytes to an open file; the name is for the message. */
enum status write_all(int to, const void *bytes, size_t length, const char *name);

/* Flushes an open file to disk; flushes the folder that a file stands in. */
enum status flush_file(int file, const char *name);
enum status flush_folder(const char *path);

/* Both, for a file that was written before. Not for one that is open for this process alone: its lock would end. */
enum status flush_named(const char *path);

/* A place in the file system: a file that is there, and the name in its folder. */
struct place {
    const char *use;  /* what the command calls it: START, END */
    const char *path; /* NULL for none */
    bool input;
    bool work; /* an output that may be there: a run goes on with it */
    bool there;
    dev_t device, folder_device;
    ino_t file, folder;
    const char *name;
};

struct place input_place(const char *use, const char *path);
struct place output_place(const char *use, const char *path);
struct place work_place(const char *use, const char *path);

/* Whether these outputs can be written without touching an input, each other, or without `replace` any file that is
   there already. Tries that each folder takes a file. */
enum status outputs_allowed(struct place *places, size_t count, bool replace);

#endif

#define _GNU_SOURCE /* renameat2 */
#include "whole.h"

#include <errno.h>
#include <fcntl.h>
#include <stdio.h>
#include <stdlib.h>
#include <string.h>
#include <unistd.h>

enum status write_all(int to, const void *bytes, size_t length, const char *name)
{
    const char *at = bytes;
    while (length > 0) {
        ssize_t written = write(to, at, length);
        if (written < 0 && errno == EINTR)
            continue;
        if (written <= 0) {
            say("%s: cannot be written: %s", name, written < 0 ? strerror(errno) : "no bytes are taken");
            return STATUS_UNWRITTEN;
        }
        at += written;
        length -= (size_t)written;
    }
    return STATUS_DONE;
}

enum status flush_file(int file, const char *name)
{
    int failed;
    do
        failed = fsync(file);
    while (failed && errno == EINTR);
    if (failed) {
        say("%s: cannot be flushed to disk: %s", name, strerror(errno));
        return STATUS_UNWRITTEN;
    }
    return STATUS_DONE;
}

/* The folder of a path, as a text of its own. */
static char *folder_of(const char *path)
{
    const char *slash = strrchr(path, '/');
    char *folder = joined(slash ? path : ".", "");
    if (slash)
        folder[slash == path ? 1 : slash - path] = '\0';
    return folder;
}

static const char *name_in_folder(const char *path)
{
    const char *slash = strrchr(path, '/');
    return slash ? slash + 1 : path;
}

enum status flush_folder(const char *path)
{
    enum status status;
    char *folder = folder_of(path);
    int file = open(folder, O_RDONLY | O_DIRECTORY | O_CLOEXEC);
    if (file < 0) {
        say("%s: stands, but its folder cannot be opened to flush it to disk: %s", path, strerror(errno));
        free(folder);
        return STATUS_UNWRITTEN;
    }
    status = flush_file(file, folder);
    if (close(file) != 0 && status == STATUS_DONE) {
        say("%s: cannot be closed: %s", folder, strerror(errno));
        status = STATUS_UNWRITTEN;
    }
    free(folder);
    return status;
}

enum status flush_named(const char *path)
{
    enum status status;
    int file = open(path, O_RDONLY | O_NOFOLLOW | O_CLOEXEC);
    if (file < 0) {
        say("%s: cannot be opened to flush it to disk: %s", path, strerror(errno));
        return STATUS_UNWRITTEN;
    }
    status = flush_file(file, path);
    close(file);
    return status == STATUS_DONE ? flush_folder(path) : status;
}

static enum status has_come(const char *path)
{
    say("%s: has come to be while this ran and is not written over; give --replace or another name", path);
    return STATUS_UNWRITTEN;
}

bool sum_start(int file, uint64_t length, struct sum *sum)
{
    char some[65536];
    sum_begin(sum);
    while (sum->length < length) {
        uint64_t rest = length - sum->length;
        ssize_t got = pread(file, some, rest < sizeof some ? (size_t)rest : sizeof some, (off_t)sum->length);
        if (got < 0 && errno == EINTR)
            continue;
        if (got <= 0)
            return false;
        sum_add(sum, some, (size_t)got);
    }
    return true;
}

bool stands_with(const char *path, const struct hex *wanted)
{
    struct stat found;
    struct sum sum;
    bool same = false;
    int file = open(path, O_RDONLY | O_NOFOLLOW | O_CLOEXEC);
    if (file < 0)
        return false;
    if (fstat(file, &found) == 0 && S_ISREG(found.st_mode) && sum_start(file, (uint64_t)found.st_size, &sum)) {
        struct hex sum_there = sum_hex(&sum);
        same = same_hex(&sum_there, wanted);
    }
    close(file);
    return same;
}

/* Whether a file that stands at path may be written over. */
static bool may_go(const char *path, const struct over *over)
{
    return over->any || (over->own && stands_with(path, &over->sum));
}

/* Renames, but never to a name that a file has: where the system cannot promise that, it is asked just before. */
static int rename_free(const char *from, const char *path)
{
    struct stat there;
#ifdef RENAME_NOREPLACE
    if (renameat2(AT_FDCWD, from, AT_FDCWD, path, RENAME_NOREPLACE) == 0)
        return 0;
    if (errno != EINVAL && errno != ENOSYS)
        return -1;
#endif
    if (lstat(path, &there) == 0) {
        errno = EEXIST;
        return -1;
    }
    return rename(from, path);
}

enum status whole_name(const char *from, const char *path, const struct over *over)
{
    if ((may_go(path, over) ? rename(from, path) : rename_free(from, path)) != 0) {
        if (errno == EEXIST)
            return has_come(path);
        say("%s: cannot be given its name: %s", path, strerror(errno));
        return STATUS_UNWRITTEN;
    }
    return flush_folder(path);
}

/* Gives a part its name. A link, unlike a rename, is never made where a file stands: so none that comes to be in the
   last moment is lost. A process killed between leaves the part as a second name of the whole file. */
static enum status name_part(const char *part, const char *path, const struct over *over)
{
    if (may_go(path, over))
        return whole_name(part, path, over);
    if (link(part, path) != 0)
        return errno == EEXIST ? has_come(path) : whole_name(part, path, over); /* where links cannot be made */
    if (unlink(part) != 0) {
        say("%s: stands, but %s cannot be removed: %s", path, part, strerror(errno));
        return STATUS_UNWRITTEN;
    }
    return flush_folder(path);
}

void keep_mode(int file, const struct stat *of, mode_t more)
{
    mode_t mode = (of->st_mode & 0777) | more;
    if (fchown(file, (uid_t)-1, of->st_gid) != 0)
        mode &= ~(mode_t)070; /* what its group may do is not for another group */
    if (fchmod(file, mode) != 0)
        return; /* it stays with the owner alone */
}

/* A fresh file beside path, which nobody reads who may not read `of`, where that is given; *name becomes its name. -1
   and errno if there can be none. */
static int open_part(const char *path, char **name, const struct stat *of)
{
    for (int try = 0; try < 1000; try++) {
        char ending[64];
        int file, why;
        snprintf(ending, sizeof ending, ".part-%ld-%d", (long)getpid(), try);
        *name = joined(path, ending);
        file = open(*name, O_RDWR | O_CREAT | O_EXCL | O_CLOEXEC, of ? 0600 : 0666);
        if (file >= 0) {
            if (of)
                keep_mode(file, of, 0);
            return file;
        }
        why = errno;
        free(*name);
        *name = NULL;
        errno = why;
        if (why != EEXIST)
            break;
    }
    return -1;
}

enum status whole_write(const char *path, const void *bytes, size_t length, const struct over *over)
{
    char *part = NULL;
    struct stat before;
    bool there = lstat(path, &before) == 0 && S_ISREG(before.st_mode);
    enum status status;
    int file = open_part(path, &part, there ? &before : NULL);
    if (file < 0) {
        say("%s: cannot be written: %s", path, strerror(errno));
        return STATUS_UNWRITTEN;
    }
    status = write_all(file, bytes, length, path);
    if (status == STATUS_DONE)
        status = flush_file(file, path);
    if (close(file) != 0 && status == STATUS_DONE) {
        say("%s: cannot be closed: %s", path, strerror(errno));
        status = STATUS_UNWRITTEN;
    }
    if (status == STATUS_DONE)
        status = name_part(part, path, over);
    if (status != STATUS_DONE)
        unlink(part); /* gone already if it got its name */
    free(part);
    return status;
}

bool still_named(int file, const char *path)
{
    struct stat open_one, named;
    return fstat(file, &open_one) == 0 && lstat(path, &named) == 0 && open_one.st_dev == named.st_dev &&
           open_one.st_ino == named.st_ino;
}

enum status open_alone(const char *path, int *file, bool *made)
{
    for (int try = 0; try < 100; try++) {
        struct flock lock = {.l_type = F_WRLCK, .l_whence = SEEK_SET};
        struct stat found;
        if (lstat(path, &found) == 0 && !S_ISREG(found.st_mode)) {
            say("%s: is not a file; give another name", path);
            return STATUS_REFUSED;
        }
        *file = open(path, O_RDWR | O_CREAT | O_EXCL | O_NOFOLLOW | O_CLOEXEC, 0666);
        *made = *file >= 0;
        if (*file < 0 && errno == EEXIST) {
            *file = open(path, O_RDWR | O_NOFOLLOW | O_CLOEXEC);
            if (*file < 0 && errno == ENOENT)
                continue; /* it lost its name between the two */
        }
        if (*file < 0) {
            say("%s: cannot be written: %s", path, strerror(errno));
            return STATUS_UNWRITTEN;
        }
        if (fcntl(*file, F_SETLK, &lock) != 0 && (errno == EACCES || errno == EAGAIN))
            break;
        /* the run that held it before may have given it another name */
        if (still_named(*file, path))
            return STATUS_DONE;
        close(*file);
        *file = -1;
    }
    if (*file >= 0)
        close(*file);
    *file = -1;
    say("%s: another run is writing it", path);
    return STATUS_REFUSED;
}

enum status next_begin(const char *path, int alone, struct next *next)
{
    struct flock lock = {.l_type = F_WRLCK, .l_whence = SEEK_SET};
    struct stat before;
    next->file = open_part(path, &next->part, fstat(alone, &before) == 0 ? &before : NULL);
    if (next->file < 0) {
        say("%s: cannot be written: %s", path, strerror(errno));
        return STATUS_UNWRITTEN;
    }
    if (fcntl(next->file, F_SETLK, &lock) != 0)
        errno = 0; /* where there are no locks, there was none before */
    return STATUS_DONE;
}

enum status next_end(const char *path, int *alone, struct next *next, enum status so_far)
{
    enum status status = so_far;
    if (status == STATUS_DONE)
        status = flush_file(next->file, path);
    if (status == STATUS_DONE && !still_named(*alone, path)) {
        say("%s: was taken away or replaced by another program while this ran", path);
        status = STATUS_UNWRITTEN;
    }
    if (status == STATUS_DONE)
        status = whole_name(next->part, path, &(struct over){.any = true});
    if (still_named(next->file, path)) {
        close(*alone);
        *alone = next->file;
    } else {
        unlink(next->part);
        close(next->file);
    }
    free(next->part);
    return status;
}

static struct place place_of(const char *use, const char *path, bool input)
{
    struct place place = {.use = use, .path = path, .input = input};
    struct stat found;
    char *folder;
    if (!path)
        return place;
    place.name = name_in_folder(path);
    if (stat(path, &found) == 0) {
        place.there = true;
        place.device = found.st_dev;
        place.file = found.st_ino;
    }
    folder = folder_of(path);
    if (stat(folder, &found) == 0) {
        place.folder_device = found.st_dev;
        place.folder = found.st_ino;
    }
    free(folder);
    return place;
}

struct place input_place(const char *use, const char *path)
{
    return place_of(use, path, true);
}

struct place output_place(const char *use, const char *path)
{
    return place_of(use, path, false);
}

struct place work_place(const char *use, const char *path)
{
    struct place place = place_of(use, path, false);
    place.work = true;
    return place;
}

static bool same_name(const struct place *a, const struct place *b)
{
    return a->folder == b->folder && a->folder_device == b->folder_device && strcmp(a->name, b->name) == 0;
}

/* Whether two names are of one file, also when they are looked at again. A file that another run has just written over
   may have handed on its number to a new one: then the first of the two has another by now. */
static bool same_file(const struct place *a, const struct place *b)
{
    struct stat first, second, again;
    return a->there && b->there && a->device == b->device && a->file == b->file && stat(a->path, &first) == 0 &&
           stat(b->path, &second) == 0 && stat(a->path, &again) == 0 && first.st_ino == second.st_ino &&
           first.st_dev == second.st_dev && again.st_ino == first.st_ino && again.st_dev == first.st_dev;
}

static bool same_place(const struct place *a, const struct place *b) { return same_name(a, b) || same_file(a, b); }

static enum status output_allowed(const struct place *place, bool replace)
{
    struct stat found;
    char *part = NULL;
    int file;
    if (place->name[0] == '\0') {
        say("%s: names a folder; %s must be a file", place->path, place->use);
        return STATUS_REFUSED;
    }
    if (lstat(place->path, &found) == 0) {
        if (S_ISLNK(found.st_mode)) {
            say("%s: is a symbolic link; name the file itself for %s", place->path, place->use);
            return STATUS_REFUSED;
        }
        if (!S_ISREG(found.st_mode)) {
            say("%s: is a %s; %s must be a file", place->path, S_ISDIR(found.st_mode) ? "folder" : "device or pipe",
                place->use);
            return STATUS_REFUSED;
        }
        if (!replace && !place->work) {
            say("%s: is there already and is not written over; give another name for %s, or --replace", place->path,
                place->use);
            return STATUS_REFUSED;
        }
    }
    file = open_part(place->path, &part, NULL);
    if (file < 0) {
        say("%s: cannot be written: %s", place->path, strerror(errno));
        return STATUS_UNWRITTEN;
    }
    close(file);
    if (unlink(part) != 0) {
        say("%s: cannot be removed: %s", part, strerror(errno));
        free(part);
        return STATUS_UNWRITTEN;
    }
    free(part);
    return STATUS_DONE;
}

enum status outputs_allowed(struct place *places, size_t count, bool replace)
{
    for (size_t j = 0; j < count; j++)
        for (size_t k = 0; k < j; k++)
            if (places[j].path && places[k].path && !(places[j].input && places[k].input) &&
                same_place(&places[j], &places[k])) {
                say("%s and %s are the same file: %s; nothing is written", places[k].use, places[j].use,
                    places[j].path);
                return STATUS_REFUSED;
            }
    for (size_t j = 0; j < count; j++)
        if (places[j].path && !places[j].input) {
            enum status status = output_allowed(&places[j], replace);
            if (status != STATUS_DONE)
                return status;
        }
    return STATUS_DONE;
}

#define _POSIX_C_SOURCE 200809L

#include "record_file.h"

#include <errno.h>
#include <fcntl.h>
#include <string.h>
#include <sys/stat.h>
#include <unistd.h>

#define HOW (O_APPEND | O_CLOEXEC)

static int group_judge(int file, gid_t group)
{
    struct stat found;

    if (fstat(file, &found) != 0)
        return errno;
    if (found.st_gid != group)
        return RECORD_FILE_GROUP;
    return (found.st_mode & S_IRWXO) != 0 ? RECORD_FILE_OTHERS : 0;
}

/* A regular file is also read, for its last byte. A pipe must not be, or it would be its own reader. */
static int present_open(const char *path, bool regular, const gid_t *group, int *reason)
{
    int file = open(path, regular ? HOW | O_RDWR : HOW | O_WRONLY | O_NONBLOCK);

    *reason = file < 0 ? errno : group == NULL ? 0 : group_judge(file, *group);
    if (file < 0 || *reason == 0)
        return file;
    (void)close(file);
    return -1;
}

/* Nobody but the owner may open it before it has its group: who has opened a file reads what is written later. */
static int absent_make(const char *path, const gid_t *group, int *reason)
{
    mode_t mode = S_IRUSR | S_IWUSR | S_IRGRP;
    int file = open(path, HOW | O_RDWR | O_CREAT | O_EXCL, group == NULL ? mode : S_IRUSR | S_IWUSR);

    *reason = file < 0 ? errno : 0;
    if (file < 0 || group == NULL)
        return file;
    if (fchown(file, (uid_t)-1, *group) == 0 && fchmod(file, mode) == 0)
        return file;
    *reason = errno;
    (void)close(file);
    (void)unlink(path);
    return -1;
}

int record_file_open(const char *path, const gid_t *group, int *reason)
{
    struct stat found;

    if (stat(path, &found) == 0)
        return present_open(path, S_ISREG(found.st_mode), group, reason);
    if (errno == ENOENT)
        return absent_make(path, group, reason);
    *reason = errno;
    return -1;
}

bool record_file_ends_in_line(int file)
{
    off_t end = lseek(file, 0, SEEK_END);
    char last;

    return end > 0 && pread(file, &last, 1, end - 1) == 1 && last != '\n';
}

const char *record_file_reason(int reason)
{
    switch (reason) {
    case RECORD_FILE_GROUP:
        return "it is of another group than --group says";
    case RECORD_FILE_OTHERS:
        return "others than its group may use it";
    case ENXIO:
        return "nobody reads this pipe";
    case EEXIST:
        return "it is a link to nothing";
    default:
        return strerror(reason);
    }
}

#define _POSIX_C_SOURCE 200809L

#include "folder.h"

#include <errno.h>
#include <fcntl.h>
#include <string.h>
#include <sys/stat.h>
#include <unistd.h>

#include "say.h"
#include "text.h"

static enum status not_locked(const char *folder, int error)
{
    if (error == EACCES || error == EAGAIN)
        say("%s: another host writes its records there\n", folder);
    else
        say("%s: cannot be kept for this host: %s\n", folder, strerror(error));
    return STATUS_INPUT;
}

/* No party may open it, or it could keep the next host from starting. */
static int lock_open(const char *folder)
{
    struct text path = {0};
    int file = -1;

    errno = ENOMEM;
    if (text_add(&path, "%s/%s", folder, FOLDER_LOCK))
        file = open(path.characters, O_RDWR | O_CREAT | O_CLOEXEC | O_NOFOLLOW, S_IRUSR | S_IWUSR);
    text_free(&path);
    return file;
}

enum status folder_lock(const char *folder)
{
    struct flock whole = {.l_type = F_WRLCK, .l_whence = SEEK_SET};
    int file = lock_open(folder);

    if (file < 0) {
        say("%s: cannot be kept for this host: %s\n", folder, strerror(errno));
        return STATUS_INPUT;
    }
    /* It is never closed: to close any file of the lock would release it. */
    return fcntl(file, F_SETLK, &whole) == 0 ? STATUS_DONE : not_locked(folder, errno);
}

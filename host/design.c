#include "design.h"

#include <errno.h>
#include <stdio.h>
#include <string.h>

#include "say.h"

enum status design_load(struct design *design, const char *path)
{
    FILE *file = fopen(path, "rb");
    int broken;

    if (file == NULL) {
        say("%s: cannot be opened: %s\n", path, strerror(errno));
        return STATUS_INPUT;
    }
    errno = 0;
    design->length = fread(design->image, 1, sizeof design->image, file);
    broken = ferror(file);
    if (broken && errno == EISDIR)
        say("%s: is a directory, not a design\n", path);
    else if (broken)
        say("%s: cannot be read: %s\n", path, strerror(errno));
    if (fclose(file) != 0 && !broken) {
        say("%s: cannot be closed: %s\n", path, strerror(errno));
        broken = 1;
    }
    return broken ? STATUS_INPUT : STATUS_DONE;
}

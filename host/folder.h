/* folder.h: a folder that records are written to, by one host at a time. */
#ifndef FOLDER_H
#define FOLDER_H

#include "caisson.h"
#include "status.h"

#define FOLDER_LOCK ".outstation.lock"

/* Keeps the folder for this process until it ends, however it ends; again for the same folder is no fault.
   STATUS_INPUT, with a message, where another process has it or it cannot be kept. */
CAISSON_LOOK_AT_ANSWER
enum status folder_lock(const char *folder);

#endif

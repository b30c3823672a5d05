/* streams.h: standard input, output and error, where the program was started without one of them. */
#ifndef STREAMS_H
#define STREAMS_H

/* Takes their places, so that no file of a party is opened there and takes what is said. They cannot be read or
   written, as before. */
void streams_keep(void);

#endif

/* The stored cases of lines that are written, printed as sample.c prints the other cases; gives how many there are. */
#ifndef STOREDWRITTEN_H
#define STOREDWRITTEN_H

unsigned stored_written(void);

#endif

/* The stored signature lines, printed as sample.c prints the other cases; gives how many there are. */
#ifndef STOREDLINES_H
#define STOREDLINES_H

unsigned stored_lines(void);

#endif

/* Checks that are counted. */

#ifndef CHECK_H
#define CHECK_H

/* Counts a check; one that fails is told with its place. */
#define CHECK(fact) check((fact) != 0, #fact, __FILE__, __LINE__)

void check(int holds, const char *fact, const char *file, int line);

#endif

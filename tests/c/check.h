/* Checks of a test program: each is counted, one that fails is printed with its place and with the case that
 * was being tried, and the program goes on.
 */
#ifndef CHECK_H
#define CHECK_H

#define CHECK(is_so) check_that((is_so) != 0, __FILE__, __LINE__, #is_so)

/* Which case the checks that follow are about; like printf. */
void check_about(const char *format, ...) __attribute__((format(printf, 1, 2)));

void check_that(int is_so, const char *file, int line, const char *what);

/* The program's one line, and its exit status. */
int check_done(const char *program);

#endif

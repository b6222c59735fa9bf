/* Walks a directory. Folders that are still to be read wait in a row, so that neither the stack nor the number of open
 * files grows with the depth.
 */
#define _XOPEN_SOURCE 700 /* fdopendir, fstatat, openat */
#include "walk.h"

#include "memory.h"
#include "note.h"
#include "print.h"

#include <dirent.h>
#include <errno.h>
#include <fcntl.h>
#include <stdlib.h>
#include <string.h>
#include <sys/stat.h>
#include <time.h>
#include <unistd.h>

enum { SECONDS_A_DAY = 86400 };

typedef struct {
    tree *found;
    const char *directory;
    char **waiting; /* folders to read, as paths below the directory; "" is the directory itself */
    size_t count, places;
    time_t said;     /* when progress was last told, */
    int on_terminal; /*   and whether it was told on one line of a terminal */
} walker;

static char *joined(const char *folder, const char *name) {
    size_t a = strlen(folder), b = strlen(name);
    char *path = must_have(malloc(a + b + 2));
    memcpy(path, folder, a);
    if (a > 0) path[a++] = '/';
    memcpy(path + a, name, b + 1);
    return path;
}

/* A second without a word is a long walk. */
static void tell_progress(walker *w) {
    time_t now = time(NULL);
    if (now <= w->said) return;
    w->said = now;
    w->on_terminal = isatty(STDERR_FILENO);
    fputs("gorbihesh: ", stderr);
    print_count(stderr, w->found->count, "file");
    fputs(" in ", stderr);
    print_count(stderr, w->found->folders, "folder");
    fputs(w->on_terminal ? " so far\r" : " so far\n", stderr);
    fflush(stderr);
}

void add_notice(notices *n, const char *path, const char *what, const char *why) {
    n->at = with_place(n->at, n->count, &n->places, sizeof *n->at);
    n->at[n->count++] = (notice){copy_of(path, strlen(path)), what, copy_of(why, strlen(why))};
}

/* Days before 1970 are negative and rounded down too. */
static int64_t day_of(time_t seconds) {
    int64_t s = (int64_t)seconds;
    return s / SECONDS_A_DAY - (s % SECONDS_A_DAY < 0);
}

static file *add_file(tree *t, const char *path, const struct stat *s) {
    t->at = with_place(t->at, t->count, &t->places, sizeof *t->at);
    t->at[t->count++] = (file){copy_of(path, strlen(path)), (uint64_t)s->st_size, day_of(s->st_mtime), NULL};
    return &t->at[t->count - 1];
}

/* A note that is not read whole is told; as a file it is catalogued like others. */
static void see_note(tree *t, file *f, int fd) {
    const char *why = NULL;
    f->note = read_note(fd, &why);
    if (why != NULL) add_notice(&t->left_out, f->path, "text of a note", why);
}

/* Only opening tells whether a file can be read. */
static void see_file(tree *t, int folder_fd, const char *name, const char *path, const struct stat *s) {
    int fd = openat(folder_fd, name, O_RDONLY | O_NOFOLLOW | O_NONBLOCK | O_NOCTTY | O_CLOEXEC);
    if (fd < 0) {
        add_notice(&t->left_out, path, "file", strerror(errno));
        return;
    }
    file *f = add_file(t, path, s);
    if (is_note(name)) see_note(t, f, fd);
    close(fd);
}

static void add_folder(walker *w, const char *path) {
    w->waiting = with_place(w->waiting, w->count, &w->places, sizeof *w->waiting);
    w->waiting[w->count++] = copy_of(path, strlen(path));
}

static const char *kind_of(mode_t mode) {
    return S_ISLNK(mode) ? "link" : S_ISFIFO(mode) ? "pipe" : S_ISSOCK(mode) ? "socket" : "device";
}

static void see(walker *w, int folder_fd, const char *folder, const char *name) {
    struct stat s;
    if (strcmp(name, ".") == 0 || strcmp(name, "..") == 0) return;
    char *path = joined(folder, name);
    if (fstatat(folder_fd, name, &s, AT_SYMLINK_NOFOLLOW) != 0)
        add_notice(&w->found->left_out, path, "file", strerror(errno));
    else if (S_ISDIR(s.st_mode))
        add_folder(w, path);
    else if (!S_ISREG(s.st_mode))
        add_notice(&w->found->not_followed, path, kind_of(s.st_mode),
                   S_ISLNK(s.st_mode) ? "links are not followed" : "it holds no bytes to keep");
    else
        see_file(w->found, folder_fd, name, path, &s);
    free(path);
}

/* The directory itself may be a link; a folder below it that has become one is not followed. */
static DIR *opened(const walker *w, const char *folder) {
    char *path = folder[0] == 0 ? copy_of(w->directory, strlen(w->directory)) : joined(w->directory, folder);
    int fd = open(path, O_RDONLY | O_DIRECTORY | O_CLOEXEC | (folder[0] == 0 ? 0 : O_NOFOLLOW));
    free(path);
    if (fd < 0) return NULL;
    DIR *d = fdopendir(fd);
    if (d == NULL) close(fd);
    return d;
}

static int read_folder(walker *w, const char *folder) {
    const char *shown = folder[0] == 0 ? w->directory : folder;
    DIR *d = opened(w, folder);
    if (d == NULL) {
        add_notice(&w->found->left_out, shown, "folder", strerror(errno));
        return 0;
    }
    w->found->folders++;
    for (;;) {
        errno = 0;
        struct dirent *entry = readdir(d);
        if (entry == NULL) break;
        see(w, dirfd(d), folder, entry->d_name);
    }
    if (errno != 0) add_notice(&w->found->left_out, shown, "rest of a folder", strerror(errno));
    closedir(d);
    tell_progress(w);
    return 1;
}

static int by_path(const void *a, const void *b) { return strcmp(((const file *)a)->path, ((const file *)b)->path); }

static int by_notice(const void *a, const void *b) {
    return strcmp(((const notice *)a)->path, ((const notice *)b)->path);
}

void sort_notices(notices *n) {
    if (n->count > 0) qsort(n->at, n->count, sizeof *n->at, by_notice);
}

int walk(const char *directory, tree *t) {
    walker w = {t, directory, NULL, 0, 0, time(NULL), 0};
    memset(t, 0, sizeof *t);
    int is_read = read_folder(&w, "");
    while (w.count > 0) {
        char *folder = w.waiting[--w.count];
        read_folder(&w, folder);
        free(folder);
    }
    if (w.on_terminal) putc('\n', stderr);
    free(w.waiting);
    if (t->count > 0) qsort(t->at, t->count, sizeof *t->at, by_path);
    sort_notices(&t->left_out);
    sort_notices(&t->not_followed);
    return is_read;
}

static void free_notices(notices *n) {
    for (size_t i = 0; i < n->count; i++) {
        free(n->at[i].path);
        free(n->at[i].why);
    }
    free(n->at);
}

void free_file(file *f) {
    free(f->path);
    free(f->note);
}

void free_tree(tree *t) {
    for (size_t i = 0; i < t->count; i++) free_file(&t->at[i]);
    free(t->at);
    free_notices(&t->left_out);
    free_notices(&t->not_followed);
}

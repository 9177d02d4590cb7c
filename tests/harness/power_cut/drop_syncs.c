/* Leaves syncs out. For LD_PRELOAD: with DROP=all each, with DROP=body those after which more than one byte differs: so
   of the two syncs of a record that of its gate is left. With DROP=gate it is the other way round.
   cc -shared -fPIC -O2 -o drop_syncs.so drop_syncs.c */
#define _GNU_SOURCE
#include <stdlib.h>
#include <string.h>
#include <sys/syscall.h>
#include <unistd.h>

enum { MOST = 1 << 20, FILES = 64 };
static char now[MOST], *before[FILES];
static long length[FILES];

/* How many bytes of the file differ from those at the last question; none at the first one. */
static long changed(int file) {
    if (file < 0 || file >= FILES) return 0;
    long count = syscall(SYS_pread64, file, now, MOST, 0), differ = 0;
    int is_first = !before[file];
    if (is_first && !(before[file] = calloc(1, MOST))) return 0;
    for (long k = 0; !is_first && (k < count || k < length[file]); k++)
        differ += k >= count || k >= length[file] || now[k] != before[file][k];
    if (count > 0) memcpy(before[file], now, (size_t)count);
    length[file] = count;
    return differ;
}

static int is_left_out(int file) {
    const char *drop = getenv("DROP") ? getenv("DROP") : "";
    long differ = changed(file);
    return !strcmp(drop, "all") || (!strcmp(drop, "body") && differ > 1) || (!strcmp(drop, "gate") && differ == 1);
}

int fdatasync(int file) {
    return is_left_out(file) ? 0 : (int)syscall(SYS_fdatasync, file);
}

int fsync(int file) {
    return is_left_out(file) ? 0 : (int)syscall(SYS_fsync, file);
}

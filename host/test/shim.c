/*
 * A library to load before the C library: it notes the calls that write files,
 * and brings about what can't be waited for. By environment:
 *   SHIM_LOG=FILE      a line for each call
 *   SHIM_SIGNAL=N      sends the program this signal after a call ..
 *   SHIM_AT=CALL       .. of this name; after the first one
 *   SHIM_FAIL=CALL:N   the N-th call of this name fails with EIO
 *   SHIM_NO_RENAME=1   renameat2 is refused as by a file system without RENAME_NOREPLACE
 *   SHIM_PLANT=KIND    just before the renaming something is put in its place: file or folder
 *   SHIM_NO_MEMORY=N   there is none from the N-th time on that it is asked for after a new file was opened
 *   SHIM_FREE=N        so many bytes are free on every file system
 */
#define _GNU_SOURCE
#include <dlfcn.h>
#include <errno.h>
#include <fcntl.h>
#include <signal.h>
#include <stdarg.h>
#include <stdio.h>
#include <stdlib.h>
#include <string.h>
#include <sys/stat.h>
#include <sys/statvfs.h>
#include <unistd.h>

#define REAL(name) ((__typeof__(&name))dlsym(RTLD_NEXT, #name))

static const char *setting(const char *name)
{
    const char *value = getenv(name);
    return value != NULL ? value : "";
}

static void note(const char *call, const char *what)
{
    char line[8192];
    int length = snprintf(line, sizeof line, "%s %s\n", call, what);
    int log = REAL(open)(setting("SHIM_LOG"), O_WRONLY | O_CREAT | O_APPEND, 0666);
    if (log >= 0 && write(log, line, (size_t)length) == length)
        close(log);
}

/* Whether this call is to fail: the count of calls is that of the one name in SHIM_FAIL. */
static int fails(const char *call)
{
    static int calls;
    const char *wish = setting("SHIM_FAIL");
    size_t length = strlen(call);
    if (strncmp(wish, call, length) != 0 || wish[length] != ':' || ++calls != atoi(wish + length + 1))
        return 0;
    errno = EIO;
    return 1;
}

static void done(const char *call, const char *what)
{
    static int is_sent;
    int error = errno;
    note(call, what);
    if (!is_sent && strcmp(setting("SHIM_AT"), call) == 0) {
        is_sent = 1;
        note("signal", setting("SHIM_SIGNAL"));
        kill(getpid(), atoi(setting("SHIM_SIGNAL")));
    }
    errno = error;
}

ssize_t read(int descriptor, void *bytes, size_t length)
{
    return fails("read") ? -1 : REAL(read)(descriptor, bytes, length);
}

static int has_opened;

/* Only new files: what is read is of no interest. */
int open(const char *path, int flags, ...)
{
    va_list arguments;
    va_start(arguments, flags);
    mode_t mode = (flags & O_CREAT) != 0 ? va_arg(arguments, mode_t) : 0;
    va_end(arguments);
    int descriptor = REAL(open)(path, flags, mode);
    if ((flags & O_CREAT) != 0) {
        done("open", path);
        has_opened = 1;
    }
    return descriptor;
}

static int has_memory(void)
{
    static int asked;
    const char *wish = setting("SHIM_NO_MEMORY");
    if (!has_opened || *wish == '\0' || ++asked < atoi(wish))
        return 1;
    errno = ENOMEM;
    return 0;
}

/* The C library's own, by the name that is left of it. */
void *__libc_malloc(size_t size);
void *__libc_realloc(void *start, size_t size);

void *malloc(size_t size)
{
    return has_memory() ? __libc_malloc(size) : NULL;
}

void *realloc(void *start, size_t size)
{
    return has_memory() ? __libc_realloc(start, size) : NULL;
}

int mkdir(const char *path, mode_t mode)
{
    int status = REAL(mkdir)(path, mode);
    done("mkdir", path);
    return status;
}

size_t fwrite(const void *bytes, size_t size, size_t count, FILE *file)
{
    size_t written = REAL(fwrite)(bytes, size, count, file);
    done("fwrite", file == stdout ? "standard output" : "a file");
    return written;
}

int fsync(int descriptor)
{
    char name[64], path[4096] = "";
    snprintf(name, sizeof name, "/proc/self/fd/%d", descriptor);
    if (readlink(name, path, sizeof path - 1) < 0)
        return -1;
    int status = fails("fsync") ? -1 : REAL(fsync)(descriptor);
    done("fsync", path);
    return status;
}

static void plant(const char *path)
{
    if (strcmp(setting("SHIM_PLANT"), "folder") == 0)
        REAL(mkdir)(path, 0777);
    if (strcmp(setting("SHIM_PLANT"), "file") == 0) {
        int file = REAL(open)(path, O_WRONLY | O_CREAT, 0666);
        if (file >= 0 && write(file, "other\n", 6) == 6)
            close(file);
    }
}

int renameat2(int from_folder, const char *from, int to_folder, const char *to, unsigned flags)
{
    plant(to);
    errno = EINVAL;
    int status = *setting("SHIM_NO_RENAME") != '\0'
        ? -1 : REAL(renameat2)(from_folder, from, to_folder, to, flags);
    done("rename", to);
    return status;
}

int fstatvfs(int descriptor, struct statvfs *space)
{
    int status = REAL(fstatvfs)(descriptor, space);
    if (*setting("SHIM_FREE") != '\0') {
        space->f_frsize = 1;
        space->f_bavail = (fsblkcnt_t)atoll(setting("SHIM_FREE"));
    }
    return status;
}

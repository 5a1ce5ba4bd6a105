#include "draft.h"

#include <errno.h>
#include <fcntl.h>
#include <stdlib.h>
#include <string.h>
#include <sys/stat.h>
#include <unistd.h>

#include "common.h"
#include "signals.h"

/* ---- Beginning ---- */

/* True where nothing is at the path; else says what is wrong. */
static bool is_free(const char *path)
{
    struct stat status;
    bool there = lstat(path, &status) == 0;
    if (!there && errno == ENOENT)
        return true;
    complain("%s: %s", path, strerror(there ? EEXIST : errno));
    return false;
}

static char *draft_name(const char *path)
{
    size_t length = strlen(path);
    while (length > 1 && path[length - 1] == '/')
        length--;
    return format_text("%.*s.partial-%ld", (int)length, path, (long)getpid());
}

static FILE *open_new(const char *path)
{
    int descriptor = open(path, O_WRONLY | O_CREAT | O_EXCL | O_CLOEXEC, 0666);
    if (descriptor < 0)
        return NULL;
    FILE *file = fdopen(descriptor, "wb");
    if (file == NULL) {
        close(descriptor);
        unlink(path);
        errno = ENOMEM;
    }
    return file;
}

/* Drafts that are not ended, for a program that ends without memory. */
static struct draft *unended;

static void drop_unended(void)
{
    while (unended != NULL)
        draft_drop(unended);
}

static void note(struct draft *draft)
{
    static bool is_asked;
    if (!is_asked)
        is_asked = atexit(drop_unended) == 0;
    draft->next = unended;
    unended = draft;
}

static void forget(const struct draft *draft)
{
    struct draft **at = &unended;
    while (*at != draft)
        at = &(*at)->next;
    *at = draft->next;
}

static bool begin(struct draft *draft, const char *path, bool is_folder)
{
    if (!is_free(path))
        return false;
    *draft = (struct draft){ .path = path, .temporary = draft_name(path), .is_folder = is_folder };
    hold_signals();
    if (is_folder ? mkdir(draft->temporary, 0777) == 0
                  : (draft->file = open_new(draft->temporary)) != NULL) {
        note(draft);
        return true;
    }
    if (errno == EEXIST)
        complain("%s: its draft %s is there already", path, draft->temporary);
    else
        complain("%s: %s", path, strerror(errno));
    free(draft->temporary);
    release_signals();
    return false;
}

bool draft_begin(struct draft *draft, const char *path)
{
    return begin(draft, path, false);
}

bool draft_begin_folder(struct draft *draft, const char *path)
{
    return begin(draft, path, true);
}

/* ---- Through to the disk ---- */

/* Closes a file; every error of writing is seen, and is in errno. */
static bool close_whole(FILE *file)
{
    bool whole = fflush(file) == 0 && !ferror(file) && fsync(fileno(file)) == 0;
    int error = errno;
    if (fclose(file) != 0 && whole)
        return false;
    errno = error;
    return whole;
}

/*
 * Makes a folder's names last, as far as that can be asked for: not of a file system that can't do it for folders
 * (EINVAL), nor of a folder that may be written and not read (EACCES).
 */
static bool sync_folder(const char *path)
{
    int descriptor = open(path, O_RDONLY | O_DIRECTORY | O_CLOEXEC);
    if (descriptor < 0)
        return errno == EACCES;
    bool synced = fsync(descriptor) == 0 || errno == EINVAL;
    int error = errno;
    close(descriptor);
    errno = error;
    return synced;
}

static bool sync_parent(const char *path)
{
    const char *slash = strrchr(path, '/');
    if (slash == NULL)
        return sync_folder(".");
    char *parent = format_text("%.*s", slash == path ? 1 : (int)(slash - path), path);
    bool synced = sync_folder(parent);
    int error = errno;
    free(parent);
    errno = error;
    return synced;
}

bool draft_add(struct draft *draft, const char *name, struct bytes bytes)
{
    if (is_stopped())
        return false;
    char *path = format_text("%s/%s", draft->temporary, name);
    FILE *file = open_new(path);
    bool written = file != NULL;
    if (written) {
        draft->parts[draft->count++] = name;
        if (bytes.length > 0)
            fwrite(bytes.start, 1, bytes.length, file);
        written = close_whole(file);
    }
    if (!written)
        complain("%s/%s: %s", draft->path, name, strerror(errno));
    free(path);
    return written;
}

bool draft_add_sides(struct draft *draft, const struct side sides[2])
{
    return draft_add(draft, "index.list", sides[INDEX].list)
        && draft_add(draft, "index.store", sides[INDEX].store)
        && draft_add(draft, "data.list", sides[DATA].list)
        && draft_add(draft, "data.store", sides[DATA].store);
}

/* ---- Removing ---- */

/* Without asking for memory, of which there may be none. */
static void remove_folder(const struct draft *draft, const char *path)
{
    int folder = open(path, O_PATH | O_DIRECTORY | O_CLOEXEC);
    for (int i = 0; i < draft->count; i++)
        unlinkat(folder, draft->parts[i], 0);
    if (folder >= 0)
        close(folder);
    rmdir(path);
}

/* Takes away what the draft made, which is at the path. */
static void take_away(const struct draft *draft, const char *path)
{
    if (draft->is_folder)
        remove_folder(draft, path);
    else
        unlink(path);
}

static void end(struct draft *draft)
{
    forget(draft);
    free(draft->temporary);
    release_signals();
}

void draft_drop(struct draft *draft)
{
    if (draft->file != NULL)
        fclose(draft->file);
    take_away(draft, draft->temporary);
    end(draft);
}

/* ---- Putting it in its place ---- */

/* A link is refused where its name exists. */
static bool link_file(const struct draft *draft)
{
    if (link(draft->temporary, draft->path) != 0)
        return false;
    unlink(draft->temporary);
    return true;
}

/* A folder may take the place of an empty one: here of the one that was just made. */
static bool rename_folder(const struct draft *draft)
{
    if (mkdir(draft->path, 0777) != 0)
        return false;
    if (rename(draft->temporary, draft->path) == 0)
        return true;
    int error = errno;
    rmdir(draft->path);
    errno = error;
    return false;
}

static bool put_in_place(const struct draft *draft)
{
    if (renameat2(AT_FDCWD, draft->temporary, AT_FDCWD, draft->path, RENAME_NOREPLACE) == 0)
        return true;
    /* Some file systems can't rename "unless it exists". */
    if (errno != EINVAL && errno != ENOSYS)
        return false;
    return draft->is_folder ? rename_folder(draft) : link_file(draft);
}

static bool sync_draft(struct draft *draft)
{
    if (draft->is_folder)
        return sync_folder(draft->temporary);
    FILE *file = draft->file;
    draft->file = NULL;
    return close_whole(file);
}

/* Where the draft is after a try to finish it: at one of its paths, which `at` names. */
static bool finish(struct draft *draft, const char **at)
{
    *at = draft->temporary;
    if (!sync_draft(draft) || !put_in_place(draft))
        return false;
    *at = draft->path;
    return sync_parent(draft->temporary);
}

bool draft_finish(struct draft *draft)
{
    const char *at;
    if (is_stopped()) {
        draft_drop(draft);
        return false;
    }
    bool done = finish(draft, &at);
    if (!done) {
        int error = errno;
        take_away(draft, at);
        complain("%s: %s", draft->path, strerror(error));
    }
    end(draft);
    return done;
}

bool draft_finish_both(struct draft *first, struct draft *second)
{
    if (!draft_finish(first)) {
        draft_drop(second);
        return false;
    }
    if (draft_finish(second))
        return true;
    unlink(first->path);
    return false;
}

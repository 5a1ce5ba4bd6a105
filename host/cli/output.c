#include "output.h"

#include <errno.h>
#include <fcntl.h>
#include <string.h>
#include <sys/stat.h>
#include <sys/statvfs.h>
#include <unistd.h>

#include "common.h"
#include "draft.h"
#include "signals.h"
#include "text.h"

/* A file system that doesn't say its size is not asked for room. */
bool has_room(const struct output *output, uint64_t wanted)
{
    struct statvfs space;
    uint64_t room = UINT64_MAX;
    if (output->is_regular && fstatvfs(fileno(output->file), &space) == 0 && space.f_blocks > 0)
        room = (uint64_t)space.f_bavail * space.f_frsize;
    if (wanted > room)
        complain("%s: %s bytes have to be stored, %s are free", output->path, grouped(wanted),
                 grouped(room));
    return wanted <= room;
}

void complain_output(const struct output *output)
{
    bool is_said = (output->file == stdout && ferror(stdout)) || is_stopped();
    if (!is_said)
        complain("%s: %s", output->path, strerror(errno));
}

static struct output output_to(FILE *file, const char *path)
{
    struct output output = { .file = file, .path = path };
    struct stat status;
    int descriptor = fileno(file);
    off_t at = lseek(descriptor, 0, SEEK_CUR);
    output.is_regular = fstat(descriptor, &status) == 0 && S_ISREG(status.st_mode);
    output.skips_gaps = output.is_regular && at == status.st_size
        && (fcntl(descriptor, F_GETFL) & O_APPEND) == 0;
    return output;
}

/* Ends the drafts of a file and of its list, which may be NULL. */
static int end_drafts(struct draft *file, struct draft *list, int status)
{
    if (status == DONE) {
        bool finished = list != NULL ? draft_finish_both(list, file) : draft_finish(file);
        return finished ? DONE : FAILED;
    }
    draft_drop(file);
    if (list != NULL)
        draft_drop(list);
    return status;
}

int write_output(const char *path, const char *list_path,
                 int (*write)(const struct output *output, const void *data), const void *data)
{
    struct draft file, list;
    struct output output;
    if (path == NULL) {
        output = output_to(stdout, "standard output");
        return write(&output, data);
    }
    if (!draft_begin(&file, path))
        return FAILED;
    if (list_path != NULL && !draft_begin(&list, list_path)) {
        draft_drop(&file);
        return FAILED;
    }
    output = output_to(file.file, path);
    output.list = list_path != NULL ? list.file : NULL;
    return end_drafts(&file, list_path != NULL ? &list : NULL, write(&output, data));
}

/* klapouzen: the command line. */
#include <errno.h>
#include <locale.h>
#include <pthread.h>
#include <signal.h>
#include <stdio.h>
#include <string.h>

#include "commands.h"
#include "common.h"
#include "klapouzen.h"

static const struct command {
    const char *name;
    int (*run)(struct words *words);
    const char *what;
} commands[] = {
    { "check", run_check, "judge cartridges, a line each" },
    { "show", run_show, "draw a cartridge's two partitions as a map" },
    { "why", run_why, "say what is refused of a cartridge, and where a text goes wrong" },
    { "cut", run_cut, "write the consistent fronts to a new folder" },
    { "compare", run_compare, "say where two reads of a tape differ, and which one rescues more" },
    { "files", run_files, "list the files of an index" },
    { "extract", run_extract, "write a file's bytes" },
    { "label", run_label, "write the labels of a volume" },
    { "ansi", run_ansi, "list or extract the files of a tape with ANSI labels" },
};

enum { COMMANDS = sizeof commands / sizeof commands[0] };

/* What the library needs, and what the commands do around it. */
enum { STACK = 8 * KLAPOUZEN_STACK };

static void print_help(FILE *out)
{
    fputs("usage: klapouzen COMMAND [WORD..]\n\n", out);
    for (int i = 0; i < COMMANDS; i++)
        fprintf(out, "  %-8s  %s\n", commands[i].name, commands[i].what);
    fputs("\nklapouzen help COMMAND says more, klapouzen --version the version. A cartridge is\n"
          "a folder with index.list, index.store, data.list and data.store; a missing file\n"
          "counts as empty.\n", out);
}

static int run_command(const char *name, struct words *words)
{
    for (int i = 0; i < COMMANDS; i++)
        if (strcmp(name, commands[i].name) == 0)
            return commands[i].run(words);
    complain("unknown command: %s", name);
    print_help(stderr);
    return FAILED;
}

/* `help COMMAND` is `COMMAND --help`. */
static int help(const struct words *words)
{
    char option[] = "--help", *only[] = { option };
    struct words asked = { 1, only };
    if (words->count > 0)
        return run_command(words->words[0], &asked);
    print_help(stdout);
    return DONE;
}

static int run(int count, char **words)
{
    struct words rest = { count - 2, words + 2 };
    if (count < 2) {
        print_help(stderr);
        return FAILED;
    }
    if (strcmp(words[1], "help") == 0)
        return help(&rest);
    if (is_help(words[1])) {
        print_help(stdout);
        return DONE;
    }
    if (strcmp(words[1], "--version") == 0) {
        puts("klapouzen " KLAPOUZEN_VERSION);
        return DONE;
    }
    return run_command(words[1], &rest);
}

/* The words of the program, and what it ends with. */
struct work {
    int count;
    char **words;
    sigset_t signals; /* blocked before */
    int status;
};

static void *do_work(void *data)
{
    struct work *work = data;
    pthread_sigmask(SIG_SETMASK, &work->signals, NULL);
    work->status = run(work->count, work->words);
    if (fflush(stdout) != 0 || ferror(stdout)) {
        complain("standard output: %s", strerror(errno));
        work->status = FAILED;
    }
    return NULL;
}

/*
 * The library needs more stack than a limit may leave to main, so all work is
 * done on a thread with its own. Every signal is that thread's.
 */
static int work_on_thread(struct work *work)
{
    pthread_t thread;
    pthread_attr_t attributes;
    sigset_t all;
    sigfillset(&all);
    pthread_sigmask(SIG_SETMASK, &all, &work->signals);
    pthread_attr_init(&attributes);
    pthread_attr_setstacksize(&attributes, STACK);
    int error = pthread_create(&thread, &attributes, do_work, work);
    if (error != 0) {
        complain("no memory for a stack: %s", strerror(error));
        return FAILED;
    }
    pthread_join(thread, NULL);
    return work->status;
}

int main(int count, char **words)
{
    struct work work = { .count = count, .words = words };
    /* A file past a limit is an error of writing, not the end of the program. */
    signal(SIGXFSZ, SIG_IGN);
    /* For how wide a character is drawn, and for nothing else: what is read and written is bytes. */
    setlocale(LC_CTYPE, "C.UTF-8");
    return work_on_thread(&work);
}

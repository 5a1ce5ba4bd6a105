#include "signals.h"

#include <signal.h>
#include <stddef.h>

/* A closed standard error must not end the program over a draft either: SIGPIPE. */
static const int ending[] = {
    SIGHUP, SIGINT, SIGQUIT, SIGTERM, SIGXCPU, SIGALRM, SIGUSR1, SIGUSR2, SIGPIPE,
};

enum { ENDING = sizeof ending / sizeof ending[0] };

static int holds;
static sigset_t before, held;

static bool is_ignored(int number)
{
    struct sigaction action;
    return sigaction(number, NULL, &action) == 0 && action.sa_handler == SIG_IGN;
}

/* Linux keeps a blocked signal even where it is ignored, so those are not held. */
void hold_signals(void)
{
    if (holds++ > 0)
        return;
    pthread_sigmask(SIG_BLOCK, NULL, &before);
    sigemptyset(&held);
    for (int i = 0; i < ENDING; i++)
        if (!is_ignored(ending[i]) && !sigismember(&before, ending[i]))
            sigaddset(&held, ending[i]);
    pthread_sigmask(SIG_BLOCK, &held, NULL);
}

void release_signals(void)
{
    if (--holds == 0)
        pthread_sigmask(SIG_SETMASK, &before, NULL);
}

bool is_stopped(void)
{
    sigset_t come;
    if (holds == 0 || sigpending(&come) != 0)
        return false;
    for (int i = 0; i < ENDING; i++)
        if (sigismember(&held, ending[i]) && sigismember(&come, ending[i]))
            return true;
    return false;
}

/* What a guest can't: each is refused by an errno, and the program goes on. This test isn't run on Linux. */
#define _GNU_SOURCE
#include "check.h"
#include <signal.h>
#include <spawn.h>
#include <sys/resource.h>
#include <sys/socket.h>
#include <sys/wait.h>

extern char **environ;

int main(void)
{
    char *words[] = {"true", NULL};
    pid_t child;
    SHOW_ERRNO(fork());
    SHOW_ERRNO(execv("/bin/true", words));
    SHOW_ERROR(posix_spawn(&child, "/bin/true", NULL, NULL, words, environ));
    SHOW_ERRNO(system("true"));
    SHOW(popen("true", "r") == NULL);
    SHOW_ERRNO(socket(AF_INET, SOCK_STREAM, 0));
    SHOW_ERRNO(wait(NULL));
    SHOW_ERRNO(kill(2, SIGTERM));
    SHOW(isatty(1));
    timer_t timer;
    SHOW_ERRNO(timer_create(CLOCK_REALTIME, NULL, &timer));
    SHOW(sysconf(_SC_NPROCESSORS_ONLN));
    fflush(stdout);
    kill(getpid(), SIGTERM);
    return 0;
}

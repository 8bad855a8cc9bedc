/* Starts a program under limits, waits for its end, and tells how it ended and what it took.

     measure TOLD SECONDS MEMORY STACK THREADS PROGRAM [WORD ...]

   The program may take so many seconds of the processor, then SIGXCPU ends it, and ten times as many by the clock, then SIGALRM does.
   MEMORY is the most bytes of its address space, STACK those of its stack, THREADS the most threads of its user; 0 sets no limit. A
   limit of threads doesn't hold the superuser, so that the program runs as nobody then. It has this process's standard input and
   output. A line is written to the descriptor TOLD: the wait status, the microseconds of the processor that the program took and those
   that the system took for it, and the most memory that it had, in KiB.

   The system never says that a child had less memory than its parent had when it was made, and an interpreter has much: hence this
   small process between them. */
#define _GNU_SOURCE
#include <grp.h>
#include <stdio.h>
#include <stdlib.h>
#include <sys/resource.h>
#include <sys/time.h>
#include <sys/wait.h>
#include <unistd.h>

static void limit(int resource, const char *most)
{
    struct rlimit both = {strtoull(most, NULL, 10), strtoull(most, NULL, 10)};
    if (both.rlim_cur > 0 && setrlimit(resource, &both) != 0)
        _exit(126);
}

static void limit_time(rlim_t seconds)
{
    struct rlimit none = {0, 0}, both = {seconds, seconds + 1};
    if (setrlimit(RLIMIT_CORE, &none) != 0 || setrlimit(RLIMIT_CPU, &both) != 0)
        _exit(126);
    alarm(10 * seconds);
}

/* Gives up the superuser's rights, where there is a limit that wouldn't hold it. */
static void be_nobody(const char *threads)
{
    gid_t nobody = 65534;
    if (atoll(threads) > 0 && geteuid() == 0 && (setgroups(0, NULL) != 0 || setgid(nobody) != 0 || setuid(nobody) != 0))
        _exit(126);
}

static long long microseconds(struct timeval time)
{
    return time.tv_sec * 1000000LL + time.tv_usec;
}

int main(int count, char **words)
{
    if (count < 7)
        return 2;
    pid_t child = fork();
    if (child < 0)
        return 1;
    if (child == 0) {
        close(atoi(words[1]));
        limit_time(strtoull(words[2], NULL, 10));
        limit(RLIMIT_STACK, words[4]);
        limit(RLIMIT_NPROC, words[5]);
        be_nobody(words[5]);
        limit(RLIMIT_AS, words[3]);
        execv(words[6], words + 6);
        _exit(127);
    }
    int status;
    struct rusage usage;
    if (wait4(child, &status, 0, &usage) != child)
        return 1;
    dprintf(atoi(words[1]), "%d %lld %lld %ld\n", status, microseconds(usage.ru_utime), microseconds(usage.ru_stime), usage.ru_maxrss);
    return 0;
}

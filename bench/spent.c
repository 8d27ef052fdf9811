/* spent PROGRAM WORD..: runs a program with its output thrown away, and prints its status, its processor time in microseconds, the
   most memory that it held in kilobytes and how many pages it touched first. A script's own child would count the memory of the script. */
#include <fcntl.h>
#include <stdio.h>
#include <sys/resource.h>
#include <sys/wait.h>
#include <unistd.h>

static long micros(struct timeval t) { return t.tv_sec * 1000000L + t.tv_usec; }

int main(int count, char **words) {
    int status;
    struct rusage used;
    pid_t child;
    if (count < 2) return 2;
    child = fork();
    if (child < 0) return 2;
    if (child == 0) {
        int nowhere = open("/dev/null", O_WRONLY);
        dup2(nowhere, 1);
        dup2(nowhere, 2);
        execv(words[1], words + 1);
        _exit(127);
    }
    if (wait4(child, &status, 0, &used) < 0) return 2;
    printf("%d %ld %ld %ld\n", WIFEXITED(status) ? WEXITSTATUS(status) : -1, micros(used.ru_utime) + micros(used.ru_stime), used.ru_maxrss,
           used.ru_minflt);
    return 0;
}

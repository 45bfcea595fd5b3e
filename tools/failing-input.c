/* failing-input fails|stops PROGRAM [ARGUMENT..]: runs a program with the bytes of our standard input on its own, which then
   fails: a socket that does not wait, whose other end stays open; or
   stops: a socket with a time limit, where a read is interrupted when the program is stopped and goes on, and then ends. */
#include <fcntl.h>
#include <signal.h>
#include <stdio.h>
#include <string.h>
#include <sys/socket.h>
#include <sys/time.h>
#include <sys/wait.h>
#include <time.h>
#include <unistd.h>

static void wait_a_little(void)
{
    struct timespec fifth = {0, 200000000};

    nanosleep(&fifth, NULL);
}

int main(int argc, char **argv)
{
    char bytes[4096];
    int ends[2], status, fails = argc > 2 && strcmp(argv[1], "fails") == 0, stops = argc > 2 && strcmp(argv[1], "stops") == 0;
    struct timeval limit = {20, 0};
    pid_t child;
    ssize_t n = read(0, bytes, sizeof bytes);

    if (fails == stops || n < 0 || socketpair(AF_UNIX, SOCK_STREAM, 0, ends) != 0 || write(ends[1], bytes, (size_t)n) != n
        || (fails && fcntl(ends[0], F_SETFL, O_NONBLOCK) != 0)
        || (stops && setsockopt(ends[0], SOL_SOCKET, SO_RCVTIMEO, &limit, sizeof limit) != 0)) {
        fputs("failing-input: can't start\n", stderr);
        return 2;
    }
    child = fork();
    if (child == 0) {
        dup2(ends[0], 0);
        close(ends[0]);
        close(ends[1]);
        execv(argv[2], argv + 2);
        _exit(127);
    }
    if (child > 0 && stops) {
        wait_a_little();
        kill(child, SIGSTOP);
        wait_a_little();
        kill(child, SIGCONT);
        wait_a_little();
        close(ends[1]);
    }
    if (child < 0 || waitpid(child, &status, 0) != child || !WIFEXITED(status))
        return 2;
    return WEXITSTATUS(status);
}

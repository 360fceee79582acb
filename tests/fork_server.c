/* Loaded before the other libraries of a program (LD_PRELOAD), it runs the program once for each byte that comes on
 * descriptor 200: in a process of its own that begins here, before main, with descriptors 202, 203 and 204 as its
 * standard input, output and error, the input read from its start. After each run it writes the status that waitpid
 * gave to descriptor 201. So a run needs no loading of the program. `tests/hostile` builds and uses it. */
#include <sys/resource.h>
#include <sys/wait.h>
#include <unistd.h>

__attribute__((constructor)) static void serve(void) {
    char next;
    while (read(200, &next, 1) == 1) {
        pid_t child = fork();
        if (child == 0) {
            struct rlimit seconds = {10, 10};
            setrlimit(RLIMIT_CPU, &seconds);
            lseek(202, 0, SEEK_SET);
            for (int k = 0; k < 3; k++) dup2(202 + k, k);
            for (int k = 200; k < 205; k++) close(k);
            return;
        }
        int status = 127 << 8;
        if (child > 0) waitpid(child, &status, 0);
        if (write(201, &status, sizeof status) != sizeof status) _exit(1);
    }
    _exit(0);
}

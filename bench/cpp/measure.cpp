// measure SECONDS MB OUT COMMAND..: runs a command with what it prints in the file OUT, and prints its status (-1 where a signal ended it), its
// seconds of processor, those on the clock, and its most memory in MB. SECONDS of processor and MB of addresses are its limits, 0 for none.
// A small program, since a process begins with the memory of the one that starts it, and a script's is large.
#include <chrono>
#include <cstdio>
#include <cstdlib>
#include <fcntl.h>
#include <sys/resource.h>
#include <sys/wait.h>
#include <unistd.h>

static void limit(__rlimit_resource what, const char* word, rlim_t unit) {
    rlim_t most = rlim_t(std::atoll(word)) * unit;
    rlimit both{most, most};
    if (most > 0) setrlimit(what, &both);
}

int main(int count, char** words) {
    if (count < 5) return 1;
    auto start = std::chrono::steady_clock::now();
    pid_t child = fork();
    if (child == 0) {
        limit(RLIMIT_CPU, words[1], 1);
        limit(RLIMIT_AS, words[2], 1 << 20);
        int out = open(words[3], O_WRONLY | O_CREAT | O_TRUNC, 0644);
        dup2(out, 1), close(out);
        dup2(open("/dev/null", O_WRONLY), 2);
        execv(words[4], words + 4);
        _exit(127);
    }
    int status = 0;
    rusage used{};
    wait4(child, &status, 0, &used);
    std::chrono::duration<double> wall = std::chrono::steady_clock::now() - start;
    auto seconds = [](timeval t) { return double(t.tv_sec) + double(t.tv_usec) / 1e6; };
    std::printf("%d %.6f %.6f %.1f\n", WIFEXITED(status) ? WEXITSTATUS(status) : -1, seconds(used.ru_utime) + seconds(used.ru_stime),
                wall.count(), double(used.ru_maxrss) / 1024);
}

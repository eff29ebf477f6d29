// Times the report program on a full input, and one split of the same signal in C: 512 samples of one digit, limit 32, and as many
// prices as the longest input holds. A time is the least CPU time over all turns, of the program that of the whole process. Ends
// with status 1 where a report takes as long as ten splits.
// Usage: report PROGRAM FILE [TURNS], where FILE is a place for the input
#include <fcntl.h>
#include <foldwig.h>
#include <stdio.h>
#include <stdlib.h>
#include <string.h>
#include <sys/resource.h>
#include <sys/wait.h>
#include <time.h>
#include <unistd.h>

enum { SAMPLES = 512, LIMIT = 32, INPUT_LEN = 16384, SIGNALS = 2 };

// A random digit, the same ones each time the program is started.
static int random_digit(void)
{
    static unsigned long long state = 88172645463325252u;
    state ^= state << 13;
    state ^= state >> 7;
    state ^= state << 17;
    return (int)(state % 10);
}

// Signal 0 is random, signal 1 has 12 steps with noise of 0 and 1.
static void make_signal(int which, int *samples)
{
    int step = 0;
    for (int i = 0; i < SAMPLES; i++) {
        if (i % (SAMPLES / 12) == 0)
            step = random_digit() * 8 / 9;
        samples[i] = which == 0 ? random_digit() : step + random_digit() / 5;
    }
}

// Writes the input to a file and answers the number of prices in it.
static int make_input(const int *samples, const char *file)
{
    char text[INPUT_LEN + 64];
    int prices = 0;
    int n = sprintf(text, "(record");
    for (int i = 0; i < SAMPLES; i++)
        n += sprintf(text + n, " %d", samples[i]);
    n += sprintf(text + n, ")\n(limit %d)\n", LIMIT);
    while (n + 12 <= INPUT_LEN) {
        n += sprintf(text + n, "(price %d %d)\n", prices % 10, 1 + prices / 10 % 9);
        prices++;
    }
    FILE *f = fopen(file, "w");
    if (f == NULL || fwrite(text, 1, (size_t)n, f) != (size_t)n || fclose(f) != 0)
        exit(2);
    return prices;
}

// The microseconds of CPU time that the program takes on the input.
static double time_report(const char *program, const char *file)
{
    struct rusage used;
    int status;
    pid_t pid = fork();
    if (pid == 0) {
        int in = open(file, O_RDONLY);
        int out = open("/dev/null", O_WRONLY);
        if (in < 0 || out < 0 || dup2(in, 0) < 0 || dup2(out, 1) < 0)
            _exit(2);
        execl(program, program, (char *)NULL);
        _exit(2);
    }
    if (pid < 0 || wait4(pid, &status, 0, &used) < 0 || status != 0)
        exit(2);
    return 1e6 * (double)(used.ru_utime.tv_sec + used.ru_stime.tv_sec) + (double)(used.ru_utime.tv_usec + used.ru_stime.tv_usec);
}

// The microseconds of CPU time that one split takes.
static double time_split(const int *samples)
{
    static uint8_t scratch[FOLDWIG_SCRATCH_LEN];
    uint8_t bytes[2 * SAMPLES], starts[2 * LIMIT], levels[2 * LIMIT], sizes[2 * LIMIT], losses[8 * LIMIT], weights[2 * LIMIT];
    struct timespec a, b;
    for (int i = 0; i < SAMPLES; i++) {
        bytes[2 * i] = (uint8_t)samples[i];
        bytes[2 * i + 1] = 0;
    }
    clock_gettime(CLOCK_THREAD_CPUTIME_ID, &a);
    struct foldwig_split_result r = foldwig_split(bytes, sizeof bytes, LIMIT, 1, NULL, 0, 1, 2, starts, sizeof starts, levels,
                                                  sizeof levels, sizes, sizeof sizes, losses, sizeof losses, weights,
                                                  sizeof weights, scratch, sizeof scratch);
    clock_gettime(CLOCK_THREAD_CPUTIME_ID, &b);
    if (r.refusal != 0)
        exit(2);
    return 1e6 * (double)(b.tv_sec - a.tv_sec) + 1e-3 * (double)(b.tv_nsec - a.tv_nsec);
}

int main(int argc, char **argv)
{
    static const char *const names[SIGNALS] = {"random digits", "steps of digits"};
    int status = 0;
    if (argc < 3)
        return 2;
    int turns = argc > 3 ? atoi(argv[3]) : 40;
    puts("| signal | prices | one split | the report | report / split | wanted below |");
    puts("|---|---|---|---|---|---|");
    for (int s = 0; s < SIGNALS; s++) {
        int samples[SAMPLES];
        make_signal(s, samples);
        int prices = make_input(samples, argv[2]);
        double report = 1e12, split = 1e12;
        for (int i = 0; i < turns; i++) {
            double r = time_report(argv[1], argv[2]), t = time_split(samples);
            report = r < report ? r : report;
            split = t < split ? t : split;
        }
        printf("| %s | %d | %.0f | %.0f | %.2f | 10 |\n", names[s], prices, split, report, report / split);
        if (report >= 10 * split)
            status = 1;
    }
    return status;
}

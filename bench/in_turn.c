// Times two programs over one input: INPUT LINES OURS PLAIN [EMULATOR WORDS]. They run in turn, so that what else the machine does falls on both, and write to
// nowhere: nanoseconds a line, the least of all turns; the ratio of these, with the middle one of the turns' own ratios; and our speed as a part of the plain C's.
#include <fcntl.h>
#include <stdio.h>
#include <stdlib.h>
#include <sys/wait.h>
#include <time.h>
#include <unistd.h>

enum { TURNS = 41, MOST_WORDS = 8 };

static double now(void) {
    struct timespec t;
    clock_gettime(CLOCK_MONOTONIC, &t);
    return t.tv_sec * 1e9 + t.tv_nsec;
}

static double run(const char *input, char *program, char **emulator) {
    double from = now();
    pid_t child = fork();
    if (child == 0) {
        char *words[MOST_WORDS + 2] = {NULL}, **next = words;
        while (*emulator && next < words + MOST_WORDS) *next++ = *emulator++;
        *next = program;
        if (dup2(open(input, O_RDONLY), 0) < 0 || dup2(open("/dev/null", O_WRONLY), 1) < 0) _exit(127);
        execv(words[0], words);
        _exit(127);
    }
    int status;
    if (child < 0 || waitpid(child, &status, 0) != child || status != 0) {
        fprintf(stderr, "%s did not run to its end\n", program);
        exit(1);
    }
    return now() - from;
}

static int rising(const void *a, const void *b) {
    double x = *(const double *)a, y = *(const double *)b;
    return (x > y) - (x < y);
}

int main(int count, char **words) {
    if (count < 5) return 2;
    double lines = atof(words[2]), ours[TURNS], plain[TURNS], ratio[TURNS];
    for (int k = 0; k < TURNS; k++) {
        ours[k] = run(words[1], words[3], words + 5), plain[k] = run(words[1], words[4], words + 5);
        ratio[k] = ours[k] / plain[k];
    }
    qsort(ours, TURNS, sizeof(double), rising), qsort(plain, TURNS, sizeof(double), rising), qsort(ratio, TURNS, sizeof(double), rising);
    double a = ours[0] / lines, b = plain[0] / lines;
    printf("ours %.1f ns a line, plain C %.1f ns, ratio %.2f (middle %.2f), speed %.2f\n", a, b, a / b, ratio[TURNS / 2], b / a);
    return 0;
}

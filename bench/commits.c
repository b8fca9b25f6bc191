/* Times commits that are kept on the disk, beside what they must cost on this file system.
 *
 * commits PROGRAM FOLDER SETUP COUNT LINE [LIMIT]
 *
 * PROGRAM serves one session over FOLDER, a folder with a journal. It is given the lines of the file SETUP, the last of which is a
 * commit, and then COUNT times LINE, with the number of the turn for its %d, and `commit`. Each turn is timed from its first byte
 * to the end of `commit complete`. After each commit stands its floor: two pairs of pwrite and fdatasync on a file of the same
 * folder, the first of as many bytes as journal.a grew by, the second of one byte inside the file.
 *
 * It prints, in microseconds: the median of the commits, that of the floors, their ratio, and the medians of the first and of the
 * last tenth of the commits with their ratio.
 *
 * With LIMIT the files of the journal rotate at that many bytes. Then no floor is timed, and it prints the mean of the commits, the
 * longest of them, and how many rotations there were.
 */
#define _GNU_SOURCE
#include <fcntl.h>
#include <signal.h>
#include <stdio.h>
#include <stdlib.h>
#include <string.h>
#include <sys/stat.h>
#include <sys/wait.h>
#include <time.h>
#include <unistd.h>

static int to, from;

static void fail(const char *why) {
    fprintf(stderr, "commits: %s\n", why);
    exit(1);
}

static double now(void) {
    struct timespec t;
    clock_gettime(CLOCK_MONOTONIC, &t);
    return t.tv_sec * 1e6 + t.tv_nsec / 1e3;
}

static void start(const char *program, const char *folder, const char *limit) {
    int in[2], out[2];
    if (pipe(in) || pipe(out)) fail("no pipe");
    pid_t child = fork();
    if (child < 0) fail("no process");
    if (child == 0) {
        dup2(in[0], 0);
        dup2(out[1], 1);
        close(in[1]);
        close(out[0]);
        execl(program, program, "--input", "4294967295", "--journal-limit", limit, "serve", folder, (char *)0);
        _exit(127);
    }
    close(in[0]);
    close(out[1]);
    to = in[1];
    from = out[0];
}

static void say(const char *bytes, size_t length) {
    while (length) {
        ssize_t put = write(to, bytes, length);
        if (put <= 0) fail("the session takes no more lines");
        bytes += put;
        length -= put;
    }
}

/* Reads up to the end of the next line `commit complete`. */
static void await_commit(void) {
    static char line[4096];
    static size_t length;
    char byte;
    for (;;) {
        if (read(from, &byte, 1) != 1) fail("the session ended");
        if (byte != '\n') {
            if (length < sizeof line - 1) line[length++] = byte;
            continue;
        }
        line[length] = 0;
        length = 0;
        if (!strncmp(line, "error", 5)) fail(line);
        if (!strcmp(line, "commit complete")) return;
    }
}

static off_t size_of(const char *folder) {
    char path[4096];
    struct stat s;
    snprintf(path, sizeof path, "%s/journal.a", folder);
    if (stat(path, &s)) fail("there is no journal");
    return s.st_size;
}

/* The greater generation of the two files. */
static unsigned long long generation(const char *folder) {
    unsigned long long greater = 0;
    for (char name = 'a'; name <= 'b'; name++) {
        char path[4096];
        unsigned char head[17];
        snprintf(path, sizeof path, "%s/journal.%c", folder, name);
        FILE *file = fopen(path, "r");
        if (!file || fread(head, 1, sizeof head, file) != sizeof head) fail("there is no journal");
        fclose(file);
        unsigned long long number = 0;
        for (int at = 8; at < 16; at++) number = number << 8 | head[at];
        if (number > greater) greater = number;
    }
    return greater;
}

static int compare(const void *a, const void *b) {
    double x = *(const double *)a, y = *(const double *)b;
    return x < y ? -1 : x > y;
}

static double median(const double *times, int count) {
    double *sorted = malloc(sizeof *sorted * count);
    memcpy(sorted, times, sizeof *sorted * count);
    qsort(sorted, count, sizeof *sorted, compare);
    double middle = sorted[count / 2];
    free(sorted);
    return middle;
}

int main(int argc, char **argv) {
    if (argc != 6 && argc != 7) fail("commits PROGRAM FOLDER SETUP COUNT LINE [LIMIT]");
    const char *folder = argv[2];
    int count = atoi(argv[4]), tenth = count / 10 ? count / 10 : 1;
    double *commits = malloc(sizeof *commits * count), *floors = malloc(sizeof *floors * count);

    start(argv[1], folder, argc == 7 ? argv[6] : "4294967295");
    FILE *setup = fopen(argv[3], "r");
    if (!setup) fail("there is no such setup");
    char buffer[65536];
    size_t got;
    while ((got = fread(buffer, 1, sizeof buffer, setup)) > 0) say(buffer, got);
    await_commit();

    char path[4096];
    snprintf(path, sizeof path, "%s/floor", folder);
    int floor = open(path, O_RDWR | O_CREAT | O_TRUNC, 0600);
    if (floor < 0) fail("no file for the floor");
    char *body = 0, one = 1;
    off_t at = 0, size = size_of(folder);
    for (int turn = 0; turn < count; turn++) {
        int length = snprintf(buffer, sizeof buffer, argv[5], turn);
        length += snprintf(buffer + length, sizeof buffer - length, "\ncommit\n");
        double begun = now();
        say(buffer, length);
        await_commit();
        commits[turn] = now() - begun;
        if (argc == 7) continue;

        off_t grown = size_of(folder), bytes = grown - size;
        size = grown;
        if (bytes <= 0) fail("the journal did not grow");
        body = realloc(body, bytes);
        memset(body, 'x', bytes);
        begun = now();
        if (pwrite(floor, body, bytes, at + 1) != bytes || fdatasync(floor)) fail("the floor failed");
        if (pwrite(floor, &one, 1, at) != 1 || fdatasync(floor)) fail("the floor failed");
        floors[turn] = now() - begun;
        at += bytes;
    }
    say("exit\nexit\n", 10);
    close(to);
    while (read(from, buffer, sizeof buffer) > 0) {}
    int status;
    if (wait(&status) < 0 || status) fail("the session did not end clean");
    unlink(path);

    if (argc == 7) {
        double sum = 0, longest = 0;
        for (int turn = 0; turn < count; turn++) {
            sum += commits[turn];
            if (commits[turn] > longest) longest = commits[turn];
        }
        printf("%.1f %.1f %llu\n", sum / count, longest, generation(folder) - 1);
        return 0;
    }
    double commit = median(commits, count), beside = median(floors, count);
    double early = median(commits, tenth), late = median(commits + count - tenth, tenth);
    printf("%.1f %.1f %.2f %.1f %.1f %.2f\n", commit, beside, commit / beside, early, late, late / early);
    return 0;
}

/* What the program is measured against.
 *
 *   floor gpgv FILE WORK              asks gpgv of each commit of FILE, one after another, with its files in the folder WORK
 *   floor ask DIRECTORY FILE          asks one git for each name in FILE, one after another
 *   floor peak FILE PROGRAM WORD...   runs a program, and writes to FILE its own peak memory in KiB, without that of its children
 *   floor --status-fd WORD...         plays gpgv: says what the variable FLOOR_STATUS says, whatever it is asked
 *
 * In the first two the children get the words, the files and the streams that the program gives them, and nothing else is done.
 */
#define _GNU_SOURCE
#include <errno.h>
#include <fcntl.h>
#include <sched.h>
#include <signal.h>
#include <spawn.h>
#include <stdio.h>
#include <stdlib.h>
#include <string.h>
#include <sys/ptrace.h>
#include <sys/wait.h>
#include <unistd.h>

extern char **environ;

/* The most bytes that are read at once. A status of gpgv is at most so long. */
#define MOST 65536

static void fail(const char *what)
{
    fprintf(stderr, "floor: %s: %s\n", what, errno ? strerror(errno) : "not as expected");
    exit(1);
}

static void require(int holds, const char *what)
{
    if (!holds)
        fail(what);
}

/* A child with these descriptors as its input and output. A negative input is /dev/null, and so are its errors. */
static pid_t start(char **words, int input, int output)
{
    posix_spawn_file_actions_t actions;
    pid_t child;
    posix_spawn_file_actions_init(&actions);
    if (input < 0)
        posix_spawn_file_actions_addopen(&actions, 0, "/dev/null", O_RDONLY, 0);
    else
        posix_spawn_file_actions_adddup2(&actions, input, 0);
    posix_spawn_file_actions_adddup2(&actions, output, 1);
    posix_spawn_file_actions_addopen(&actions, 2, "/dev/null", O_WRONLY, 0);
    errno = posix_spawnp(&child, words[0], &actions, NULL, words, environ);
    require(errno == 0, words[0]);
    posix_spawn_file_actions_destroy(&actions);
    return child;
}

static size_t read_some(int from, char *bytes, size_t most)
{
    ssize_t count;
    do
        count = read(from, bytes, most);
    while (count < 0 && errno == EINTR);
    require(count >= 0, "a pipe");
    return count;
}

static void await(pid_t child, const char *what)
{
    int status;
    require(waitpid(child, &status, 0) == child && status == 0, what);
}

/* Written over and then cut to its length, as the program writes it. */
static void put_file(const char *path, const char *bytes, size_t length)
{
    int file = open(path, O_WRONLY | O_CREAT | O_CLOEXEC, 0666);
    require(file >= 0 && write(file, bytes, length) == (ssize_t)length, path);
    require(ftruncate(file, length) == 0 && close(file) == 0, path);
}

static void ask_gpgv(char *keyring, char *signature, char *payload)
{
    static char status[MOST];
    char *words[] = {"gpgv", "--status-fd", "1", "--keyring", keyring, signature, payload, NULL};
    size_t length = 0, count;
    int ends[2];
    require(pipe2(ends, O_CLOEXEC) == 0, "a pipe");
    pid_t child = start(words, -1, ends[1]);
    close(ends[1]);
    while ((count = read_some(ends[0], status + length, MOST - length)) > 0)
        length += count;
    close(ends[0]);
    await(child, "gpgv");
    require(memmem(status, length, "[GNUPG:] VALIDSIG ", 18) != NULL, "a signature");
}

static char *path_in(const char *folder, const char *name)
{
    char *path;
    require(asprintf(&path, "%s/%s", folder, name) > 0, folder);
    return path;
}

/* In FILE a commit is a line with the lengths of signature and payload, and then both. */
static void ask_for_commits(const char *name, const char *work)
{
    char *keyring = path_in(work, "keyring"), *signature = path_in(work, "signature"), *payload = path_in(work, "payload");
    char *bytes = NULL;
    size_t first, second, room = 0;
    FILE *file = fopen(name, "re");
    require(file != NULL, name);
    while (fscanf(file, "%zu %zu", &first, &second) == 2) {
        if (first + second > room) {
            room = first + second;
            bytes = realloc(bytes, room);
        }
        require(getc(file) == '\n' && bytes && fread(bytes, 1, first + second, file) == first + second, name);
        put_file(signature, bytes, first);
        put_file(payload, bytes + first, second);
        ask_gpgv(keyring, signature, payload);
    }
    require(feof(file), name);
}

/* Reads one answer of git to its end: a line with id, kind and size, the content, and a line feed. */
static void read_answer(int from)
{
    static char bytes[MOST + 1];
    size_t length = 0, count, size;
    char *end = NULL;
    while (end == NULL) {
        require((count = read_some(from, bytes + length, MOST - length)) > 0, "git");
        length += count;
        bytes[length] = 0;
        end = memchr(bytes, '\n', length);
    }
    require(sscanf(bytes, "%*s %*s %zu", &size) == 1, "an answer of git");
    size_t left = end + 1 - bytes + size + 1 - length;
    while (left > 0) {
        require((count = read_some(from, bytes, left < MOST ? left : MOST)) > 0, "git");
        left -= count;
    }
}

static void ask_git(char *directory, const char *name)
{
    char *words[] = {"git", "-C", directory, "--no-replace-objects", "cat-file", "--batch", NULL};
    char *line = NULL;
    size_t room = 0;
    ssize_t length;
    int questions[2], answers[2];
    FILE *file = fopen(name, "re");
    require(file != NULL, name);
    require(pipe2(questions, O_CLOEXEC) == 0 && pipe2(answers, O_CLOEXEC) == 0, "a pipe");
    pid_t child = start(words, questions[0], answers[1]);
    close(questions[0]);
    close(answers[1]);
    while ((length = getline(&line, &room, file)) > 0) {
        require(write(questions[1], line, length) == length, "git");
        read_answer(answers[0]);
    }
    close(questions[1]);
    await(child, "git");
}

/* The peak of a process that is about to end, as its status line tells it. */
static void note_peak(pid_t process, const char *name)
{
    char *path, line[256];
    long peak = -1;
    require(asprintf(&path, "/proc/%d/status", (int)process) > 0, "memory");
    FILE *status = fopen(path, "re");
    require(status != NULL, path);
    while (fgets(line, sizeof line, status))
        if (sscanf(line, "VmHWM: %ld", &peak) == 1)
            break;
    fclose(status);
    require(peak > 0, path);
    FILE *file = fopen(name, "we");
    require(file != NULL && fprintf(file, "%ld\n", peak) > 0 && fclose(file) == 0, name);
}

/* The kernel counts pages on each processor, and adds them up only now and then: on one there is less that is missing. */
static void stay_on_one_processor(void)
{
    cpu_set_t one;
    CPU_ZERO(&one);
    CPU_SET(sched_getcpu(), &one);
    require(sched_setaffinity(0, sizeof one, &one) == 0, "a processor");
}

/* What wait tells of a child counts its children too, and what it was before it became the program. So it is traced up to its end. */
static int run_traced(const char *name, char **words)
{
    int gate[2], status;
    char byte;
    require(pipe2(gate, O_CLOEXEC) == 0, "a pipe");
    pid_t child = fork();
    require(child >= 0, "fork");
    if (child == 0) {
        close(gate[1]);
        stay_on_one_processor();
        read_some(gate[0], &byte, 1);
        execvp(words[0], words);
        _exit(127);
    }
    if (ptrace(PTRACE_SEIZE, child, NULL, PTRACE_O_TRACEEXIT | PTRACE_O_EXITKILL) != 0) {
        kill(child, SIGKILL);
        fail("ptrace");
    }
    close(gate[1]);
    for (;;) {
        require(waitpid(child, &status, __WALL) == child, "wait");
        if (!WIFSTOPPED(status))
            return WIFEXITED(status) ? WEXITSTATUS(status) : 128 + WTERMSIG(status);
        int event = status >> 16;
        if (event == PTRACE_EVENT_EXIT)
            note_peak(child, name);
        /* A signal that stopped it is passed on, an event is none. */
        ptrace(PTRACE_CONT, child, NULL, event ? 0 : WSTOPSIG(status));
    }
}

int main(int count, char **words)
{
    setenv("LC_ALL", "C", 1);
    setenv("GIT_NO_LAZY_FETCH", "1", 1);
    errno = 0;
    if (count == 4 && strcmp(words[1], "gpgv") == 0)
        ask_for_commits(words[2], words[3]);
    else if (count == 4 && strcmp(words[1], "ask") == 0)
        ask_git(words[2], words[3]);
    else if (count >= 4 && strcmp(words[1], "peak") == 0)
        return run_traced(words[2], words + 3);
    else if (count > 1 && strcmp(words[1], "--status-fd") == 0 && getenv("FLOOR_STATUS"))
        fputs(getenv("FLOOR_STATUS"), stdout);
    else
        fail("the words");
    return 0;
}

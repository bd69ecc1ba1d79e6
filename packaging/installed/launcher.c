/* The installed command `tiling`; packaging/install.sh compiles it and gives it the paths.
 *
 *   tiling, tiling --help, -h, help      prints the help
 *   tiling --version                     prints what is installed
 *   tiling board|poster|explore|atlas|rules  runs the command of the Python package
 *   tiling WORDS                         is the proved program itself: it takes the place of this one, with the
 *                                        same words, streams and exit status
 *
 * It is linked without the dynamic loader if that is possible, so that a call of the program hardly costs more.
 * 125 says that nothing was run. */
#include <errno.h>
#include <fcntl.h>
#include <signal.h>
#include <stdio.h>
#include <stdlib.h>
#include <string.h>
#include <sys/wait.h>
#include <unistd.h>

static int cannot(const char *what) {
    dprintf(2, "tiling: %s: %s\n", what, strerror(errno));
    return 125;
}

/* Copies a file to standard output. */
static int show(const char *path) {
    char piece[4096];
    ssize_t size;
    int file = open(path, O_RDONLY);
    if (file < 0) return cannot(path);
    while ((size = read(file, piece, sizeof piece)) > 0)
        for (char *at = piece; size > 0;) {
            ssize_t done = write(1, at, (size_t)size);
            if (done < 0) return cannot("standard output");
            at += done, size -= done;
        }
    return size < 0 ? cannot(path) : 0;
}

/* The Python package runs with the installed program, unless the environment names others. */
static int run_python(int count, char **words) {
    const char *kept = getenv("PYTHONPATH");
    size_t room = strlen(PACKAGES) + (kept ? strlen(kept) : 0) + 2;
    char *path = malloc(room), **all = calloc((size_t)count + 3, sizeof *all);
    if (!path || !all) return cannot("memory");
    snprintf(path, room, kept && *kept ? "%s:%s" : "%s", PACKAGES, kept);
    if (setenv("PYTHONPATH", path, 1) || setenv("TILING_PROGRAM", PROGRAM, 0) || setenv("TILING_COMMAND", "tiling", 1))
        return cannot("memory");
    all[0] = PYTHON, all[1] = "-m", all[2] = "pagnetuf";
    memcpy(all + 3, words + 1, (size_t)(count - 1) * sizeof *all);
    execvp(all[0], all);
    return cannot(PYTHON ", which this command needs");
}

static int run_program(char **words) {
    execv(PROGRAM, words);
    return cannot(PROGRAM);
}

/* Says what to do about a refusal, as ./tiling does. */
static int say_cure(int status, int count, char **words) {
    char number[4], **all = calloc((size_t)count + 3, sizeof *all);
    if (!all) return status;
    snprintf(number, sizeof number, "%d", status);
    all[0] = "sh", all[1] = SHARE "/tools/cures.sh", all[2] = number;
    memcpy(all + 3, words + 1, (size_t)(count - 1) * sizeof *all);
    if (!fork()) execv("/bin/sh", all), _exit(0);
    wait(NULL);
    return status;
}

/* Runs the program for a person at a terminal, and says what to do about a refusal. */
static int run_for_a_person(int count, char **words) {
    int status;
    pid_t child = fork();
    if (child < 0) return run_program(words);
    if (!child) _exit(run_program(words));
    signal(SIGINT, SIG_IGN), signal(SIGQUIT, SIG_IGN);
    if (waitpid(child, &status, 0) < 0) return cannot(PROGRAM);
    signal(SIGINT, SIG_DFL), signal(SIGQUIT, SIG_DFL);
    if (WIFSIGNALED(status)) return raise(WTERMSIG(status)), 128 + WTERMSIG(status);
    status = WEXITSTATUS(status);
    return status > 1 && status < 18 ? say_cure(status, count, words) : status;
}

static int is_one_of(const char *word, const char *const *words) {
    while (*words && strcmp(word, *words)) words++;
    return *words != NULL;
}

int main(int count, char **words) {
    static const char *const help[] = {"--help", "-h", "help", NULL};
    static const char *const commands[] = {"board", "poster", "explore", "atlas", "rules", NULL};
    if (count < 2 || (count == 2 && is_one_of(words[1], help))) return show(SHARE "/HELP.txt");
    if (count == 2 && !strcmp(words[1], "--version")) return show(SHARE "/VERSION");
    if (is_one_of(words[1], commands)) return run_python(count, words);
    words[0] = "tiling"; /* (the program's own name is a word that has to be UTF-8) */
    return isatty(2) ? run_for_a_person(count, words) : run_program(words);
}

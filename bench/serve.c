/* Makes the program that it is preloaded into serve runs of itself: for each request on descriptor 0 a fork of the fresh process runs
   the program with the request's words and environment, over a text as standard input and within limits, and the answer goes to
   descriptor 1. A request is six numbers (how many words and variables, the bytes of both and of the text, and seconds of a processor),
   the words and the variables with a NUL behind each, and the text. An answer is five numbers (how the run ended as waitpid tells it,
   the bytes of standard output and of standard error, microseconds of a processor, and the most kilobytes), and both outputs. Numbers
   have 32 bits. SERVE_SPACE is the most bytes of memory that a run may map. */
#define _GNU_SOURCE
#include <dlfcn.h>
#include <stdint.h>
#include <stdlib.h>
#include <string.h>
#include <sys/mman.h>
#include <sys/resource.h>
#include <sys/wait.h>
#include <unistd.h>

#define MOST_WORDS 4096
#define MOST_BYTES (4 << 20)
#define STACK (8 << 20)
/* The longest that a run may take by the clock, in seconds, which is long on a machine on which other work runs. */
#define PATIENCE 3600

struct request {
    uint32_t words, variables, words_size, variables_size, text_size, seconds;
};

struct answer {
    uint32_t status, output_size, said_size, microseconds, kilobytes;
};

typedef int start_type(int (*)(int, char **, char **), int, char **, void (*)(void), void (*)(void), void (*)(void), void *);

static char bytes[MOST_BYTES];
/* The words and the environment of a run, as the C library wants them: a NULL behind the words, and one behind the variables. */
static char *own[MOST_WORDS + 2];

static int reads_all(int from, void *to, size_t size) {
    for (size_t done = 0; done < size;) {
        ssize_t more = read(from, (char *)to + done, size - done);
        if (more <= 0) return 0;
        done += more;
    }
    return 1;
}

static void write_all(int to, const void *from, size_t size) {
    for (size_t done = 0; done < size;) {
        ssize_t more = write(to, (const char *)from + done, size - done);
        if (more <= 0) _exit(70);
        done += more;
    }
}

static void limit(int what, rlim_t soft, rlim_t hard) {
    struct rlimit both = {soft, hard};
    if (setrlimit(what, &both)) _exit(70);
}

/* Copies so many bytes of a file to descriptor 1. */
static void send_file(int file, uint32_t size) {
    lseek(file, 0, SEEK_SET);
    while (size) {
        ssize_t more = read(file, bytes, size < sizeof bytes ? size : sizeof bytes);
        if (more <= 0) _exit(70);
        write_all(1, bytes, more);
        size -= more;
    }
}

static uint32_t microseconds(struct timeval time) { return time.tv_sec * 1000000 + time.tv_usec; }

static void tell(pid_t child, const int files[3]) {
    struct rusage used;
    int status;
    if (wait4(child, &status, 0, &used) != child) _exit(70);
    struct answer told = {status, lseek(files[1], 0, SEEK_END), lseek(files[2], 0, SEEK_END),
                          microseconds(used.ru_utime) + microseconds(used.ru_stime), used.ru_maxrss};
    write_all(1, &told, sizeof told);
    send_file(files[1], told.output_size);
    send_file(files[2], told.said_size);
}

/* Makes this process one run. */
static void become(const struct request *asked, const int files[3]) {
    void (*anew)(void) = (void (*)(void))dlsym(RTLD_DEFAULT, "refuse_anew");
    const char *space = getenv("SERVE_SPACE");
    char *next = bytes, **to = own;
    for (uint32_t left = asked->words + asked->variables; left > 0; left--) {
        if (left == asked->variables) *to++ = NULL;
        *to++ = next;
        next += strlen(next) + 1;
    }
    if (asked->variables == 0) *to++ = NULL;
    *to = NULL;
    environ = own + asked->words + 1;
    for (int i = 0; i < 3; i++) dup2(files[i], i);
    limit(RLIMIT_CPU, asked->seconds, asked->seconds + 5);
    limit(RLIMIT_STACK, STACK, STACK);
    limit(RLIMIT_CORE, 0, 0);
    limit(RLIMIT_AS, strtoul(space, NULL, 10), strtoul(space, NULL, 10));
    alarm(PATIENCE);
    if (anew) anew();
}

/* Serves. Returns in each run, with the number of its words. */
static int serve(void) {
    int files[3];
    struct request asked;
    for (int i = 0; i < 3; i++)
        if ((files[i] = memfd_create("serve", MFD_CLOEXEC)) < 0) _exit(70);
    while (reads_all(0, &asked, sizeof asked)) {
        size_t all = (size_t)asked.words_size + asked.variables_size;
        if ((size_t)asked.words + asked.variables >= MOST_WORDS || all + asked.text_size > MOST_BYTES) _exit(71);
        if (!reads_all(0, bytes, all + asked.text_size)) _exit(71);
        for (int i = 0; i < 3; i++)
            if (ftruncate(files[i], 0) || lseek(files[i], 0, SEEK_SET)) _exit(70);
        write_all(files[0], bytes + all, asked.text_size);
        lseek(files[0], 0, SEEK_SET);
        pid_t child = fork();
        if (child < 0) _exit(73);
        if (child == 0) {
            become(&asked, files);
            return asked.words;
        }
        tell(child, files);
    }
    _exit(0);
}

int __libc_start_main(int (*run)(int, char **, char **), int number, char **words, void (*first)(void), void (*last)(void),
                      void (*loader)(void), void *end) {
    start_type *start = (start_type *)dlsym(RTLD_NEXT, "__libc_start_main");
    if (!getenv("SERVE_SPACE")) return start(run, number, words, first, last, loader, end);
    number = serve();
    return start(run, number, own, first, last, loader, end);
}

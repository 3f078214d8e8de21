/* A library to be loaded before a program (LD_PRELOAD): it calls the program's main once for each case that it is given, in one
   process, so that a case costs no start of a program.

   A case comes on the descriptor CASES_IN: how many bytes follow, then a folder, the number of a request for memory, `at` or `from`,
   and the words after the program's name, each with a byte 0 at its end. The program runs in that folder. Where refuse.c is
   loaded too, that request is refused, or that one and all after it; 0 is none. What ends a case goes to the descriptor CASES_OUT:
   struct ended, then what the program wrote to the standard output and to the standard error. A signal ends the cases, and so does
   a case of more than CASES_SECONDS, by SIGALRM. Without CASES_IN the program is as it is. */
#define _GNU_SOURCE
#include <dlfcn.h>
#include <fcntl.h>
#include <link.h>
#include <poll.h>
#include <setjmp.h>
#include <stdint.h>
#include <stdlib.h>
#include <string.h>
#include <sys/mman.h>
#include <sys/resource.h>
#include <sys/syscall.h>
#include <unistd.h>

#define MOST_WORDS 64
#define MOST_BYTES (1 << 16)
#define MOST_PRINTED (1 << 20)

typedef int main_function(int, char **, char **);

struct ended {
    uint32_t status, microseconds, kilobytes, refused, out_bytes, err_bytes;
};

/* They are in refuse.c. */
__attribute__((weak)) void refuse_requests(unsigned long at, unsigned long from);
__attribute__((weak)) unsigned long refused_requests(void);

static main_function *program;
static int cases_in, cases_out, memory_told, memory_reset;
/* Where a program goes on that ends by _exit, its status, and whether it runs. */
static jmp_buf after_program;
static int exit_status, is_running;

void _exit(int status) {
    if (is_running) {
        exit_status = status & 255;
        longjmp(after_program, 1);
    }
    for (;;) syscall(SYS_exit_group, status);
}

static int number_in(const char *name) {
    const char *text = getenv(name);
    return text ? atoi(text) : 0;
}

/* Calls what the program does before its main, which keeps the words of its line. */
static int begin_program(struct dl_phdr_info *info, size_t size, void *words) {
    (void)size;
    ElfW(Addr) functions = 0;
    size_t bytes = 0;
    int count = 0;
    char **argv = words;
    while (argv[count]) count++;
    for (int i = 0; i < info->dlpi_phnum; i++) {
        if (info->dlpi_phdr[i].p_type != PT_DYNAMIC) continue;
        for (ElfW(Dyn) *entry = (ElfW(Dyn) *)(info->dlpi_addr + info->dlpi_phdr[i].p_vaddr); entry->d_tag != DT_NULL; entry++) {
            if (entry->d_tag == DT_INIT_ARRAY) functions = entry->d_un.d_ptr;
            if (entry->d_tag == DT_INIT_ARRAYSZ) bytes = entry->d_un.d_val;
        }
    }
    for (size_t i = 0; functions && i < bytes / sizeof(ElfW(Addr)); i++)
        ((void (*)(int, char **, char **))((ElfW(Addr) *)(info->dlpi_addr + functions))[i])(count, argv, environ);
    return 1; /* the program itself comes first, and is the only one */
}

static int read_all(void *into, size_t bytes) {
    for (char *at = into; bytes;) {
        ssize_t got = read(cases_in, at, bytes);
        if (got <= 0) return 0;
        at += got;
        bytes -= got;
    }
    return 1;
}

/* What is told waits here until there is no further case, so that nobody is woken for each. */
static char told[1 << 19];
static size_t told_bytes;

static void flush(void) {
    for (size_t at = 0; at < told_bytes;) {
        ssize_t put = write(cases_out, told + at, told_bytes - at);
        if (put <= 0) _exit(9);
        at += put;
    }
    told_bytes = 0;
}

static void tell(const void *from, size_t bytes) {
    for (const char *at = from; bytes;) {
        size_t part = bytes < sizeof told - told_bytes ? bytes : sizeof told - told_bytes;
        memcpy(told + told_bytes, at, part);
        told_bytes += part;
        at += part;
        bytes -= part;
        if (told_bytes == sizeof told) flush();
    }
}

static int is_case_waiting(void) {
    struct pollfd waits = {cases_in, POLLIN, 0};
    return poll(&waits, 1, 0) == 1;
}

static uint64_t microseconds(void) {
    struct rusage usage;
    getrusage(RUSAGE_SELF, &usage);
    return (usage.ru_utime.tv_sec + usage.ru_stime.tv_sec) * 1000000ull + usage.ru_utime.tv_usec + usage.ru_stime.tv_usec;
}

/* From now on the most memory counts anew. */
static void forget_memory(void) {
    if (pwrite(memory_reset, "5", 1, 0) != 1) _exit(9);
}

static uint32_t most_kilobytes(void) {
    static char text[4096];
    ssize_t bytes = pread(memory_told, text, sizeof text - 1, 0);
    text[bytes > 0 ? bytes : 0] = 0;
    const char *line = strstr(text, "VmHWM:");
    return line ? strtoul(line + strlen("VmHWM:"), NULL, 10) : 0;
}

static void empty(int output) {
    if (ftruncate(output, 0) || lseek(output, 0, SEEK_SET)) _exit(9);
}

static char printed[MOST_PRINTED];

static uint32_t size_of(int output) {
    off_t size = lseek(output, 0, SEEK_END);
    return size < MOST_PRINTED ? size : MOST_PRINTED;
}

static void send_printed(int output, uint32_t bytes) {
    if (pread(output, printed, bytes, 0) != (ssize_t)bytes) _exit(9);
    tell(printed, bytes);
}

/* Calls the program's main, and keeps its status. */
static void run_program(int count, char **words) {
    is_running = 1;
    if (!setjmp(after_program)) exit_status = program(count, words, environ);
    is_running = 0;
}

/* Runs one case, and tells what ended it. */
static void run_case(char *name, char *text, size_t bytes) {
    char *words[MOST_WORDS + 1] = {0};
    int count = 0;
    for (char *at = text; at < text + bytes && count < MOST_WORDS; at += strlen(at) + 1) words[count++] = at;
    if (count < 3 || chdir(words[0])) _exit(9);
    unsigned long number = strtoul(words[1], NULL, 10);
    int is_from = !strcmp(words[2], "from");
    char **argv = words + 2;
    argv[0] = name;
    empty(1);
    empty(2);
    forget_memory();
    uint64_t start = microseconds();
    alarm(number_in("CASES_SECONDS"));
    if (refuse_requests) refuse_requests(is_from ? 0 : number, is_from ? number : 0);
    dl_iterate_phdr(begin_program, argv);
    run_program(count - 2, argv);
    uint32_t refused = refused_requests ? refused_requests() : 0;
    alarm(0);
    uint64_t end = microseconds();
    struct ended ended = {(uint32_t)exit_status, (uint32_t)(end - start), most_kilobytes(), refused, size_of(1), size_of(2)};
    tell(&ended, sizeof ended);
    send_printed(1, ended.out_bytes);
    send_printed(2, ended.err_bytes);
    if (!is_case_waiting()) flush();
}

static int run_cases(int argc, char **argv, char **envp) {
    (void)argc, (void)envp;
    static char text[MOST_BYTES];
    uint32_t bytes;
    cases_in = number_in("CASES_IN");
    cases_out = number_in("CASES_OUT");
    memory_told = open("/proc/self/status", O_RDONLY | O_CLOEXEC);
    memory_reset = open("/proc/self/clear_refs", O_WRONLY | O_CLOEXEC);
    if (dup2(memfd_create("out", MFD_CLOEXEC), 1) < 0 || dup2(memfd_create("err", MFD_CLOEXEC), 2) < 0) _exit(9);
    while (read_all(&bytes, sizeof bytes) && bytes < MOST_BYTES && read_all(text, bytes)) run_case(argv[0], text, bytes);
    _exit(0);
}

/* The C library begins a program by this function, which is given the program's main. */
int __libc_start_main(main_function *main, int argc, char **argv, void (*init)(void), void (*fini)(void), void (*end)(void), void *stack) {
    int (*real)(main_function *, int, char **, void (*)(void), void (*)(void), void (*)(void), void *) = dlsym(RTLD_NEXT, "__libc_start_main");
    program = main;
    return real(getenv("CASES_IN") ? run_cases : main, argc, argv, init, fini, end, stack);
}

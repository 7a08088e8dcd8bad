/* The library's blocks as counters of libFuzzer. It is compiled without any, so a breakpoint stands at the start of each block of
 * parse, and is taken away when it is met first. The addresses are in the file whose name is the program's and ".blocks". */
#define _GNU_SOURCE
#include <signal.h>
#include <stdint.h>
#include <stdio.h>
#include <stdlib.h>
#include <sys/mman.h>
#include <ucontext.h>

enum { MOST = 1 << 13, PAGE = 4096, BREAKPOINT = 0xCC };

__attribute__((used, section("__libfuzzer_extra_counters"))) static uint8_t met[MOST];
static uintptr_t blocks[MOST]; /* ascending */
static uint8_t bytes[MOST];
static size_t count, ever;

static void fail(const char *what)
{
    perror(what);
    exit(2);
}

static int order(const void *one, const void *other)
{
    uintptr_t a = *(const uintptr_t *)one, b = *(const uintptr_t *)other;
    return (a > b) - (a < b);
}

static void on_breakpoint(int number, siginfo_t *info, void *context)
{
    (void)number, (void)info;
    greg_t *next = &((ucontext_t *)context)->uc_mcontext.gregs[REG_RIP];
    uintptr_t at = (uintptr_t)*next - 1;
    uintptr_t *block = bsearch(&at, blocks, count, sizeof at, order);
    if (!block) abort();
    *(volatile uint8_t *)at = bytes[block - blocks];
    met[block - blocks] = 1;
    ever++;
    *next = (greg_t)at;
}

static void tell(void)
{
    fprintf(stderr, "blocks of parse in the library: %zu of %zu met\n", ever, count);
    for (size_t k = 0; k < count; k++)
        if (*(volatile uint8_t *)blocks[k] == BREAKPOINT) fprintf(stderr, "not met: %#zx\n", blocks[k]);
}

int LLVMFuzzerInitialize(int *argc, char ***argv)
{
    char name[PAGE];
    (void)argc;
    snprintf(name, sizeof name, "%s.blocks", (*argv)[0]);
    FILE *file = fopen(name, "r");
    if (!file) fail(name);
    while (count < MOST && fscanf(file, "%zx", &blocks[count]) == 1) count++;
    fclose(file);
    struct sigaction action = {.sa_sigaction = on_breakpoint, .sa_flags = SA_SIGINFO};
    if (sigaction(SIGTRAP, &action, NULL)) fail("sigaction");
    for (size_t k = 0; k < count; k++) {
        void *page = (void *)(blocks[k] / PAGE * PAGE);
        if (mprotect(page, PAGE, PROT_READ | PROT_WRITE | PROT_EXEC)) fail("mprotect");
        bytes[k] = *(uint8_t *)blocks[k];
        *(volatile uint8_t *)blocks[k] = BREAKPOINT;
    }
    atexit(tell);
    return 0;
}

/* Runs machine code of aarch64 with any registers and memory, for tests/emulator.py. The handler of a first signal puts
 * the registers in place. The code ends by `brk` or by a fault, which is a second signal, and its handler saves the
 * registers.
 *
 * Usage: registers. Standard input has commands of three numbers: a kind, an address and a size. MAP makes memory of
 * zeros there, WRITE writes the bytes that follow, and READ prints bytes. RUN takes the state that follows, runs the
 * code at its pc for at most so many seconds, and prints the state afterwards. */
#include <setjmp.h>
#include <signal.h>
#include <stdint.h>
#include <stdio.h>
#include <stdlib.h>
#include <string.h>
#include <sys/mman.h>
#include <ucontext.h>
#include <unistd.h>

enum { MAP, WRITE, READ, RUN };

/* A vector is two numbers, the lower one first. The flags N, Z, C and V are the bits 31 to 28. The signal is the one
 * that ended the run. */
struct state {
    uint64_t x[31], sp, pc, flags;
    uint64_t v[64];
    uint64_t signal;
};

static struct state state;
static volatile sig_atomic_t is_running;
static sigjmp_buf after;

static struct fpsimd_context *vectors_of(mcontext_t *it) {
    struct _aarch64_ctx *head = (struct _aarch64_ctx *)it->__reserved;
    while (head->magic != FPSIMD_MAGIC) head = (struct _aarch64_ctx *)((char *)head + head->size);
    return (struct fpsimd_context *)head;
}

static void handles(int number, siginfo_t *info, void *context) {
    mcontext_t *it = &((ucontext_t *)context)->uc_mcontext;
    struct fpsimd_context *vectors = vectors_of(it);
    (void)info;
    if (!is_running) {
        is_running = 1;
        memcpy(it->regs, state.x, sizeof state.x);
        memcpy(vectors->vregs, state.v, sizeof state.v);
        it->sp = state.sp;
        it->pc = state.pc;
        it->pstate = state.flags;
        return;
    }
    memcpy(state.x, it->regs, sizeof state.x);
    memcpy(state.v, vectors->vregs, sizeof state.v);
    state.sp = it->sp;
    state.pc = it->pc;
    state.flags = it->pstate & 0xf0000000u;
    state.signal = (uint64_t)number;
    is_running = 0;
    siglongjmp(after, 1);
}

static void gets_signals(void) {
    static const int numbers[] = { SIGUSR1, SIGTRAP, SIGSEGV, SIGBUS, SIGILL, SIGALRM };
    static char stack[1 << 16];
    stack_t other = { .ss_sp = stack, .ss_size = sizeof stack };
    struct sigaction action = { .sa_sigaction = handles, .sa_flags = SA_SIGINFO | SA_ONSTACK };
    sigaltstack(&other, NULL);
    for (size_t at = 0; at < sizeof numbers / sizeof *numbers; at++) sigaction(numbers[at], &action, NULL);
}

static void takes(void *to, size_t size) {
    if (fread(to, 1, size, stdin) != size) exit(0);
}

static void prints(const void *from, size_t size) {
    if (fwrite(from, 1, size, stdout) != size || fflush(stdout) != 0) exit(2);
}

static void maps(void *at, size_t size) {
    int kind = MAP_PRIVATE | MAP_ANONYMOUS | MAP_NORESERVE | MAP_FIXED;
    if (mmap(at, size, PROT_READ | PROT_WRITE | PROT_EXEC, kind, -1, 0) != at) exit(2);
}

static void runs(unsigned seconds) {
    takes(&state, sizeof state);
    if (sigsetjmp(after, 1) == 0) {
        alarm(seconds);
        raise(SIGUSR1);
    }
    alarm(0);
    prints(&state, sizeof state);
}

int main(void) {
    struct {
        uint64_t command, at, size;
    } it;
    gets_signals();
    for (;;) {
        takes(&it, sizeof it);
        void *at = (void *)(uintptr_t)it.at;
        if (it.command == MAP) maps(at, it.size);
        else if (it.command == WRITE) takes(at, it.size);
        else if (it.command == READ) prints(at, it.size);
        else runs((unsigned)it.size);
    }
}

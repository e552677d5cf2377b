/* Runs one instruction on the processor, for test_decoder.py: from a state of registers, vectors, flags and memory to
   the state after it. It is a shared library. The code and the memory stand at addresses that the test chooses, so that
   the instruction computes the same addresses as in the model. */
#define _GNU_SOURCE
#include <setjmp.h>
#include <signal.h>
#include <stdint.h>
#include <string.h>
#include <sys/mman.h>

/* The registers are in the order of their numbers. Number 4 is the stack pointer. */
struct state {
    uint64_t registers[16], flags, unused[7];
    unsigned char vectors[16][64];
} __attribute__((aligned(64)));

struct state now;
void *target;
uint64_t own_stack;
static sigjmp_buf before;
static volatile sig_atomic_t caught;
static char signal_stack[1 << 16];

void enter_narrow(void);
void enter_wide(void);
extern char leave_narrow[], leave_wide[];

#define EACH_REGISTER \
    ".irp it, rax,rcx,rdx,rbx,rsp,rbp,rsi,rdi,r8,r9,r10,r11,r12,r13,r14,r15\n"
#define EACH_VECTOR ".irp it, 0,1,2,3,4,5,6,7,8,9,10,11,12,13,14,15\n"

/* Loads all registers, jumps to the code, and stores them again. No register is free in between, and the stack pointer
   may be anywhere. The offset counts the registers. */
#define PROGRAM(kind, move, register) \
    ".text; .globl enter_" kind ", leave_" kind "\n" \
    "enter_" kind ": push %rbx; push %rbp; push %r12; push %r13; push %r14; push %r15; mov %rsp, own_stack(%rip)\n" \
    EACH_VECTOR move " now + 192 + 64 * \\it(%rip), %" register "\\it\n .endr\n" \
    "push now + 128(%rip); popf; .set offset, 0\n" \
    EACH_REGISTER "mov now + offset(%rip), %\\it; .set offset, offset + 8\n .endr\n" \
    "jmp *target(%rip); leave_" kind ": .set offset, 0\n" \
    EACH_REGISTER "mov %\\it, now + offset(%rip); .set offset, offset + 8\n .endr\n" \
    "mov own_stack(%rip), %rsp; pushf; pop now + 128(%rip); cld\n" \
    EACH_VECTOR move " %" register "\\it, now + 192 + 64 * \\it(%rip)\n .endr\n" \
    "vzeroupper; emms; pop %r15; pop %r14; pop %r13; pop %r12; pop %rbp; pop %rbx; ret\n"

__asm__(PROGRAM("narrow", "vmovdqu", "ymm"));
__asm__(PROGRAM("wide", "vmovdqu64", "zmm"));

static void on_signal(int number) {
    caught = number;
    siglongjmp(before, 1);
}

/* Maps so many bytes at an address, and returns it. */
void *map(uint64_t at, uint64_t size) {
    int how = MAP_PRIVATE | MAP_ANONYMOUS | MAP_FIXED_NOREPLACE;
    return mmap((void *) at, size, PROT_READ | PROT_WRITE | PROT_EXEC, how, -1, 0);
}

/* Signals that an instruction may cause are caught, on a stack of their own. */
void prepare(void) {
    const int signals[] = {SIGILL, SIGSEGV, SIGBUS, SIGFPE, SIGTRAP};
    sigaltstack(&(stack_t) {.ss_sp = signal_stack, .ss_size = sizeof signal_stack}, 0);
    for (unsigned at = 0; at < sizeof signals / sizeof *signals; ++at)
        sigaction(signals[at], &(struct sigaction) {.sa_handler = on_signal, .sa_flags = SA_ONSTACK | SA_NODEFER}, 0);
}

/* Runs the instruction of so many bytes at an address, and returns the signal that it caused, or 0. After it there is a
   jump back for a while. */
int run(unsigned char *code, int size, struct state *state, int is_wide) {
    unsigned char kept[14], jump[14] = {0xff, 0x25};
    uint64_t leave = (uint64_t) (is_wide ? leave_wide : leave_narrow);
    memcpy(jump + 6, &leave, 8);
    memcpy(kept, code + size, 14);
    memcpy(code + size, jump, 14);
    now = *state, target = code, caught = 0;
    if (!sigsetjmp(before, 1)) (is_wide ? enter_wide : enter_narrow)();
    memcpy(code + size, kept, 14);
    *state = now;
    return caught;
}

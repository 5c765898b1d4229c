#define _GNU_SOURCE
#include "stepping.h"

#include "hop.h"

#include <signal.h>
#include <stdio.h>
#include <stdlib.h>
#include <string.h>
#include <sys/mman.h>
#include <ucontext.h>
#include <unistd.h>

#define GENERAL 128
#define XMM     256
#define STACK   12288
#define BUFFERS 2304
#define STATE   (GENERAL + XMM + STACK + BUFFERS)
#define TRAP    0x100
#define NONE    UINT32_MAX
#define PAGE    4096
#define ROOM    (32 * PAGE)

struct lane *lanes;
size_t lane_count, step_count;
uintptr_t step_at[MAX_STEPS];

/* The lanes of a step, as a list. */
static uint32_t first_lane[MAX_STEPS];

static struct { uint8_t *at; size_t len; } watched;

/* What the machine held after the step before, and after this one. */
static uint64_t last[STATE / 8], now[STATE / 8];
static uint8_t *stack_end;
static uintptr_t next_at;
static size_t step, run;
static int differs;

/* Whether instructions are looked at now. */
static volatile sig_atomic_t stepping;

/* The room of tapes, whose second half starts with the window's word, and what is open of it. */
static uint8_t *room;
static uint32_t *tape;
static size_t window_start, window_end;
static int closed, close_again;

/* The way over three S-boxes: the step before which it starts, the instruction that begins each, and how many are still to begin. */
static size_t hop_step;
static uintptr_t hop_head;
static int scouting, hop_left, hop_planted;

/* Says what is wrong, by the one call that a handler may make, and ends. */
static void give_up(const char *why)
{
	if (write(2, why, strlen(why)) < 0)
		_exit(3);
	_exit(2);
}

static void protect(int closing)
{
	if (mprotect(room + ROOM / 2, ROOM / 2, closing ? PROT_NONE : PROT_READ | PROT_WRITE) != 0)
		give_up("stepping: mprotect failed\n");
	closed = closing;
}

static void *pages(size_t len)
{
	void *at = mmap(NULL, len, PROT_READ | PROT_WRITE, MAP_PRIVATE | MAP_ANONYMOUS | MAP_NORESERVE, -1, 0);

	if (at == MAP_FAILED) {
		perror("mmap");
		exit(2);
	}
	return at;
}

uint32_t *steps_new(size_t tape_len, size_t start, size_t end)
{
	if (lanes == NULL) {
		lanes = pages(MAX_LANES * sizeof *lanes);
		room = pages(ROOM);
	}
	lane_count = step_count = run = watched.len = 0;
	window_start = start;
	window_end = end;
	size_t before = start != AT_CALL ? start : end != AT_RETURN ? end : 0, half = ROOM / 2 / sizeof *tape;
	if (before > half || tape_len - before > half) {
		fputs("stepping: the tape is too long\n", stderr);
		exit(2);
	}
	return tape = (uint32_t *)(room + ROOM / 2) - before;
}

void steps_watch(void *at, size_t len)
{
	if (len > BUFFERS) {
		fputs("stepping: the output is too long\n", stderr);
		exit(2);
	}
	watched.at = at;
	watched.len = len;
}

static void take_state(const ucontext_t *c)
{
	static const int registers[16] = { REG_RAX, REG_RCX, REG_RDX, REG_RBX, REG_RSP, REG_RBP, REG_RSI, REG_RDI,
		REG_R8, REG_R9, REG_R10, REG_R11, REG_R12, REG_R13, REG_R14, REG_R15 };
	uint8_t *to = (uint8_t *)now;

	if ((uint8_t *)c->uc_mcontext.gregs[REG_RSP] < stack_end - STACK + 128)
		give_up("stepping: the stack is too deep\n");
	for (int k = 0; k < 16; k++)
		now[k] = (uint64_t)c->uc_mcontext.gregs[registers[k]];
	memcpy(to + GENERAL, c->uc_mcontext.fpregs->_xmm, XMM);
	memcpy(to + GENERAL + XMM, stack_end - STACK, STACK);
	memcpy(to + GENERAL + XMM + STACK, watched.at, watched.len);
}

/* The state before the window's first instruction. */
static void begin(const ucontext_t *c)
{
	take_state(c);
	memcpy(last, now, sizeof last);
	next_at = (uintptr_t)c->uc_mcontext.gregs[REG_RIP];
	stepping = 1;
}

/* Byte `where` was changed by the step: it is one of its lanes. */
static void found(uint16_t where)
{
	for (uint32_t l = first_lane[step]; l != NONE; l = lanes[l].next)
		if (lanes[l].where == where)
			return;
	if (lane_count == MAX_LANES)
		give_up("stepping: too many bytes\n");
	struct lane *l = &lanes[lane_count];
	l->step = (uint32_t)step;
	l->where = where;
	l->first = (uint16_t)run;
	l->next = first_lane[step];
	first_lane[step] = (uint32_t)lane_count++;
}

/* The instruction at next_at has been carried out. */
static void note_step(void)
{
	const uint8_t *bytes = (const uint8_t *)now;

	if (run == 0 || scouting) {
		if (step == MAX_STEPS)
			give_up("stepping: too many instructions\n");
		step_at[step] = next_at;
		first_lane[step] = NONE;
	} else if (step >= step_count || step_at[step] != next_at) {
		differs = 1;
		return;
	}
	for (size_t k = 0; k < STATE / 8 && !scouting; k++)
		if (now[k] != last[k])
			for (size_t b = 8 * k; b < 8 * k + 8; b++)
				if (bytes[b] != ((uint8_t *)last)[b])
					found((uint16_t)b);
	for (uint32_t l = first_lane[step]; l != NONE; l = lanes[l].next)
		lanes[l].value[run] = bytes[lanes[l].where];
	step++;
}

/* Lets the processor run to the next S-box. */
static void run_on(ucontext_t *c)
{
	hop_plant(hop_head);
	hop_planted = 1;
	c->uc_mcontext.gregs[REG_EFL] &= ~TRAP;
}

/* An S-box is about to begin, or its first instruction has been carried out. The last is looked at again. */
static void on_hop(ucontext_t *c)
{
	if (!hop_planted) {
		run_on(c);
		return;
	}
	hop_clear();
	hop_planted = 0;
	c->uc_mcontext.gregs[REG_RIP] = (greg_t)hop_head;
	c->uc_mcontext.gregs[REG_EFL] |= TRAP;
	if (--hop_left == 0)
		begin(c);
}

static void on_trap(int number, siginfo_t *info, void *context)
{
	ucontext_t *c = context;

	(void)number, (void)info;
	if (close_again) {
		protect(1);
		close_again = 0;
	}
	if (hop_left > 0) {
		on_hop(c);
		return;
	}
	if (!stepping) {
		c->uc_mcontext.gregs[REG_EFL] &= ~TRAP;
		return;
	}
	take_state(c);
	if (next_at == 0) {
		begin(c);
		return;
	}
	if (!differs)
		note_step();
	memcpy(last, now, sizeof last);
	next_at = (uintptr_t)c->uc_mcontext.gregs[REG_RIP];
	if (step == hop_step && !scouting) {
		hop_left = 4;
		run_on(c);
	}
}

/* A read of the closed half: of the window, or behind its end. */
static void on_fault(int number, siginfo_t *info, void *context)
{
	ucontext_t *c = context;

	(void)number;
	if (!closed || (uint8_t *)info->si_addr < room + ROOM / 2 || (uint8_t *)info->si_addr >= room + ROOM)
		give_up("stepping: a fault that is none of the tape's\n");
	if (hop_left > 0)
		give_up("stepping: tape is read between two S-boxes\n");
	protect(0);
	if (window_end != AT_RETURN && (uint32_t *)info->si_addr >= tape + window_end) {
		stepping = 0;
		c->uc_mcontext.gregs[REG_EFL] &= ~TRAP;
		return;
	}
	if (!stepping)
		begin(c);
	close_again = window_end != AT_RETURN;
	c->uc_mcontext.gregs[REG_EFL] |= TRAP;
}

/* Makes the call with the same bytes in all registers that it may save, and with the trap flag set where the window starts with it. */
static void call_with(void (*call)(void), uint64_t flags)
{
	__asm__ volatile(
		"xorl %%ebx, %%ebx; xorl %%r12d, %%r12d; xorl %%r13d, %%r13d; xorl %%r14d, %%r14d; xorl %%r15d, %%r15d;"
		"pxor %%xmm0, %%xmm0; pxor %%xmm1, %%xmm1; pxor %%xmm2, %%xmm2; pxor %%xmm3, %%xmm3;"
		"pxor %%xmm4, %%xmm4; pxor %%xmm5, %%xmm5; pxor %%xmm6, %%xmm6; pxor %%xmm7, %%xmm7;"
		"pxor %%xmm8, %%xmm8; pxor %%xmm9, %%xmm9; pxor %%xmm10, %%xmm10; pxor %%xmm11, %%xmm11;"
		"pxor %%xmm12, %%xmm12; pxor %%xmm13, %%xmm13; pxor %%xmm14, %%xmm14; pxor %%xmm15, %%xmm15;"
		"pushfq; orq %%rcx, (%%rsp); popfq; call *%%rax"
		: "+a"(call), "+c"(flags) : : "rbx", "rdx", "rsi", "rdi", "r8", "r9", "r10", "r11", "r12", "r13", "r14", "r15",
		"xmm0", "xmm1", "xmm2", "xmm3", "xmm4", "xmm5", "xmm6", "xmm7", "xmm8", "xmm9", "xmm10", "xmm11", "xmm12",
		"xmm13", "xmm14", "xmm15", "memory", "cc");
}

/* Makes the call, from the state that every run has. */
static void make(void (*call)(void))
{
	step = 0;
	next_at = 0;
	differs = 0;
	close_again = 0;
	hop_left = 0;
	/* The same bytes stand in the unused stack before every run. */
	memset(stack_end - STACK, 0, STACK - 1024);
	protect(window_start != AT_CALL || window_end != AT_RETURN);
	stepping = window_start == AT_CALL;
	call_with(call, stepping ? TRAP : 0);
	stepping = 0;
	__asm__ volatile("nop"); /* here the trap flag is taken back */
	protect(0);
}

/* Goes through the window once, to see where its S-boxes stand. */
static void scout(void (*call)(void))
{
	scouting = 1;
	make(call);
	scouting = 0;
	if (!hop_find(step_at, step, &hop_step, &hop_head))
		give_up("stepping: no four S-boxes in the window\n");
}

int steps_run(void (*call)(void))
{
	static uint8_t other_stack[65536];
	stack_t s = { .ss_sp = other_stack, .ss_size = sizeof other_stack };
	struct sigaction trap = { .sa_sigaction = on_trap, .sa_flags = SA_SIGINFO | SA_ONSTACK };
	struct sigaction fault = { .sa_sigaction = on_fault, .sa_flags = SA_SIGINFO | SA_ONSTACK };

	sigaltstack(&s, NULL);
	sigaction(SIGTRAP, &trap, NULL);
	sigaction(SIGSEGV, &fault, NULL);
	stack_end = __builtin_frame_address(0);
	if (run == 0) {
		hop_step = SIZE_MAX;
		if (window_start != AT_CALL)
			scout(call);
	}
	make(call);
	if (run == 0)
		step_count = step;
	run++;
	return step > 0 && !differs && step == step_count;
}

const char *lane_name(uint16_t where)
{
	static const char *names[16] = { "rax", "rcx", "rdx", "rbx", "rsp", "rbp", "rsi", "rdi",
		"r8", "r9", "r10", "r11", "r12", "r13", "r14", "r15" };
	static char name[40];
	size_t at = where;

	if (at < GENERAL)
		snprintf(name, sizeof name, "%s.%zu", names[at / 8], at % 8);
	else if ((at -= GENERAL) < XMM)
		snprintf(name, sizeof name, "xmm%zu.%zu", at / 16, at % 16);
	else if ((at -= XMM) < STACK)
		snprintf(name, sizeof name, "stack-%zu", STACK - at);
	else
		snprintf(name, sizeof name, "output+%zu", at - STACK);
	return name;
}

/* for `syscall` */
#define _GNU_SOURCE

#include "commands/confine.h"

#include <stdlib.h>

#if defined(__SANITIZE_ADDRESS__) || defined(__SANITIZE_THREAD__)
#define HAS_SANITIZER
#elif defined(__has_feature)
#if __has_feature(address_sanitizer) || __has_feature(thread_sanitizer) || __has_feature(memory_sanitizer)
#define HAS_SANITIZER
#endif
#endif

#if defined(__linux__) && __BYTE_ORDER__ == __ORDER_LITTLE_ENDIAN__ && !defined(HAS_SANITIZER)
#if defined(__x86_64__) && !defined(__ILP32__)
#define ARCHITECTURE AUDIT_ARCH_X86_64
#elif defined(__aarch64__) && !defined(__ILP32__)
#define ARCHITECTURE AUDIT_ARCH_AARCH64
#endif
#endif

#ifdef ARCHITECTURE

#include <asm/ioctls.h>
#include <errno.h>
#include <fcntl.h>
#include <linux/audit.h>
#include <linux/capability.h>
#include <linux/filter.h>
#include <linux/seccomp.h>
#include <stdbool.h>
#include <stddef.h>
#include <stdint.h>
#include <sys/mman.h>
#include <sys/prctl.h>
#include <sys/syscall.h>
#include <unistd.h>

/* The calls of Landlock, which have the same numbers on all machines. */
enum { LANDLOCK_CREATE = 444, LANDLOCK_RESTRICT = 446 };

/* A program that decides about each call of the system. */
struct program {
    struct sock_filter steps[256];
    unsigned short len;
};

enum { JUMP_EQUAL = BPF_JMP | BPF_JEQ | BPF_K, JUMP_SET = BPF_JMP | BPF_JSET | BPF_K, LOAD = BPF_LD | BPF_W | BPF_ABS };
enum { RETURN = BPF_RET | BPF_K };

/* What is answered to calls that are refused. */
static const uint32_t refuse = SECCOMP_RET_ERRNO | EPERM;

static void add(struct program *program, unsigned code, uint32_t number, uint8_t if_met, uint8_t if_not)
{
    program->steps[program->len++] = (struct sock_filter){(uint16_t)code, if_met, if_not, number};
}

/* Allows a call. */
static void allow(struct program *program, long number)
{
    add(program, JUMP_EQUAL, (uint32_t)number, 0, 1);
    add(program, RETURN, SECCOMP_RET_ALLOW, 0, 0);
}

/* Where the lower half of an argument is. */
static uint32_t argument_at(size_t index)
{
    return (uint32_t)(offsetof(struct seccomp_data, args) + index * sizeof(uint64_t));
}

/* Allows a call without some bits in an argument. */
static void allow_without(struct program *program, long number, size_t index, uint32_t bits)
{
    add(program, JUMP_EQUAL, (uint32_t)number, 0, 4);
    add(program, LOAD, argument_at(index), 0, 0);
    add(program, JUMP_SET, bits, 0, 1);
    add(program, RETURN, refuse, 0, 0);
    add(program, RETURN, SECCOMP_RET_ALLOW, 0, 0);
}

/* Allows a call with one of two numbers as an argument. */
static void allow_with(struct program *program, long number, size_t index, uint32_t argument, uint32_t other)
{
    add(program, JUMP_EQUAL, (uint32_t)number, 0, 5);
    add(program, LOAD, argument_at(index), 0, 0);
    add(program, JUMP_EQUAL, argument, 1, 0);
    add(program, JUMP_EQUAL, other, 0, 1);
    add(program, RETURN, SECCOMP_RET_ALLOW, 0, 0);
    add(program, RETURN, refuse, 0, 0);
}

/* The two calls that ask whether a file is a terminal. */
static const uint32_t terminal_calls[] = {TCGETS, 0x802c542a /* TCGETS2 */};

/* What each command needs: reading, writing, memory, time, signals, what threads call, and to end. */
static const short calls[] = {
    SYS_read, SYS_write, SYS_readv, SYS_writev, SYS_lseek, SYS_ppoll, SYS_futex, SYS_close, SYS_fstat, SYS_newfstatat,
    SYS_fcntl, SYS_dup, SYS_munmap, SYS_mremap, SYS_madvise, SYS_brk, SYS_membarrier, SYS_getrandom, SYS_clock_gettime,
    SYS_clock_nanosleep, SYS_gettimeofday, SYS_nanosleep, SYS_restart_syscall, SYS_rt_sigaction, SYS_rt_sigprocmask,
    SYS_rt_sigreturn, SYS_getpid, SYS_gettid, SYS_sched_getaffinity, SYS_sched_yield, SYS_set_robust_list, SYS_exit,
    SYS_exit_group,
#ifdef SYS_poll
    SYS_poll,
#endif
#ifdef SYS_rseq
    SYS_rseq,
#endif
#ifdef SYS_statx
    SYS_statx,
#endif
#ifdef SYS_stat
    SYS_stat,
#endif
#ifdef SYS_futex_time64
    SYS_futex_time64,
#endif
};

/* The calls that give up more. The system lets them take nothing back. */
static void allow_confining(struct program *program)
{
    allow_with(program, SYS_prctl, 0, PR_SET_NO_NEW_PRIVS, PR_SET_NO_NEW_PRIVS);
    allow(program, SYS_capset);
    allow(program, SYS_seccomp);
    allow(program, LANDLOCK_CREATE);
    allow(program, LANDLOCK_RESTRICT);
}

/* Allows files to be opened for reading. */
static void allow_reading(struct program *program)
{
    enum { WRITES = O_WRONLY | O_RDWR | O_CREAT | O_TRUNC };
    allow_without(program, SYS_openat, 2, WRITES);
#ifdef SYS_open
    allow_without(program, SYS_open, 1, WRITES);
#endif
}

/* Allows threads to be started, but no processes: by the call whose flags can be read, so that libraries don't use the other. */
static void allow_threads(struct program *program)
{
    enum { IS_THREAD = 0x10000 };
    add(program, JUMP_EQUAL, SYS_clone, 0, 4);
    add(program, LOAD, argument_at(0), 0, 0);
    add(program, JUMP_SET, IS_THREAD, 0, 1);
    add(program, RETURN, SECCOMP_RET_ALLOW, 0, 0);
    add(program, RETURN, refuse, 0, 0);
#ifdef SYS_clone3
    add(program, JUMP_EQUAL, SYS_clone3, 0, 1);
    add(program, RETURN, SECCOMP_RET_ERRNO | ENOSYS, 0, 0);
#endif
}

/* Makes the program of a command. */
static void make_program(struct program *program, enum files_needed needed)
{
    program->len = 0;
    add(program, LOAD, offsetof(struct seccomp_data, arch), 0, 0);
    add(program, JUMP_EQUAL, ARCHITECTURE, 1, 0);
    add(program, RETURN, refuse, 0, 0);
    add(program, LOAD, offsetof(struct seccomp_data, nr), 0, 0);
    for (size_t i = 0; i < sizeof calls / sizeof *calls; i++) allow(program, calls[i]);
    allow_without(program, SYS_mmap, 2, PROT_EXEC);
    allow_without(program, SYS_mprotect, 2, PROT_EXEC);
    allow_with(program, SYS_ioctl, 1, terminal_calls[0], terminal_calls[1]);
    allow_with(program, SYS_tgkill, 0, (uint32_t)getpid(), (uint32_t)getpid());
    allow_with(program, SYS_prlimit64, 0, 0, (uint32_t)getpid());
    if (needed == FILES_READ) {
        allow_reading(program);
        allow_threads(program);
        allow_confining(program);
    }
    add(program, RETURN, refuse, 0, 0);
}

/* Lets the system refuse all other calls. Where it knows the flag, memory isn't read more slowly by that. */
static void limit_calls(enum files_needed needed)
{
    enum { SET_FILTER = 1, WITHOUT_SLOWER_READS = 1 << 2 };
    struct program program;
    make_program(&program, needed);
    struct sock_fprog given = {program.len, program.steps};
    if (syscall(SYS_seccomp, SET_FILTER, WITHOUT_SLOWER_READS, &given) != 0) syscall(SYS_seccomp, SET_FILTER, 0, &given);
}

/* What Landlock has to be told. */
struct ruleset {
    uint64_t files;
    uint64_t network;
};

/*
 * Lets the system refuse to change files, to run programs and to use the network, and if no files are needed, to open any.
 * What is open stays usable.
 */
static void limit_files(enum files_needed needed)
{
    enum { ASK_VERSION = 1 };
    enum { READ_FILE = 1 << 2, READ_FOLDER = 1 << 3, FIRST_RIGHTS = (1 << 13) - 1, REFER = 1 << 13, TRUNCATE = 1 << 14 };
    enum { BIND = 1, CONNECT = 2, WITH_TRUNCATE = 3, WITH_NETWORK = 4 };
    long version = syscall(LANDLOCK_CREATE, NULL, 0, ASK_VERSION);
    if (version < 1) return;
    struct ruleset rules = {.files = FIRST_RIGHTS | (version > 1 ? REFER : 0) | (version >= WITH_TRUNCATE ? TRUNCATE : 0)};
    if (needed == FILES_READ) rules.files &= ~(uint64_t)(READ_FILE | READ_FOLDER);
    if (version >= WITH_NETWORK) rules.network = BIND | CONNECT;
    int set = (int)syscall(LANDLOCK_CREATE, &rules, version >= WITH_NETWORK ? sizeof rules : sizeof rules.files, 0);
    if (set < 0) return;
    syscall(LANDLOCK_RESTRICT, set, 0);
    close(set);
}

/* Of some capabilities, returns the one with which files can be read whatever their mode is: if possible, not written too. */
static uint32_t reading(uint32_t capabilities)
{
    uint32_t searches = capabilities & 1 << CAP_DAC_READ_SEARCH;
    return searches ? searches : capabilities & 1 << CAP_DAC_OVERRIDE;
}

/* Has root become the user nobody, with the capabilities that it still needs, if any. No other thread may run. */
static void become_nobody(bool needs_capabilities)
{
    enum { NOBODY = 65534 };
    if (geteuid() != 0 || (needs_capabilities && prctl(PR_SET_KEEPCAPS, 1, 0, 0, 0) != 0)) return;
    syscall(SYS_setgroups, 0, NULL);
    syscall(SYS_setresgid, NOBODY, NOBODY, NOBODY);
    syscall(SYS_setresuid, NOBODY, NOBODY, NOBODY);
}

/*
 * Gives up root and its capabilities, but for the one with which further files are read. Root that has no such capability
 * reads its files by its number, and keeps that. What is open stays usable.
 */
static void give_up_root(enum files_needed needed)
{
    struct __user_cap_header_struct header = {.version = _LINUX_CAPABILITY_VERSION_3};
    struct __user_cap_data_struct had[_LINUX_CAPABILITY_U32S_3] = {{0}}, kept[_LINUX_CAPABILITY_U32S_3] = {{0}};
    if (needed == FILES_READ && syscall(SYS_capget, &header, had) != 0) return;
    kept[0].effective = kept[0].permitted = reading(had[0].effective);
    if (needed == FILES_NONE || kept[0].permitted != 0) become_nobody(kept[0].permitted != 0);
    syscall(SYS_capset, &header, kept);
}

void confine(enum files_needed needed)
{
    const char *preloaded = getenv("LD_PRELOAD");
    int error = errno;
    if (preloaded && *preloaded) return;
    give_up_root(needed);
    if (prctl(PR_SET_NO_NEW_PRIVS, 1, 0, 0, 0) == 0) {
        limit_files(needed);
        limit_calls(needed);
    }
    errno = error;
}

#else

void confine(enum files_needed needed)
{
    (void)needed;
}

#endif

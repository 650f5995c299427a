/* SPDX-License-Identifier: Apache-2.0 OR MIT */
/*
 * filter.c: the system calls that the daemon makes once it has begun, for the kernel to hold it to. Files that it writes are
 * open by then, so is its socket, and it runs nothing else: should a client ever get it to do what isn't written here, it can't
 * be much.
 *
 * What nobody can mean ends the daemon (SIGSYS); whatever else isn't here fails as on a kernel that hasn't got it, so that
 * another C library can do without.
 */
#include "daemon.h"

#include <errno.h>
#include <fcntl.h>
#include <linux/audit.h>
#include <linux/filter.h>
#include <linux/nsfs.h>
#include <linux/seccomp.h>
#include <sched.h>
#include <string.h>
#include <sys/mman.h>
#include <sys/prctl.h>
#include <sys/syscall.h>
#include <unistd.h>

#if defined(__x86_64__)
#define MACHINE AUDIT_ARCH_X86_64
#elif defined(__aarch64__)
#define MACHINE AUDIT_ARCH_AARCH64
#elif defined(__riscv) && __riscv_xlen == 64
#define MACHINE AUDIT_ARCH_RISCV64
#endif

#ifdef MACHINE

/* Any arguments will do: what they may lead to is the daemon's own. Those of each call of a client come first. */
static const uint32_t allowed[] = {
    SYS_futex,
    SYS_epoll_pwait,
#ifdef SYS_epoll_pwait2
    SYS_epoll_pwait2,
#endif
    SYS_sendmsg,
    SYS_recvmsg,
    SYS_sendto,
    SYS_recvfrom,
    SYS_read,
    SYS_pread64,
    SYS_write,
    SYS_writev,
    SYS_lseek,
    SYS_close,
    SYS_dup3,
    SYS_fstat,
    SYS_fstatfs,
    SYS_newfstatat,
    SYS_statx,
    SYS_readlinkat,
    SYS_unlinkat,
    SYS_ftruncate,
    SYS_epoll_ctl,
    SYS_epoll_create1,
    SYS_eventfd2,
    SYS_timerfd_settime,
    SYS_ppoll,
    SYS_accept4,
    SYS_shutdown,
    SYS_getsockopt,
    SYS_setsockopt,
    SYS_memfd_create,
    SYS_pidfd_open,
    SYS_munmap,
    SYS_mremap,
    SYS_madvise,
    SYS_brk,
    SYS_clock_gettime,
    SYS_clock_nanosleep,
    SYS_nanosleep,
    SYS_restart_syscall,
    SYS_sched_yield,
    SYS_sched_getaffinity,
    SYS_set_robust_list,
    SYS_rseq,
    SYS_rt_sigaction,
    SYS_rt_sigprocmask,
    SYS_rt_sigreturn,
    SYS_getpid,
    SYS_gettid,
    SYS_getrandom,
    SYS_exit,
    SYS_exit_group,
#ifdef SYS_epoll_wait /* older machines have these besides */
    SYS_epoll_wait,
    SYS_poll,
    SYS_readlink,
    SYS_unlink,
    SYS_lstat,
    SYS_stat,
#endif
};

/* No daemon wants these: other programs and processes, rights, connections, and what the kernel is run by. */
static const uint32_t deadly[] = {
    SYS_execve,
    SYS_execveat,
    SYS_ptrace,
    SYS_process_vm_readv,
    SYS_process_vm_writev,
    SYS_kill,
    SYS_tkill,
    SYS_socket,
    SYS_connect,
    SYS_bind,
    SYS_listen,
    SYS_setuid,
    SYS_setgid,
    SYS_setreuid,
    SYS_setregid,
    SYS_setresuid,
    SYS_setresgid,
    SYS_setgroups,
    SYS_setns,
    SYS_unshare,
    SYS_chroot,
    SYS_pivot_root,
    SYS_mount,
    SYS_umount2,
    SYS_fchmod,
    SYS_fchmodat,
    SYS_fchown,
    SYS_fchownat,
    SYS_linkat,
    SYS_symlinkat,
    SYS_mknodat,
    SYS_open_by_handle_at,
    SYS_bpf,
    SYS_perf_event_open,
    SYS_io_uring_setup,
    SYS_userfaultfd,
    SYS_keyctl,
    SYS_init_module,
    SYS_finit_module,
    SYS_kexec_load,
    SYS_reboot,
#ifdef SYS_fork
    SYS_fork,
    SYS_vfork,
    SYS_chmod,
    SYS_chown,
    SYS_link,
    SYS_symlink,
    SYS_rename,
    SYS_mknod,
#endif
};

/* Where the bits of `mask` of an argument have this value the call is allowed; else it ends as `otherwise` says. */
struct condition {
    uint32_t call, argument, mask, value, otherwise;
};

#define FAILS_WITH(error) (SECCOMP_RET_ERRNO | (error))
#define ALL UINT32_MAX

/* The daemon's own process is put into the last one's place. */
static struct condition conditions[] = {
    {SYS_openat, 2, O_ACCMODE | O_CREAT | O_TRUNC, O_RDONLY, FAILS_WITH(EACCES)},
    {SYS_clone, 0, CLONE_THREAD, CLONE_THREAD, SECCOMP_RET_KILL_PROCESS},
    {SYS_mmap, 2, PROT_EXEC, 0, SECCOMP_RET_KILL_PROCESS},
    {SYS_mprotect, 2, PROT_EXEC, 0, SECCOMP_RET_KILL_PROCESS},
    {SYS_socketpair, 0, ALL, AF_UNIX, SECCOMP_RET_KILL_PROCESS},
    {SYS_pidfd_send_signal, 1, ALL, 0, SECCOMP_RET_KILL_PROCESS}, /* which only asks whether it lives */
    {SYS_fcntl, 1, ALL, F_ADD_SEALS, FAILS_WITH(EINVAL)},
    {SYS_ioctl, 1, ALL, NS_GET_PARENT, FAILS_WITH(ENOTTY)},
    {SYS_tgkill, 0, ALL, 0, SECCOMP_RET_KILL_PROCESS},
};

#define COUNT(array) (sizeof(array) / sizeof *(array))

/* Each call of the first two kinds takes two instructions, each condition six; five are for all. */
static struct sock_filter code[2 * (COUNT(allowed) + COUNT(deadly)) + 6 * COUNT(conditions) + 5];
static struct sock_fprog program = {.filter = code};

static void put(struct sock_filter instruction)
{
    code[program.len++] = instruction;
}

/* The lower half of a word: no call here has more. */
static void load(size_t place)
{
    size_t low = __BYTE_ORDER__ == __ORDER_BIG_ENDIAN__ ? sizeof(uint32_t) : 0;
    put((struct sock_filter)BPF_STMT(BPF_LD | BPF_W | BPF_ABS, (uint32_t)(place + low)));
}

static void end(uint32_t action)
{
    put((struct sock_filter)BPF_STMT(BPF_RET | BPF_K, action));
}

/* So many instructions are passed over where the loaded word is another one. */
static void pass_unless(uint32_t value, uint8_t count)
{
    put((struct sock_filter)BPF_JUMP(BPF_JMP | BPF_JEQ | BPF_K, value, 0, count));
}

static void put_calls(const uint32_t *calls, size_t count, uint32_t action)
{
    for (size_t i = 0; i < count; i++) {
        pass_unless(calls[i], 1);
        end(action);
    }
}

static void put_conditions(void)
{
    for (size_t i = 0; i < COUNT(conditions); i++) {
        const struct condition *it = &conditions[i];
        pass_unless(it->call, 5);
        load(offsetof(struct seccomp_data, args) + it->argument * sizeof(uint64_t));
        put((struct sock_filter)BPF_STMT(BPF_ALU | BPF_AND | BPF_K, it->mask));
        pass_unless(it->value, 1);
        end(SECCOMP_RET_ALLOW);
        end(it->otherwise);
    }
}

/* A call in another machine's way, as one of 32 bits, has other numbers. */
static void write_program(void)
{
    conditions[COUNT(conditions) - 1].value = (uint32_t)getpid();
    put((struct sock_filter)BPF_STMT(BPF_LD | BPF_W | BPF_ABS, offsetof(struct seccomp_data, arch)));
    put((struct sock_filter)BPF_JUMP(BPF_JMP | BPF_JEQ | BPF_K, MACHINE, 1, 0));
    end(SECCOMP_RET_KILL_PROCESS);
    put((struct sock_filter)BPF_STMT(BPF_LD | BPF_W | BPF_ABS, offsetof(struct seccomp_data, nr)));
    put_calls(allowed, COUNT(allowed), SECCOMP_RET_ALLOW);
    put_conditions();
    put_calls(deadly, COUNT(deadly), SECCOMP_RET_KILL_PROCESS);
    end(FAILS_WITH(ENOSYS));
}

/* For all threads, those too that have begun. The daemon runs nothing that is foreign to it, so that it needn't be slowed down
   against what such a thing could learn from the processor. */
static bool install(void)
{
    unsigned flags = SECCOMP_FILTER_FLAG_TSYNC | SECCOMP_FILTER_FLAG_SPEC_ALLOW;
    write_program();
    return prctl(PR_SET_NO_NEW_PRIVS, 1, 0, 0, 0) == 0 && syscall(SYS_seccomp, SECCOMP_SET_MODE_FILTER, flags, &program) == 0;
}

#else

static bool install(void)
{
    errno = ENOSYS;
    return false;
}

#endif

bool filter_begin(void)
{
    if (install())
        return true;
    log_line("the kernel can't keep the daemon to its system calls: %s; with --no-filter it goes without", strerror(errno));
    return false;
}

//! Which calls of the system the program allows itself once it serves (seccomp): those that it makes from then on, with the numbers and flags
//! that it uses. Whatever a client might make of it, it starts no program, maps nothing as code, opens no file for writing, has no sockets but
//! UNIX ones, and sends no other process a signal.
//!
//! The filter is a program of classic BPF over a call's number and the low words of its arguments, which the kernel runs at each call. Any
//! call that isn't allowed ends the process: nothing here makes one, so whoever does isn't this program any more.

use super::checked;
use libc::{c_int, c_long, sock_filter};
use std::io;

// The architecture whose numbers these are: AUDIT_ARCH_X86_64 of linux/audit.h, which libc lacks. The library is for no other.
const X86_64: u32 = 0xC000_003E;
// Where the kernel shows the number, the architecture and the first argument of a call: struct seccomp_data of linux/seccomp.h.
const NUMBER: u32 = 0;
const ARCHITECTURE: u32 = 4;
const ARGUMENTS: u32 = 16;
// Flags by which openat writes or makes a file. (O_TMPFILE has O_DIRECTORY in it, which does neither.)
const WRITING: c_int =
    libc::O_ACCMODE | libc::O_CREAT | libc::O_TRUNC | (libc::O_TMPFILE & !libc::O_DIRECTORY);

/// What is allowed of a call.
#[derive(Clone, Copy, Debug)]
enum Rule {
    /// All of it.
    Any(c_long),
    /// Where the argument of that place has one of these values in the bits of the mask.
    Where(c_long, u32, c_int, &'static [c_int]),
    /// Where the first argument is this process.
    Here(c_long),
    /// Nothing: it fails as one that the kernel doesn't have, and the C library takes an older one.
    Missing(c_long),
}

use Rule::{Any, Here, Missing, Where};

// The calls, by what they are for. Those of each turn stand first.
const RULES: [Rule; 53] = [
    Any(libc::SYS_epoll_wait),
    Any(libc::SYS_epoll_pwait2),
    Any(libc::SYS_recvmsg),
    Any(libc::SYS_write),
    Any(libc::SYS_sendto),
    Any(libc::SYS_read),
    Any(libc::SYS_recvfrom),
    Any(libc::SYS_sched_yield),
    // clients come and go, with their files (a build with debug assertions looks whether a file is open before it closes it: F_GETFD)
    Any(libc::SYS_accept4),
    Any(libc::SYS_epoll_ctl),
    Any(libc::SYS_close),
    Where(libc::SYS_ioctl, 1, -1, &[libc::FIONBIO as c_int]),
    Where(
        libc::SYS_fcntl,
        1,
        -1,
        &[
            libc::F_GETFL,
            libc::F_SETFL,
            libc::F_GET_SEALS,
            libc::F_ADD_SEALS,
            libc::F_GETFD,
        ],
    ),
    // (and where a client is offered a page of registers: it is made, sealed, and sent)
    Where(
        libc::SYS_memfd_create,
        1,
        -1,
        &[(libc::MFD_CLOEXEC | libc::MFD_ALLOW_SEALING) as c_int],
    ),
    Any(libc::SYS_ftruncate),
    Any(libc::SYS_sendmsg),
    Any(libc::SYS_readlink),
    Any(libc::SYS_fstatfs),
    Any(libc::SYS_statx),
    Any(libc::SYS_fstat),
    Any(libc::SYS_newfstatat),
    // memory, guests' and its own
    Where(libc::SYS_mmap, 2, libc::PROT_EXEC, &[0]),
    Where(libc::SYS_mprotect, 2, libc::PROT_EXEC, &[0]),
    Any(libc::SYS_munmap),
    Any(libc::SYS_madvise),
    Any(libc::SYS_mremap),
    Any(libc::SYS_brk),
    // the alarm, and signals
    Any(libc::SYS_timer_settime),
    Any(libc::SYS_timer_delete),
    Any(libc::SYS_rt_sigreturn),
    Any(libc::SYS_restart_syscall),
    // the configuration is read again, lines are logged, and systemd is told
    Where(libc::SYS_openat, 2, WRITING, &[0]),
    Any(libc::SYS_lseek),
    Any(libc::SYS_getrandom),
    Any(libc::SYS_clock_gettime),
    Where(libc::SYS_socket, 0, -1, &[libc::AF_UNIX]),
    // threads that let go of things
    Missing(libc::SYS_clone3),
    Where(
        libc::SYS_clone,
        0,
        libc::CLONE_THREAD,
        &[libc::CLONE_THREAD],
    ),
    Where(libc::SYS_prctl, 0, -1, &[libc::PR_SET_NAME]),
    Any(libc::SYS_set_robust_list),
    Any(libc::SYS_rseq),
    Any(libc::SYS_sched_getaffinity),
    Any(libc::SYS_sigaltstack),
    Any(libc::SYS_rt_sigprocmask),
    Any(libc::SYS_futex),
    Any(libc::SYS_exit),
    // the end: in order, by a panic, or by an abort
    Any(libc::SYS_unlink),
    Any(libc::SYS_exit_group),
    Any(libc::SYS_getcwd),
    Any(libc::SYS_rt_sigaction),
    Any(libc::SYS_getpid),
    Any(libc::SYS_gettid),
    Here(libc::SYS_tgkill),
];

const LOAD: u32 = libc::BPF_LD | libc::BPF_W | libc::BPF_ABS;
const AND: u32 = libc::BPF_ALU | libc::BPF_AND | libc::BPF_K;
const IS: u32 = libc::BPF_JMP | libc::BPF_JEQ | libc::BPF_K;
const ANSWER: u32 = libc::BPF_RET | libc::BPF_K;
const ALLOWED: u32 = libc::SECCOMP_RET_ALLOW;
const KILLED: u32 = libc::SECCOMP_RET_KILL_PROCESS;
const NOT_THERE: u32 = libc::SECCOMP_RET_ERRNO | libc::ENOSYS as u32;

const fn step(code: u32, word: u32) -> sock_filter {
    compare(code, word, 0, 0)
}

// A comparison goes on so many steps further where it holds, and so many where it doesn't.
const fn compare(code: u32, word: u32, holds: u8, differs: u8) -> sock_filter {
    sock_filter {
        code: code as u16,
        jt: holds,
        jf: differs,
        k: word,
    }
}

// What is done of the call that a rule is about.
fn steps_of(rule: Rule, process: u32) -> (c_long, Vec<sock_filter>) {
    match rule {
        Any(call) => (call, vec![step(ANSWER, ALLOWED)]),
        Missing(call) => (call, vec![step(ANSWER, NOT_THERE)]),
        Here(call) => (call, steps_by(0, u32::MAX, [process])),
        Where(call, place, mask, values) => {
            let values = values.iter().map(|value| *value as u32);
            (call, steps_by(place, mask as u32, values))
        }
    }
}

// It is allowed where an argument has one of these values.
fn steps_by(place: u32, mask: u32, values: impl IntoIterator<Item = u32>) -> Vec<sock_filter> {
    let argument = step(LOAD, ARGUMENTS + 8 * place);
    let mut steps = vec![argument, step(AND, mask)];
    for value in values {
        steps.extend([compare(IS, value, 0, 1), step(ANSWER, ALLOWED)]);
    }
    steps.push(step(ANSWER, KILLED));
    steps
}

// The filter of a process of this number.
fn filter(process: u32) -> Vec<sock_filter> {
    let mut all = vec![
        step(LOAD, ARCHITECTURE),
        compare(IS, X86_64, 1, 0),
        step(ANSWER, KILLED),
        step(LOAD, NUMBER),
    ];
    for rule in RULES {
        let (call, steps) = steps_of(rule, process);
        all.push(compare(IS, call as u32, 0, steps.len() as u8));
        all.extend(steps);
    }
    all.push(step(ANSWER, KILLED));
    all
}

// From now on the filter holds, for this thread and those that it starts. It can't be taken back.
fn enter(filter: &mut [sock_filter]) -> io::Result<()> {
    let program = libc::sock_fprog {
        len: filter.len() as libc::c_ushort,
        filter: filter.as_mut_ptr(),
    };
    // SAFETY: the call takes numbers alone. (Without privileges a filter is for those alone who gain none.)
    checked(unsafe { libc::prctl(libc::PR_SET_NO_NEW_PRIVS, 1, 0, 0, 0) })?;
    let mode = libc::SECCOMP_MODE_FILTER as libc::c_ulong;
    // SAFETY: the program leads to so many steps, which the call copies.
    checked(unsafe { libc::prctl(libc::PR_SET_SECCOMP, mode, &program) }).map(drop)
}

/// From now on the program may make those calls alone that it needs to serve; any other ends it. It is to be called before there are other
/// threads.
///
/// # Errors
/// Where the kernel has no such filters.
pub fn allow_serving_alone() -> io::Result<()> {
    enter(&mut filter(std::process::id()))
}

#[cfg(test)]
mod tests {
    use super::*;

    // What a process does under the filter, which is the copy of this one that makes one call of the system and ends.
    #[derive(Debug, PartialEq, Eq)]
    enum Fate {
        // it ended with the call's error, or 0
        Went(c_int),
        // by the filter
        Killed,
    }

    // The fate of a call with these arguments.
    fn fate(call: c_long, arguments: [c_long; 6]) -> Fate {
        // (of this process and not of its copy, which may send itself no signal then)
        let mut steps = filter(std::process::id());
        // SAFETY: the copy has one thread. It makes calls of the system alone, and ends by one: it takes no lock that another thread had.
        let child = unsafe { libc::fork() };
        if child == 0 {
            let entered = enter(&mut steps).is_ok();
            let [a, b, c, d, e, f] = arguments;
            // SAFETY: the calls of the table below read and write no memory but through null pointers, which the kernel refuses.
            let answer = unsafe { libc::syscall(call, a, b, c, d, e, f) };
            let error = io::Error::last_os_error().raw_os_error().unwrap_or(0);
            let status = match (entered, answer) {
                (false, _) => 255,
                (true, -1) => error,
                (true, _) => 0,
            };
            // SAFETY: the copy ends here, and nothing of it is dropped.
            unsafe { libc::_exit(status) };
        }
        assert!(child > 0, "{}", io::Error::last_os_error());
        let mut status = 0;
        // SAFETY: the child is the one that was just made, and the pointer leads to one live value.
        let waited = unsafe { libc::waitpid(child, &mut status, 0) };
        assert_eq!(waited, child);
        match libc::WIFSIGNALED(status) {
            true => {
                assert_eq!(libc::WTERMSIG(status), libc::SIGSYS);
                Fate::Killed
            }
            false => Fate::Went(libc::WEXITSTATUS(status)),
        }
    }

    #[test]
    fn what_serving_needs_is_allowed_and_nothing_else() {
        let went = Fate::Went;
        let (nowhere, exec) = (c_long::from(libc::AT_FDCWD), c_long::from(libc::PROT_EXEC));
        let (unix, internet) = (c_long::from(libc::AF_UNIX), c_long::from(libc::AF_INET));
        let (stream, raw) = (
            c_long::from(libc::SOCK_STREAM),
            c_long::from(libc::SOCK_RAW),
        );
        let made = c_long::from(libc::O_CREAT | libc::O_WRONLY);
        let both = c_long::from(libc::O_RDWR);
        let anonymous = c_long::from(libc::MAP_PRIVATE | libc::MAP_ANONYMOUS);
        let high = 1 << 32;
        for (call, arguments, due) in [
            (libc::SYS_close, [-1, 0, 0, 0, 0, 0], went(libc::EBADF)),
            (libc::SYS_getppid, [0; 6], Fate::Killed),
            (libc::SYS_execve, [0; 6], Fate::Killed),
            (libc::SYS_fork, [0; 6], Fate::Killed),
            (libc::SYS_connect, [-1, 0, 0, 0, 0, 0], Fate::Killed),
            (libc::SYS_bind, [-1, 0, 0, 0, 0, 0], Fate::Killed),
            (libc::SYS_ptrace, [0; 6], Fate::Killed),
            (libc::SYS_kill, [0; 6], Fate::Killed),
            (libc::SYS_tgkill, [1, 1, 0, 0, 0, 0], Fate::Killed),
            (libc::SYS_io_uring_setup, [0; 6], Fate::Killed),
            // a number of the x32 architecture
            (
                0x4000_0000 + libc::SYS_close,
                [-1, 0, 0, 0, 0, 0],
                Fate::Killed,
            ),
            (libc::SYS_clone3, [0; 6], went(libc::ENOSYS)),
            (libc::SYS_clone, [0; 6], Fate::Killed),
            (
                libc::SYS_clone,
                [c_long::from(libc::CLONE_THREAD), 0, 0, 0, 0, 0],
                went(libc::EINVAL),
            ),
            (libc::SYS_socket, [unix, stream, 0, 0, 0, 0], went(0)),
            (
                libc::SYS_socket,
                [internet, stream, 0, 0, 0, 0],
                Fate::Killed,
            ),
            (
                libc::SYS_socket,
                [c_long::from(libc::AF_PACKET), raw, 0, 0, 0, 0],
                Fate::Killed,
            ),
            (
                libc::SYS_openat,
                [nowhere, 0, 0, 0, 0, 0],
                went(libc::EFAULT),
            ),
            (libc::SYS_openat, [nowhere, 0, made, 0, 0, 0], Fate::Killed),
            (libc::SYS_openat, [nowhere, 0, both, 0, 0, 0], Fate::Killed),
            (libc::SYS_open, [0; 6], Fate::Killed),
            (libc::SYS_mmap, [0, 4096, 0, anonymous, -1, 0], went(0)),
            (
                libc::SYS_mmap,
                [0, 4096, exec, anonymous, -1, 0],
                Fate::Killed,
            ),
            (libc::SYS_mprotect, [0, 0, 0, 0, 0, 0], went(0)),
            (libc::SYS_mprotect, [0, 0, exec, 0, 0, 0], Fate::Killed),
            (
                libc::SYS_ioctl,
                [-1, libc::FIONBIO as c_long, 0, 0, 0, 0],
                went(libc::EBADF),
            ),
            // (the kernel looks at the low words of these alone)
            (
                libc::SYS_ioctl,
                [-1, libc::FIONBIO as c_long + high, 0, 0, 0, 0],
                went(libc::EBADF),
            ),
            (
                libc::SYS_ioctl,
                [-1, libc::TIOCSTI as c_long, 0, 0, 0, 0],
                Fate::Killed,
            ),
            (
                libc::SYS_fcntl,
                [-1, c_long::from(libc::F_GET_SEALS), 0, 0, 0, 0],
                went(libc::EBADF),
            ),
            (
                libc::SYS_fcntl,
                [-1, c_long::from(libc::F_SETOWN), 0, 0, 0, 0],
                Fate::Killed,
            ),
            (
                libc::SYS_memfd_create,
                [
                    0,
                    c_long::from(libc::MFD_CLOEXEC | libc::MFD_ALLOW_SEALING),
                    0,
                    0,
                    0,
                    0,
                ],
                went(libc::EFAULT),
            ),
            (
                libc::SYS_memfd_create,
                [0, c_long::from(libc::MFD_HUGETLB), 0, 0, 0, 0],
                Fate::Killed,
            ),
            (
                libc::SYS_prctl,
                [c_long::from(libc::PR_SET_DUMPABLE), 0, 0, 0, 0, 0],
                Fate::Killed,
            ),
        ] {
            assert_eq!(fate(call, arguments), due, "call {call}, {arguments:?}");
        }
    }
}

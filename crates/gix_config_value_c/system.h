/* What the C files share that call the system. */
#ifndef GCV_SYSTEM_H
#define GCV_SYSTEM_H

#include <errno.h>
#include <fcntl.h>
#include <sys/stat.h>
#include <sys/syscall.h>
#include <unistd.h>

/* What the system knows of a file, or of a link if `flags` says AT_SYMLINK_NOFOLLOW. It asks the kernel, whose struct
 * this is, since a program that calls glibc's own stat needs a glibc of 2021. */
static inline int is_known(const char *name, int flags, struct stat *to)
{
    return syscall(SYS_newfstatat, AT_FDCWD, name, to, flags) == 0;
}

/* Why the system has refused a call: for want of memory, or otherwise this. */
static inline gcv_status refusal(gcv_status status)
{
    return errno == ENOMEM ? GCV_NO_MEMORY : status;
}

#endif

/* A network that a program can't trust. Loaded by LD_PRELOAD. A socket is bound at 127.0.0.1 and nowhere else. Where STRANGER stands
   in the environment, each connection comes from another port than it tells; where ALTERED does, the bytes at offset 28 of what
   comes back over a connection that the program made is another: that is in the number of the body {"n": number} of a message. */
#define _GNU_SOURCE
#include <arpa/inet.h>
#include <dlfcn.h>
#include <errno.h>
#include <netinet/in.h>
#include <stdlib.h>
#include <sys/socket.h>
#include <unistd.h>

static int made = -1;
static long received;

int bind(int fd, const struct sockaddr *address, socklen_t len)
{
    int (*next)(int, const struct sockaddr *, socklen_t) = dlsym(RTLD_NEXT, "bind");
    const struct sockaddr_in *at = (const struct sockaddr_in *)address;
    if (at->sin_family != AF_INET || at->sin_addr.s_addr != htonl(INADDR_LOOPBACK)) {
        errno = EADDRNOTAVAIL;
        return -1;
    }
    return next(fd, address, len);
}

int accept4(int fd, struct sockaddr *address, socklen_t *len, int flags)
{
    int (*next)(int, struct sockaddr *, socklen_t *, int) = dlsym(RTLD_NEXT, "accept4");
    int accepted = next(fd, address, len, flags);
    if (accepted >= 0 && getenv("STRANGER"))
        ((struct sockaddr_in *)address)->sin_port ^= 1;
    return accepted;
}

int connect(int fd, const struct sockaddr *address, socklen_t len)
{
    int (*next)(int, const struct sockaddr *, socklen_t) = dlsym(RTLD_NEXT, "connect");
    made = fd;
    return next(fd, address, len);
}

static ssize_t altered(int fd, char *bytes, ssize_t n)
{
    if (fd != made || n <= 0)
        return n;
    if (getenv("ALTERED") && received <= 28 && 28 < received + n)
        bytes[28 - received] ^= 1;
    received += n;
    return n;
}

ssize_t read(int fd, void *bytes, size_t size)
{
    ssize_t (*next)(int, void *, size_t) = dlsym(RTLD_NEXT, "read");
    return altered(fd, bytes, next(fd, bytes, size));
}

ssize_t recv(int fd, void *bytes, size_t size, int flags)
{
    ssize_t (*next)(int, void *, size_t, int) = dlsym(RTLD_NEXT, "recv");
    return altered(fd, bytes, next(fd, bytes, size, flags));
}

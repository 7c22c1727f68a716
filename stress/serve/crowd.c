/* Stand-ins for clients, if the system doesn't let a process have so many open files. Once there is a file `crowd` in the working
   folder, and no other client waits to be accepted, CROWD of them are accepted; they never send anything and take all that is sent.
   After the last of them there is a file `full`. */
#define _GNU_SOURCE
#include <dlfcn.h>
#include <errno.h>
#include <fcntl.h>
#include <netinet/in.h>
#include <stdarg.h>
#include <stdlib.h>
#include <string.h>
#include <sys/epoll.h>
#include <sys/socket.h>
#include <unistd.h>

#define FIRST 10000000

static long made = 0;

static long crowd(void) {
    const char *number = getenv("CROWD");
    return number && access("crowd", F_OK) == 0 ? atol(number) : 0;
}

int accept4(int fd, struct sockaddr *address, socklen_t *length, int flags) {
    static int (*real)(int, struct sockaddr *, socklen_t *, int);
    if (!real) real = dlsym(RTLD_NEXT, "accept4");
    int got = real(fd, address, length, flags);
    if (got >= 0 || errno != EAGAIN) return got;
    if (made >= crowd()) { errno = EAGAIN; return -1; }
    struct sockaddr_in from = {.sin_family = AF_INET, .sin_port = htons(1), .sin_addr = {htonl(INADDR_LOOPBACK)}};
    if (address && length) { memcpy(address, &from, sizeof from); *length = sizeof from; }
    made += 1;
    if (made == crowd()) close(creat("full", 0644));
    return FIRST + made - 1;
}

int epoll_ctl(int poll, int op, int fd, struct epoll_event *event) {
    static int (*real)(int, int, int, struct epoll_event *);
    if (!real) real = dlsym(RTLD_NEXT, "epoll_ctl");
    return fd >= FIRST ? 0 : real(poll, op, fd, event);
}

int setsockopt(int fd, int level, int name, const void *value, socklen_t length) {
    static int (*real)(int, int, int, const void *, socklen_t);
    if (!real) real = dlsym(RTLD_NEXT, "setsockopt");
    return fd >= FIRST ? 0 : real(fd, level, name, value, length);
}

int ioctl(int fd, unsigned long request, ...) {
    static int (*real)(int, unsigned long, ...);
    if (!real) real = dlsym(RTLD_NEXT, "ioctl");
    va_list more;
    va_start(more, request);
    void *argument = va_arg(more, void *);
    va_end(more);
    return fd >= FIRST ? 0 : real(fd, request, argument);
}

ssize_t recv(int fd, void *buffer, size_t length, int flags) {
    static ssize_t (*real)(int, void *, size_t, int);
    if (!real) real = dlsym(RTLD_NEXT, "recv");
    if (fd >= FIRST) { errno = EAGAIN; return -1; }
    return real(fd, buffer, length, flags);
}

ssize_t send(int fd, const void *bytes, size_t length, int flags) {
    static ssize_t (*real)(int, const void *, size_t, int);
    if (!real) real = dlsym(RTLD_NEXT, "send");
    return fd >= FIRST ? (ssize_t)length : real(fd, bytes, length, flags);
}

int close(int fd) {
    static int (*real)(int);
    if (!real) real = dlsym(RTLD_NEXT, "close");
    return fd >= FIRST ? 0 : real(fd);
}

/* A plain echo of lines over epoll, for comparison: echo PORT. */
#include <netinet/in.h>
#include <netinet/tcp.h>
#include <stdlib.h>
#include <sys/epoll.h>
#include <sys/socket.h>
#include <unistd.h>

int main(int count, char **words) {
    int listener = socket(AF_INET, SOCK_STREAM, 0), one = 1, poll = epoll_create1(0);
    struct sockaddr_in at = {.sin_family = AF_INET, .sin_port = htons(atoi(words[1])), .sin_addr = {htonl(INADDR_LOOPBACK)}};
    setsockopt(listener, SOL_SOCKET, SO_REUSEADDR, &one, sizeof one);
    if (count != 2 || bind(listener, (struct sockaddr *)&at, sizeof at) || listen(listener, 128)) return 1;
    struct epoll_event wanted = {.events = EPOLLIN, .data.fd = listener}, found[256];
    epoll_ctl(poll, EPOLL_CTL_ADD, listener, &wanted);
    static char buffer[4096];
    for (;;) {
        int ready = epoll_wait(poll, found, 256, -1);
        for (int k = 0; k < ready; k++) {
            int from = found[k].data.fd;
            if (from == listener) {
                wanted.data.fd = accept(listener, 0, 0);
                setsockopt(wanted.data.fd, IPPROTO_TCP, TCP_NODELAY, &one, sizeof one);
                epoll_ctl(poll, EPOLL_CTL_ADD, wanted.data.fd, &wanted);
                continue;
            }
            ssize_t got = read(from, buffer, sizeof buffer);
            if (got <= 0 || write(from, buffer, got) != got) close(from);
        }
    }
}

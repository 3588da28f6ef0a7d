/*
 * Takes posts at a loopback port: take PORT. Each connection has one, is answered 200 once its whole body came, and is closed. What came
 * isn't kept.
 */
#define _GNU_SOURCE
#include <arpa/inet.h>
#include <netinet/in.h>
#include <stdlib.h>
#include <string.h>
#include <sys/socket.h>
#include <unistd.h>

static char held[1 << 24];

static void taken(int file)
{
    static const char answer[] = "HTTP/1.1 200 OK\r\nContent-Length: 0\r\nConnection: close\r\n\r\n";
    size_t size = 0, whole = 0;
    while (!whole || size < whole) {
        ssize_t more = recv(file, held + size, sizeof held - 1 - size, 0);
        if (more <= 0)
            return;
        size += more;
        held[size] = 0;
        char *end = whole ? NULL : memmem(held, size, "\r\n\r\n", 4);
        if (end) {
            char *length = strcasestr(held, "\r\nContent-Length:");
            whole = end + 4 - held + (length && length < end ? strtoul(length + 17, NULL, 10) : 0);
        }
    }
    send(file, answer, sizeof answer - 1, MSG_NOSIGNAL);
}

int main(int count, char **words)
{
    if (count != 2)
        return 2;
    struct sockaddr_in at = {.sin_family = AF_INET, .sin_port = htons(atoi(words[1])), .sin_addr.s_addr = htonl(INADDR_LOOPBACK)};
    int listener = socket(AF_INET, SOCK_STREAM, 0), on = 1;
    setsockopt(listener, SOL_SOCKET, SO_REUSEADDR, &on, sizeof on);
    if (bind(listener, (struct sockaddr *)&at, sizeof at) < 0 || listen(listener, 128) < 0)
        return 1;
    for (;;) {
        int file = accept(listener, NULL, NULL);
        if (file >= 0) {
            taken(file);
            close(file);
        }
    }
}

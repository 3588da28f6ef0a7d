/*
 * Receives datagrams at a port of this machine and writes what it got to its output, as plainly as that can be done:
 * receive PORT. At a datagram of one byte it ends, and tells on standard error that byte's number among all that were received.
 */
#include <arpa/inet.h>
#include <stdio.h>
#include <stdlib.h>
#include <unistd.h>

static unsigned char buffer[65535];

int main(int count, char **words)
{
    struct sockaddr_in at = {.sin_family = AF_INET, .sin_addr.s_addr = htonl(INADDR_LOOPBACK)};
    at.sin_port = htons(count > 1 ? (unsigned short)atoi(words[1]) : 0);
    int post = socket(AF_INET, SOCK_DGRAM, 0);
    if (post < 0 || bind(post, (struct sockaddr *)&at, sizeof at) < 0)
        return 5;
    for (long received = 0;; received++) {
        ssize_t size = recvfrom(post, buffer, sizeof buffer, 0, NULL, NULL);
        if (size < 0)
            return 5;
        if (size == 1) {
            fprintf(stderr, "datagram %ld: the last one\n", received + 1);
            return 0;
        }
        for (ssize_t at = 0, done; at < size; at += done)
            if ((done = write(STDOUT_FILENO, buffer + at, (size_t)(size - at))) < 0)
                return 6;
    }
}

/*
 * Sends a datagram, of which the bytes are standard input, to a port of this machine again and again:
 * send PORT RATE SECONDS MOST. At a rate of 0 it sends as fast as it can, else so many a second, evenly. It ends when the
 * seconds are over or the most were sent, and tells how many it sent, and in how many seconds.
 */
#include <arpa/inet.h>
#include <stdio.h>
#include <stdlib.h>
#include <time.h>
#include <unistd.h>

static unsigned char text[65536];

static double now(void)
{
    struct timespec at;
    clock_gettime(CLOCK_MONOTONIC, &at);
    return (double)at.tv_sec + (double)at.tv_nsec / 1e9;
}

int main(int count, char **words)
{
    if (count != 5)
        return 2;
    struct sockaddr_in to = {.sin_family = AF_INET, .sin_addr.s_addr = htonl(INADDR_LOOPBACK)};
    to.sin_port = htons((unsigned short)atoi(words[1]));
    double rate = atof(words[2]), seconds = atof(words[3]);
    long most = atol(words[4]), sent = 0;
    size_t size = 0;
    ssize_t came;
    while ((came = read(STDIN_FILENO, text + size, sizeof text - size)) > 0)
        size += (size_t)came;
    int post = socket(AF_INET, SOCK_DGRAM, 0);
    if (post < 0 || connect(post, (struct sockaddr *)&to, sizeof to) < 0)
        return 5;
    double begin = now(), at = begin;
    for (; sent < most && at - begin < seconds; at = now()) {
        if (rate > 0 && (double)sent > (at - begin) * rate)
            continue;
        if (send(post, text, size, 0) < 0)
            return 5;
        sent++;
    }
    printf("%ld %.6f\n", sent, at - begin);
    return 0;
}

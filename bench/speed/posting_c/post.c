/*
 * Posts the body on its input to a loopback port again and again: post PORT PATH TYPE CONNECTIONS POSTS. It opens so many connections,
 * one after the other, and posts so often over each, each post once the answer to the one before came. It prints how many answers
 * had a status of 200 to 299 and how many another, the seconds from the first connection to the last answer, and of these the seconds
 * in which the first answers of the connections were waited for. It ends with 1 where a connection breaks.
 */
#define _GNU_SOURCE
#include <arpa/inet.h>
#include <netinet/in.h>
#include <netinet/tcp.h>
#include <stdio.h>
#include <stdlib.h>
#include <string.h>
#include <sys/socket.h>
#include <time.h>
#include <unistd.h>

static char request[1 << 20], answer[1 << 24];

static double now(void)
{
    struct timespec at;
    clock_gettime(CLOCK_MONOTONIC, &at);
    return at.tv_sec + at.tv_nsec / 1e9;
}

static void broke(const char *why)
{
    perror(why);
    exit(1);
}

static int connected(int port)
{
    struct sockaddr_in at = {.sin_family = AF_INET, .sin_port = htons(port), .sin_addr.s_addr = htonl(INADDR_LOOPBACK)};
    int file = socket(AF_INET, SOCK_STREAM, 0), on = 1;
    if (file < 0 || connect(file, (struct sockaddr *)&at, sizeof at) < 0)
        broke("connect");
    setsockopt(file, IPPROTO_TCP, TCP_NODELAY, &on, sizeof on);
    return file;
}

/* Reads one answer, and gives its status. */
static int answered(int file)
{
    size_t held = 0, whole = 0;
    while (!whole || held < whole) {
        ssize_t more = recv(file, answer + held, sizeof answer - 1 - held, 0);
        if (more <= 0)
            broke("recv");
        held += more;
        answer[held] = 0;
        char *end = strstr(answer, "\r\n\r\n"), *length = strcasestr(answer, "\r\nContent-Length:");
        if (!whole && end)
            whole = end + 4 - answer + (length && length < end ? strtoul(length + 17, NULL, 10) : 0);
    }
    return atoi(answer + 9);
}

int main(int count, char **words)
{
    static char body[1 << 19];
    if (count != 6)
        return 2;
    size_t size = fread(body, 1, sizeof body, stdin);
    int head = snprintf(request, sizeof request, "POST %s HTTP/1.1\r\nHost: x\r\nContent-Type: %s\r\nContent-Length: %zu\r\n\r\n", words[2], words[3], size);
    memcpy(request + head, body, size);
    size += head;
    long good = 0, bad = 0, connections = atol(words[4]), posts = atol(words[5]);
    double begin = now(), waited = 0;
    for (long i = 0; i < connections; i++) {
        double from = now();
        int file = connected(atoi(words[1]));
        for (long j = 0; j < posts; j++) {
            for (size_t sent = 0; sent < size;) {
                ssize_t more = send(file, request + sent, size - sent, MSG_NOSIGNAL);
                if (more <= 0)
                    broke("send");
                sent += more;
            }
            int status = answered(file);
            *(status / 100 == 2 ? &good : &bad) += 1;
            if (j == 0)
                waited += now() - from;
        }
        close(file);
    }
    printf("%ld %ld %.6f %.6f\n", good, bad, now() - begin, waited);
    return 0;
}

/*
 * Stands in front of the C library's calls to the system and lets one of them fail, as the environment says:
 *   FAIL_CALL    the call: read, write, recv, recvfrom, send, accept4, connect, setsockopt, listen, bind or socket
 *   FAIL_FIRST   the first of these that is disturbed, from 1; 0 disturbs none
 *   FAIL_EVERY   0: no other; 1: each one behind it as well; 2: every second one behind it
 *   FAIL_WITH    the number of the error; -1: one byte is given or taken instead; -2: none is; of a recvfrom -1 is one byte of the
 *                datagram, whose others are lost, and -2 an empty one before it
 *   FAIL_MOST    how many bytes any read, write, recv or send gives or takes at most, and a recv waits for; 0: as many as it does
 *   SHIM_MARKS   the descriptor to which a byte is written for each FAIL_CALL: '.' where it wasn't disturbed, else the call's
 *                descriptor as a digit, or 's' for 3 and above
 * Calls are counted from where the program's own code begins. A program that hangs is ended by SIGALRM.
 */
#define _GNU_SOURCE
#include <errno.h>
#include <netinet/in.h>
#include <stddef.h>
#include <stdlib.h>
#include <string.h>
#include <sys/socket.h>
#include <sys/syscall.h>
#include <sys/types.h>
#include <unistd.h>

static long called, first, every, with, most;
static int marks = -1;
static const char *name = "";

static long told(const char *word)
{
    const char *value = getenv(word);
    return value ? strtol(value, NULL, 10) : 0;
}

__attribute__((constructor)) static void begin(void)
{
    first = told("FAIL_FIRST");
    every = told("FAIL_EVERY");
    with = told("FAIL_WITH");
    most = told("FAIL_MOST");
    name = getenv("FAIL_CALL") ? getenv("FAIL_CALL") : "";
    marks = getenv("SHIM_MARKS") ? (int)told("SHIM_MARKS") : -1;
    alarm(30);
}

/* Whether this call is disturbed. */
static int disturbed(const char *call, int file)
{
    if (marks < 0 || strcmp(call, name) != 0)
        return 0;
    called++;
    int is = called == first || (first && every && called > first && (called - first) % every == 0);
    char mark = !is ? '.' : file > 2 ? 's' : (char)('0' + file);
    syscall(SYS_write, marks, &mark, 1);
    return is;
}

/* How many bytes a call gives or takes at most; -1 where it fails. */
static ssize_t at_most(const char *call, int file, size_t size)
{
    size_t room = most && size > (size_t)most ? (size_t)most : size;
    if (!disturbed(call, file))
        return (ssize_t)room;
    if (with == -1)
        return size > 0;
    if (with == -2)
        return 0;
    errno = (int)with;
    return -1;
}

static int fails(const char *call, int file)
{
    if (!disturbed(call, file))
        return 0;
    errno = (int)with;
    return 1;
}

ssize_t read(int file, void *into, size_t size)
{
    ssize_t room = at_most("read", file, size);
    return room <= 0 ? room : syscall(SYS_read, file, into, room);
}

ssize_t write(int file, const void *from, size_t size)
{
    ssize_t room = at_most("write", file, size);
    return room <= 0 ? room : syscall(SYS_write, file, from, room);
}

ssize_t recv(int file, void *into, size_t size, int flags)
{
    ssize_t room = at_most("recv", file, size);
    return room <= 0 ? room : syscall(SYS_recvfrom, file, into, room, flags | (most ? MSG_WAITALL : 0), NULL, NULL);
}

/* An empty datagram of a client of this machine. */
static ssize_t empty(struct sockaddr *from, socklen_t *length)
{
    struct sockaddr_in client = {.sin_family = AF_INET};
    if (from && length) {
        memcpy(from, &client, *length < sizeof client ? *length : sizeof client);
        *length = sizeof client;
    }
    return 0;
}

ssize_t recvfrom(int file, void *into, size_t size, int flags, struct sockaddr *from, socklen_t *length)
{
    if (!disturbed("recvfrom", file))
        return syscall(SYS_recvfrom, file, into, size, flags, from, length);
    if (with == -1)
        return syscall(SYS_recvfrom, file, into, size > 0, flags, from, length);
    if (with == -2)
        return empty(from, length);
    errno = (int)with;
    return -1;
}

ssize_t send(int file, const void *from, size_t size, int flags)
{
    ssize_t room = at_most("send", file, size);
    return room <= 0 ? room : syscall(SYS_sendto, file, from, room, flags, NULL, 0);
}

int accept4(int file, struct sockaddr *address, socklen_t *size, int flags)
{
    return fails("accept4", file) ? -1 : (int)syscall(SYS_accept4, file, address, size, flags);
}

int connect(int file, const struct sockaddr *address, socklen_t size)
{
    return fails("connect", file) ? -1 : (int)syscall(SYS_connect, file, address, size);
}

int setsockopt(int file, int level, int option, const void *value, socklen_t size)
{
    return fails("setsockopt", file) ? -1 : (int)syscall(SYS_setsockopt, file, level, option, value, size);
}

int listen(int file, int waiting)
{
    return fails("listen", file) ? -1 : (int)syscall(SYS_listen, file, waiting);
}

int bind(int file, const struct sockaddr *address, socklen_t size)
{
    return fails("bind", file) ? -1 : (int)syscall(SYS_bind, file, address, size);
}

int socket(int domain, int type, int protocol)
{
    return fails("socket", 3) ? -1 : (int)syscall(SYS_socket, domain, type, protocol);
}

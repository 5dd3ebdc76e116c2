/* Stands before the C library, for connections.py: the system as a connection meets it. In the environment:
   ROOM     the buffer has room for so many bytes of the first reply, and for no more within the time that it is given
   WALL     the wall clock tells these seconds: before a client was accepted, after one was, after the second and so
            on; with each read it goes on by an hour
   FAILS    the name of a call, and how often it was called when it fails
   ENDLESS  a client that was told of the end has sent as many bytes as are asked for
   SYNC     a sync of a file takes so many seconds once a client was read
   CALLS    the file that gets a line for each call on a connection: its name, and what it gave */
#include <errno.h>
#include <stdio.h>
#include <stdlib.h>
#include <string.h>
#include <sys/socket.h>
#include <sys/syscall.h>
#include <sys/time.h>
#include <time.h>
#include <unistd.h>

enum { HOUR = 3600 };

static long accepted, reads, sends;
static int is_ended;

static ssize_t told(const char *name, ssize_t given)
{
    static FILE *file;
    char *path = getenv("CALLS");
    int error = errno;
    if (path && !file)
        file = fopen(path, "w");
    if (file)
        fprintf(file, "%s %zd\n", name, given);
    errno = error;
    return given;
}

static int fails(const char *name)
{
    static long called;
    char *text = getenv("FAILS"), wanted[32];
    long at;
    if (!text || sscanf(text, "%31s %ld", wanted, &at) != 2 || strcmp(wanted, name) || ++called != at)
        return 0;
    errno = EIO;
    return 1;
}

int clock_gettime(clockid_t clock, struct timespec *time)
{
    char *wall = getenv("WALL");
    if (fails(clock == CLOCK_REALTIME ? "realtime" : "monotonic"))
        return -1;
    if (clock != CLOCK_REALTIME || !wall)
        return syscall(SYS_clock_gettime, clock, time);
    double seconds = strtod(wall, &wall);
    for (long client = 0; client < accepted && *wall; client++)
        seconds = strtod(wall, &wall);
    time->tv_sec = seconds;
    time->tv_nsec = (seconds - time->tv_sec) * 1e9;
    time->tv_sec += reads * HOUR;
    return 0;
}

int accept4(int listener, struct sockaddr *from, socklen_t *size, int flags)
{
    int client = syscall(SYS_accept4, listener, from, size, flags);
    if (fails("accept4")) {
        close(client);
        return -1;
    }
    accepted++;
    reads = is_ended = 0;
    told("accept4", 0);
    return client;
}

int setsockopt(int to, int level, int name, const void *value, socklen_t size)
{
    if (fails(name == SO_RCVTIMEO ? "SO_RCVTIMEO" : name == SO_SNDTIMEO ? "SO_SNDTIMEO" : "setsockopt"))
        return -1;
    return syscall(SYS_setsockopt, to, level, name, value, size);
}

static int synced(int call, int file)
{
    char *seconds = getenv("SYNC");
    if (seconds && reads)
        sleep(atol(seconds));
    return syscall(call, file);
}

int fsync(int file) { return synced(SYS_fsync, file); }
int fdatasync(int file) { return synced(SYS_fdatasync, file); }

ssize_t recv(int from, void *bytes, size_t count, int flags)
{
    if (fails("recv"))
        return -1;
    reads++;
    if (is_ended && getenv("ENDLESS"))
        return told("recv", count);
    return told("recv", recvfrom(from, bytes, count, flags, 0, 0));
}

ssize_t send(int to, const void *bytes, size_t count, int flags)
{
    char *room = getenv("ROOM");
    struct timeval wait = { 0 };
    socklen_t size = sizeof wait;
    if (fails("send"))
        return -1;
    if (!room || ++sends > 2)
        return told("send", sendto(to, bytes, count, flags, 0, 0));
    if (sends == 1 && (size_t)atol(room) < count)
        return sendto(to, bytes, atol(room), flags, 0, 0);
    getsockopt(to, SOL_SOCKET, SO_SNDTIMEO, &wait, &size);
    if (!wait.tv_sec && !wait.tv_usec)
        pause();
    sleep(wait.tv_sec);
    usleep(wait.tv_usec);
    errno = EAGAIN;
    return -1;
}

int shutdown(int to, int how)
{
    is_ended = 1;
    return told("shutdown", syscall(SYS_shutdown, to, how));
}

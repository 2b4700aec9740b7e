/* How long lines take from a server to its clients, over connections that are open already.
 *
 *     latency LINES PAUSE SERVER CLIENT ..      the descriptors of the server's connection and of each client's
 *
 * It sends a line to the server's connection each PAUSE microseconds, and each client has to be told each line, and nothing
 * else. It never sleeps: it takes a processor for itself, so that what it measures isn't how soon it is woken. It prints the
 * nanoseconds from right before a line is sent until a client has it: the median, what 99 of 100 take at most, and the most.
 */
#include <netinet/in.h>
#include <netinet/tcp.h>
#include <stdio.h>
#include <stdlib.h>
#include <string.h>
#include <sys/epoll.h>
#include <sys/socket.h>
#include <time.h>

#define MOST_CLIENTS 1024
#define PATIENCE 30000000000ull

struct client {
    int socket;
    /* how many lines came */
    size_t lines;
};

static struct client clients[MOST_CLIENTS];
static unsigned long long *sent, *took;
static size_t taken;

static unsigned long long now(void)
{
    struct timespec it;
    clock_gettime(CLOCK_MONOTONIC, &it);
    return (unsigned long long)it.tv_sec * 1000000000ull + (unsigned long long)it.tv_nsec;
}

static void fail(const char *why)
{
    fprintf(stderr, "latency: %s\n", why);
    exit(3);
}

/* Counts the lines that a client has by that moment. */
static void hear(struct client *client, size_t most, unsigned long long at)
{
    static char piece[65536];
    ssize_t came = recv(client->socket, piece, sizeof piece, MSG_DONTWAIT);
    if (came <= 0)
        fail("a client was closed");
    for (char *end = piece; (end = memchr(end, '\n', (size_t)(piece + came - end))); end++) {
        if (client->lines == most)
            fail("a client was told more than was sent");
        took[taken++] = at - sent[client->lines++];
    }
}

/* Hears what came, if anything did. */
static void look(int set, size_t most)
{
    static struct epoll_event ready[MOST_CLIENTS];
    int count = epoll_wait(set, ready, MOST_CLIENTS, 0);
    unsigned long long at = now();
    for (int i = 0; i < count; i++)
        hear(ready[i].data.ptr, most, at);
}

static void say(int server, size_t number)
{
    char line[128];
    int length = snprintf(line, sizeof line, ":bob!bob@host.example PRIVMSG #a :%040zu\r\n", number);
    sent[number] = now();
    if (send(server, line, (size_t)length, 0) != length)
        fail("the server's connection was closed");
}

static int rises(const void *one, const void *other)
{
    unsigned long long a = *(const unsigned long long *)one, b = *(const unsigned long long *)other;
    return (a > b) - (a < b);
}

/* Begins to listen to the clients of these descriptors. */
static int listen_to(char **words, size_t count)
{
    int set = epoll_create1(0);
    for (size_t i = 0; i < count; i++) {
        clients[i].socket = atoi(words[i]);
        struct epoll_event event = { .events = EPOLLIN, .data.ptr = &clients[i] };
        if (epoll_ctl(set, EPOLL_CTL_ADD, clients[i].socket, &event))
            fail("a client can't be listened to");
    }
    return set;
}

int main(int count, char **words)
{
    if (count < 5 || count - 4 > MOST_CLIENTS)
        return 2;
    const size_t lines = strtoul(words[1], NULL, 10), listening = (size_t)count - 4, all = lines * listening;
    const unsigned long long pause = strtoull(words[2], NULL, 10) * 1000;
    const int server = atoi(words[3]), set = listen_to(words + 4, listening), yes = 1;
    sent = calloc(lines, sizeof *sent);
    took = calloc(all, sizeof *took);
    if (!sent || !took || !lines || setsockopt(server, IPPROTO_TCP, TCP_NODELAY, &yes, sizeof yes))
        return 3;
    for (size_t number = 0; number < lines; number++) {
        say(server, number);
        while (now() < sent[number] + pause)
            look(set, number + 1);
    }
    for (unsigned long long end = now() + PATIENCE; taken < all;) {
        look(set, lines);
        if (now() > end)
            fail("not all lines came");
    }
    qsort(took, all, sizeof *took, rises);
    printf("%llu %llu %llu\n", took[all / 2], took[all * 99 / 100], took[all - 1]);
    return 0;
}

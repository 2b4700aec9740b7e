/* Reads from one connection and writes what came to others, in the same pieces: what a bouncer can't do with less.
 *
 *     relay SERVER CLIENT [COUNT]      takes so many connections at port CLIENT of 127.0.0.1, one if nothing else is said,
 *                                      and then connects to port SERVER
 */
#include <arpa/inet.h>
#include <stdlib.h>
#include <sys/socket.h>
#include <unistd.h>

#define MOST_CLIENTS 1024

static struct sockaddr_in at(const char *port)
{
    struct sockaddr_in address = { .sin_family = AF_INET, .sin_port = htons((unsigned short)atoi(port)) };
    address.sin_addr.s_addr = htonl(INADDR_LOOPBACK);
    return address;
}

/* Writes a piece. Whether all of it went. */
static int give(int to, const char *piece, ssize_t length)
{
    for (ssize_t gone = 0; gone < length;) {
        ssize_t more = write(to, piece + gone, (size_t)(length - gone));
        if (more <= 0)
            return 0;
        gone += more;
    }
    return 1;
}

int main(int count, char **words)
{
    static char piece[16384];
    static int to[MOST_CLIENTS];
    const int yes = 1;
    if (count != 3 && count != 4)
        return 2;
    struct sockaddr_in server = at(words[1]), client = at(words[2]);
    const int clients = count == 4 ? atoi(words[3]) : 1;
    int listener = socket(AF_INET, SOCK_STREAM, 0), from = socket(AF_INET, SOCK_STREAM, 0);
    setsockopt(listener, SOL_SOCKET, SO_REUSEADDR, &yes, sizeof yes);
    if (clients > MOST_CLIENTS || bind(listener, (struct sockaddr *)&client, sizeof client) || listen(listener, clients))
        return 3;
    for (int i = 0; i < clients; i++)
        if ((to[i] = accept(listener, NULL, NULL)) < 0)
            return 3;
    if (connect(from, (struct sockaddr *)&server, sizeof server))
        return 3;
    for (;;) {
        ssize_t came = read(from, piece, sizeof piece);
        if (came <= 0)
            return 0;
        for (int i = 0; i < clients; i++)
            if (!give(to[i], piece, came))
                return 0;
    }
}

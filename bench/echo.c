/* A server that reads 16,384 bytes at a time, looks for the blank line behind each head, passes over the body, and writes the
 * same reply to each message, one write a message, which leaves at once. Its words are the reply, how many bytes a body has,
 * a port, and how many connections over loopback it serves, one after the other. */
#define _GNU_SOURCE
#include <arpa/inet.h>
#include <netinet/tcp.h>
#include <stdlib.h>
#include <string.h>
#include <sys/socket.h>
#include <unistd.h>

static char held[16384];
static const char *reply;
static size_t length, body;

static const int yes = 1;

static void serve(int client) {
    size_t start = 0, end = 0;
    setsockopt(client, IPPROTO_TCP, TCP_NODELAY, &yes, sizeof yes);
    for (;;) {
        char *blank = memmem(held + start, end - start, "\r\n\r\n", 4);
        size_t next = blank ? (size_t)(blank + 4 - held) + body : sizeof held + 1;
        if (next <= end) {
            start = next;
            if (write(client, reply, length) < 0) return;
            continue;
        }
        memmove(held, held + start, end - start);
        end -= start;
        start = 0;
        ssize_t came = read(client, held + end, sizeof held - end);
        if (came <= 0) return;
        end += came;
    }
}

static int listening(int port) {
    int at = socket(AF_INET, SOCK_STREAM, 0);
    struct sockaddr_in here = {.sin_family = AF_INET, .sin_port = htons(port), .sin_addr.s_addr = htonl(INADDR_LOOPBACK)};
    setsockopt(at, SOL_SOCKET, SO_REUSEADDR, &yes, sizeof yes);
    return bind(at, (struct sockaddr *)&here, sizeof here) || listen(at, 16) ? -1 : at;
}

int main(int words, char **word) {
    if (words != 5) return 2;
    reply = word[1];
    length = strlen(reply);
    body = atol(word[2]);
    int at = listening(atoi(word[3]));
    for (long left = atol(word[4]); left > 0; left--) {
        int client = accept(at, 0, 0);
        if (client < 0) return 1;
        serve(client);
        close(client);
    }
    return 0;
}

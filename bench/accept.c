/* A server that only accepts, reads, writes and closes, and a client for any server on loopback: cc -O2 accept.c

     accept serve N REPLY                               prints where it listens, and serves N connections one after the other: one read,
                                                        and the bytes of the file REPLY
     accept ask PORT CLIENTS N REQUEST REPLY [..]       CLIENTS processes make N connections together, each one after the other: by turns
                                                        each REQUEST is sent, and what comes has to be the REPLY behind it. Prints the
                                                        seconds */
#include <arpa/inet.h>
#include <netinet/in.h>
#include <stdio.h>
#include <stdlib.h>
#include <string.h>
#include <sys/socket.h>
#include <sys/wait.h>
#include <time.h>
#include <unistd.h>

enum { BACKLOG = 128, BYTES = 1 << 16, CLIENTS = 64 };

struct text {
    char bytes[BYTES];
    size_t size;
};

static void want(int is_well, const char *what)
{
    if (!is_well) {
        perror(what);
        exit(1);
    }
}

static struct text text_at(const char *path)
{
    static struct text text;
    FILE *file = fopen(path, "rb");

    want(file != NULL, path);
    text.size = fread(text.bytes, 1, BYTES, file);
    fclose(file);
    return text;
}

static struct sockaddr_in loopback(int port)
{
    struct sockaddr_in address = {0};

    address.sin_family = AF_INET;
    address.sin_addr.s_addr = htonl(INADDR_LOOPBACK);
    address.sin_port = htons((unsigned short)port);
    return address;
}

static void serve(long count, const struct text *reply)
{
    static char piece[BYTES];
    struct sockaddr_in address = loopback(0);
    socklen_t size = sizeof address;
    int listener = socket(AF_INET, SOCK_STREAM, 0);

    want(bind(listener, (struct sockaddr *)&address, size) == 0, "bind");
    want(listen(listener, BACKLOG) == 0, "listen");
    want(getsockname(listener, (struct sockaddr *)&address, &size) == 0, "name");
    printf("listening on 127.0.0.1:%d\n", ntohs(address.sin_port));
    fflush(stdout);
    while (count-- > 0) {
        int peer = accept(listener, NULL, NULL);

        want(peer >= 0, "accept");
        want(read(peer, piece, sizeof piece) > 0, "read");
        want(write(peer, reply->bytes, reply->size) == (ssize_t)reply->size, "write");
        close(peer);
    }
}

/* One connection: its reply must be the expected one. */
static void ask(int port, const struct text *request, const struct text *reply)
{
    static char told[BYTES];
    struct sockaddr_in address = loopback(port);
    size_t size = 0;
    ssize_t count;
    int peer = socket(AF_INET, SOCK_STREAM, 0);

    want(connect(peer, (struct sockaddr *)&address, sizeof address) == 0, "connect");
    want(write(peer, request->bytes, request->size) == (ssize_t)request->size, "write");
    while ((count = read(peer, told + size, BYTES - size)) > 0)
        size += (size_t)count;
    want(count == 0, "read");
    close(peer);
    if (size != reply->size || memcmp(told, reply->bytes, size) != 0) {
        fprintf(stderr, "another reply: %.*s\n", (int)size, told);
        exit(1);
    }
}

static double now(void)
{
    struct timespec time;

    clock_gettime(CLOCK_MONOTONIC, &time);
    return (double)time.tv_sec + (double)time.tv_nsec / 1e9;
}

/* The texts are requests and replies, alternately. */
static double asked(int port, int clients, long count, const struct text *texts, int pairs)
{
    double begun = now();
    int status, is_well = 1;

    for (int client = 0; client < clients; client++) {
        pid_t process = fork();

        want(process >= 0, "fork");
        if (process > 0)
            continue;
        for (long n = client; n < count; n += clients)
            ask(port, &texts[n % pairs * 2], &texts[n % pairs * 2 + 1]);
        exit(0);
    }
    while (wait(&status) > 0)
        is_well = is_well && status == 0;
    if (!is_well)
        exit(1);
    return now() - begun;
}

int main(int count, char **words)
{
    static struct text texts[CLIENTS];
    int listed = count - 5;

    if (count == 4 && strcmp(words[1], "serve") == 0) {
        texts[0] = text_at(words[3]);
        serve(atol(words[2]), &texts[0]);
        return 0;
    }
    if (count < 7 || listed % 2 != 0 || listed > CLIENTS || strcmp(words[1], "ask") != 0)
        return 2;
    for (int place = 0; place < listed; place++)
        texts[place] = text_at(words[place + 5]);
    printf("%.9f\n", asked(atoi(words[2]), atoi(words[3]), atol(words[4]), texts, listed / 2));
    return 0;
}

/*
 * Clients in a closed loop, each with one call in flight: load KIND PORT CONNECTIONS SECONDS
 *
 *     idn    a query is device_write of *IDN? and device_read
 *     lock   the same, between device_lock, which waits for the lock, and device_unlock
 *     stb    a query is device_readstb
 *     echo   no VXI-11: the bytes of idn's calls, which the server sends back; a query is two calls
 *
 * Every reply is compared. It prints the queries per second, how many replies came, and how many are
 * lost: a reply differs, none comes within ten seconds, or the connection ends. A connection that
 * lost one is closed, and the others go on. idn is for one connection only: without the lock, clients
 * would interrupt each other's responses.
 * Status: 0 none is lost, 1 some are, or no connection or link is made, 2 the words are wrong.
 */
#include <arpa/inet.h>
#include <netinet/in.h>
#include <netinet/tcp.h>
#include <poll.h>
#include <stdint.h>
#include <stdio.h>
#include <stdlib.h>
#include <string.h>
#include <sys/socket.h>
#include <time.h>
#include <unistd.h>

enum { CREATE_LINK = 10, WRITE = 11, READ = 12, READSTB = 13, LOCK = 18, UNLOCK = 19 };
enum { CONNECTIONS = 16, STEPS = 4, LONGEST = 128, TIMEOUT = 10000, WAITLOCK = 1, END = 8 };

static const char name[] = "SCANVOLT,SV32,0,1.0\n";

struct message {
    unsigned char bytes[LONGEST];
    unsigned size;
};

/* A connection: its calls and their replies, the call in flight, and what has come of its reply. */
static struct connection {
    int socket;
    struct message calls[STEPS], replies[STEPS];
    unsigned step, came;
    uint32_t number;
    unsigned char reply[LONGEST];
} connections[CONNECTIONS];
static unsigned steps, queries, replies, lost;
static int echoes, polls, ending, under_way;

static void fail(const char *what)
{
    fprintf(stderr, "load: %s\n", what);
    exit(1);
}

static void set_word(unsigned char *place, uint32_t word)
{
    word = htonl(word);
    memcpy(place, &word, 4);
}

static uint32_t word_at(const unsigned char *place)
{
    uint32_t word;
    memcpy(&word, place, 4);
    return ntohl(word);
}

static void add_word(struct message *message, uint32_t word)
{
    set_word(message->bytes + message->size, word);
    message->size += 4;
}

static void add_opaque(struct message *message, const char *text)
{
    unsigned size = strlen(text);
    add_word(message, size);
    memcpy(message->bytes + message->size, text, size);
    message->size += (size + 3) / 4 * 4;
}

/* Writes the mark of a record into its first four bytes, which were left free for it. */
static struct message whole(struct message message)
{
    set_word(message.bytes, 0x80000000u | (message.size - 4));
    return message;
}

static struct message call(uint32_t procedure, unsigned count, const uint32_t *words,
                           const char *text)
{
    const uint32_t head[] = { 0, 0, 0, 2, 0x0607AF, 1, procedure, 0, 0, 0, 0 };
    struct message message = { .size = 0 };
    for (unsigned i = 0; i < 11; i++)
        add_word(&message, head[i]);
    for (unsigned i = 0; i < count; i++)
        add_word(&message, words[i]);
    if (text != NULL)
        add_opaque(&message, text);
    return whole(message);
}

/* A reply with error 0, then `count` words, then a text. */
static struct message reply(unsigned count, const uint32_t *words, const char *text)
{
    struct message message = { .size = 0 };
    add_word(&message, 0);
    add_word(&message, 0);
    add_word(&message, 1);
    for (unsigned i = 0; i < 4; i++)
        add_word(&message, 0);
    for (unsigned i = 0; i < count; i++)
        add_word(&message, words[i]);
    if (text != NULL)
        add_opaque(&message, text);
    return whole(message);
}

static void add_step(struct connection *to, struct message sent, struct message answered)
{
    to->calls[steps] = sent;
    to->replies[steps] = echoes ? sent : answered;
    steps++;
}

static void plan(struct connection *to, const char *kind, uint32_t link)
{
    const uint32_t none = 0, error_and_size[] = { 0, 6 }, error_and_end[] = { 0, 4 };
    const uint32_t written[] = { link, TIMEOUT, TIMEOUT, END };
    const uint32_t wanted[] = { link, 1024, TIMEOUT, TIMEOUT, 0, 0 };
    const uint32_t waiting[] = { link, WAITLOCK, TIMEOUT, TIMEOUT };
    steps = 0;
    if (strcmp(kind, "stb") == 0) {
        polls = 1;
        add_step(to, call(READSTB, 4, waiting, NULL), reply(2, (uint32_t[]){ 0, 0 }, NULL));
        return;
    }
    if (strcmp(kind, "lock") == 0)
        add_step(to, call(LOCK, 3, waiting, NULL), reply(1, &none, NULL));
    add_step(to, call(WRITE, 4, written, "*IDN?\n"), reply(2, error_and_size, NULL));
    add_step(to, call(READ, 6, wanted, NULL), reply(2, error_and_end, name));
    if (strcmp(kind, "lock") == 0)
        add_step(to, call(UNLOCK, 1, &link, NULL), reply(1, &none, NULL));
}

/* Nothing more is sent on the connection. */
static void leave(struct connection *of)
{
    under_way--;
    close(of->socket);
    of->socket = -1;
}

/* The reply to the call in flight is lost. */
static void lose(struct connection *of, const char *why)
{
    fprintf(stderr, "load: %s\n", why);
    lost++;
    leave(of);
}

static void send_step(struct connection *of)
{
    struct message *message = &of->calls[of->step];
    set_word(message->bytes + 4, ++of->number);
    set_word(of->replies[of->step].bytes + 4, of->number);
    if (send(of->socket, message->bytes, message->size, MSG_NOSIGNAL) != (ssize_t)message->size)
        lose(of, "a call isn't sent");
}

/* Takes bytes that came. After a whole reply sends the next call, but at the end no new query. */
static void receive(struct connection *of)
{
    const struct message *expected = &of->replies[of->step];
    ssize_t count = recv(of->socket, of->reply + of->came, expected->size - of->came, 0);
    if (count <= 0) {
        lose(of, "the connection ended");
        return;
    }
    of->came += count;
    if (of->came < expected->size)
        return;
    /* A status byte may have any value up to 255. */
    unsigned same = polls ? expected->size - 4 : expected->size;
    if (memcmp(of->reply, expected->bytes, same) != 0 || (polls && word_at(of->reply + same) > 255)) {
        lose(of, "a reply differs");
        return;
    }
    replies++;
    of->came = 0;
    of->step = (of->step + 1) % steps;
    queries += of->step == 0;
    if (ending && of->step == 0)
        leave(of);
    else
        send_step(of);
}

static void connect_to(struct connection *of, int port, const char *kind)
{
    const uint32_t wanted[] = { 1, 0, 0 };
    struct sockaddr_in address = { .sin_family = AF_INET, .sin_port = htons(port) };
    struct message first = call(CREATE_LINK, 3, wanted, "inst0");
    uint32_t link = 1;
    int on = 1;
    address.sin_addr.s_addr = htonl(INADDR_LOOPBACK);
    of->socket = socket(AF_INET, SOCK_STREAM, 0);
    if (connect(of->socket, (struct sockaddr *)&address, sizeof address) != 0)
        fail("no connection");
    setsockopt(of->socket, IPPROTO_TCP, TCP_NODELAY, &on, sizeof on);
    if (!echoes) {
        if (send(of->socket, first.bytes, first.size, MSG_NOSIGNAL) != (ssize_t)first.size ||
            recv(of->socket, of->reply, 44, MSG_WAITALL) != 44 || word_at(of->reply + 28) != 0)
            fail("no link");
        link = word_at(of->reply + 32);
    }
    plan(of, kind, link);
}

static double now(void)
{
    struct timespec time;
    clock_gettime(CLOCK_MONOTONIC, &time);
    return time.tv_sec + time.tv_nsec / 1e9;
}

/* Runs for some seconds, or at the end until no query is in flight. Returns queries per second. */
static double run(int count, double seconds)
{
    struct pollfd polled[CONNECTIONS];
    double begun = now(), time = begun;
    for (int i = 0; i < count; i++)
        polled[i] = (struct pollfd){ .fd = connections[i].socket, .events = POLLIN };
    queries = 0;
    for (; under_way > 0 && (ending || time < begun + seconds); time = now()) {
        int none = poll(polled, count, TIMEOUT) <= 0;
        for (int i = 0; i < count; i++) {
            if (none && polled[i].fd >= 0)
                lose(&connections[i], "no reply came");
            else if (polled[i].fd >= 0 && polled[i].revents != 0)
                receive(&connections[i]);
            polled[i].fd = connections[i].socket;
        }
    }
    return time > begun ? queries / (time - begun) : 0;
}

int main(int words, char **word)
{
    int port = words == 5 ? atoi(word[2]) : 0, count = words == 5 ? atoi(word[3]) : 0;
    if (port < 1 || count < 1 || count > CONNECTIONS) {
        fprintf(stderr, "usage: load idn|lock|stb|echo PORT CONNECTIONS SECONDS\n");
        return 2;
    }
    echoes = strcmp(word[1], "echo") == 0;
    for (int i = 0; i < count; i++)
        connect_to(&connections[i], port, word[1]);
    under_way = count;
    for (int i = 0; i < count; i++)
        send_step(&connections[i]);
    run(count, 0.2);
    double rate = run(count, atof(word[4]));
    ending = 1;
    run(count, 0);
    printf("%.0f %u %u\n", rate, replies, lost);
    return lost > 0;
}

/* A relay that sends a packet once it is whole, as a gateway between two protocols has to.

       storing FAR NEAR

   listens at port NEAR of 127.0.0.1 for one USB/IP client, behind whom a server is dialled at port FAR, and ends with
   either link. It knows of a packet how long it is, and nothing else: so it shows what storing alone costs. A read
   brings 65,536 bytes at most, straight into the memory in which packets lie; those that are whole go out in one call,
   and what is behind them is moved to the front. */
#define _GNU_SOURCE
#include <arpa/inet.h>
#include <endian.h>
#include <netinet/tcp.h>
#include <poll.h>
#include <stdint.h>
#include <stdio.h>
#include <stdlib.h>
#include <string.h>
#include <sys/socket.h>
#include <unistd.h>

#define PIECE 65536
#define HEAD 48
#define ROOM ((16 << 20) + HEAD + 2 * PIECE)
#define VERSION 0x0111
#define IMPORT_REQUEST 40
#define IMPORT_REPLY 320
#define SUBMIT 1
#define RET_SUBMIT 3
/* Where a URB packet has its number, its direction, and how many bytes of data its transfer has. */
#define NUMBER 4
#define DIRECTION 12
#define LENGTH 24
/* Directions are kept by a number's remainder: no more transfers are in flight. */
#define NUMBERS 65536

/* Whether the submit of a number asked for data. */
static char asks[NUMBERS];

struct way {
    int from, to, from_client;
    size_t there;
    unsigned char *bytes;
};

static uint32_t be32(const unsigned char *at)
{
    uint32_t value;
    memcpy(&value, at, 4);
    return be32toh(value);
}

/* How long the packet at the front is, or so much that it isn't there whole. */
static size_t size_of(const struct way *way, const unsigned char *at, size_t there)
{
    if (there >= 2 && at[0] == VERSION >> 8 && at[1] == (VERSION & 255))
        return way->from_client ? IMPORT_REQUEST : IMPORT_REPLY;
    if (there < HEAD)
        return HEAD;
    uint32_t command = be32(at), number = be32(at + NUMBER) % NUMBERS;
    if (command == SUBMIT)
        asks[number] = be32(at + DIRECTION) != 0;
    int has_data = command == SUBMIT ? !asks[number] : command == RET_SUBMIT && asks[number];
    return HEAD + (has_data ? be32(at + LENGTH) : 0);
}

static void send_all(int link, const unsigned char *bytes, size_t count)
{
    while (count) {
        ssize_t sent = send(link, bytes, count, MSG_NOSIGNAL);
        if (sent <= 0)
            exit(0);
        bytes += sent;
        count -= sent;
    }
}

static void move_on(struct way *way)
{
    ssize_t count = recv(way->from, way->bytes + way->there, PIECE, 0);
    if (count <= 0)
        exit(0);
    way->there += count;
    size_t whole = 0, size;
    while (whole < way->there && (size = size_of(way, way->bytes + whole, way->there - whole)) <= way->there - whole)
        whole += size;
    send_all(way->to, way->bytes, whole);
    way->there -= whole;
    memmove(way->bytes, way->bytes + whole, way->there);
}

static int tuned(int link)
{
    int on = 1;
    setsockopt(link, IPPROTO_TCP, TCP_NODELAY, &on, sizeof on);
    return link;
}

int main(int count, char **words)
{
    if (count != 3)
        return 1;
    struct sockaddr_in at = {.sin_family = AF_INET, .sin_port = htons(atoi(words[1]))};
    at.sin_addr.s_addr = htonl(INADDR_LOOPBACK);
    int far = socket(AF_INET, SOCK_STREAM, 0), door = socket(AF_INET, SOCK_STREAM, 0), on = 1;
    if (connect(far, (struct sockaddr *)&at, sizeof at))
        return 1;
    at.sin_port = htons(atoi(words[2]));
    setsockopt(door, SOL_SOCKET, SO_REUSEADDR, &on, sizeof on);
    if (bind(door, (struct sockaddr *)&at, sizeof at) || listen(door, 1))
        return 1;
    int near = tuned(accept(door, NULL, NULL));
    tuned(far);
    struct way ways[] = {{near, far, 1, 0, malloc(ROOM)}, {far, near, 0, 0, malloc(ROOM)}};
    struct pollfd links[] = {{near, POLLIN, 0}, {far, POLLIN, 0}};
    while (poll(links, 2, -1) > 0)
        for (int place = 0; place < 2; place++)
            if (links[place].revents)
                move_on(&ways[place]);
    return 0;
}

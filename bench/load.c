/* Peers on both sides of a gateway or a relay, which measure what is between them and not themselves.

       load MODE WAY IN_FLIGHT LENGTH SECONDS AT_ONCE NEAR [STAY]

   makes a door on 127.0.0.1 for what is between, prints its port, and dials port NEAR, where what is between listens.
   At NEAR it is a USB/IP client that imports the device and keeps IN_FLIGHT transfers of LENGTH bytes in flight for so
   many seconds. Behind its door it is, by MODE,

       gateway   a usbredir host that answers at once
       relay     a USB/IP server that answers at once, so that the same client is measured through a relay

   and WAY is out, in, both (every second transfer goes to the device), iso (transfers from the device, each of 8
   isochronous packets of LENGTH bytes) or interrupt. The device of the last two, which a gateway alone has, sends
   packets for as many transfers as the client has asked for, once its stream is started.

   Last it prints how many transfers were answered, and the seconds from the first request to the last answer. Each
   request and each answer is checked: its order, its number, its status, its length, and that its data begin with its
   number; the first that is wrong ends it with status 1, and so do 20 seconds in which nothing is answered. With STAY
   its links stay up for so many seconds behind that, in which nothing is sent.

   Each side has a thread that reads and one that writes. A reader takes what has come in one call. What is to be sent
   for that goes out with AT_ONCE packets in one call at most, where the isochronous packets of a transfer count as one.
   The reader sends it where it is short and the link takes it at once, so that a lone transfer wakes no thread beside
   the two that its packets wake; the rest is left to the writer, and so are a stream's packets. */
#define _GNU_SOURCE
#include <arpa/inet.h>
#include <endian.h>
#include <errno.h>
#include <netinet/in.h>
#include <netinet/tcp.h>
#include <pthread.h>
#include <stdarg.h>
#include <stdint.h>
#include <stdio.h>
#include <stdlib.h>
#include <string.h>
#include <sys/socket.h>
#include <sys/uio.h>
#include <time.h>
#include <unistd.h>

#define PATIENCE 20
#define ISO_PACKETS 8
#define MOST_LENGTH (16 << 20)
#define ROOM (256 << 10)
/* What has more data is left to the writer's thread. */
#define SHORT 4096
#define MOST_AT_ONCE 256
#define MOST_HEAD (48 + 16 * ISO_PACKETS + 8)

enum way { OUT, IN, BOTH, ISO, INTERRUPT };

static const char *const ways[] = {"out", "in", "both", "iso", "interrupt"};

static enum way way;
static int to_relay;
static uint64_t in_flight, length, at_once;
static double wanted_seconds;
static unsigned char data[MOST_LENGTH];

static void fail(const char *form, ...)
{
    va_list values;
    va_start(values, form);
    fprintf(stderr, "bench/load: ");
    vfprintf(stderr, form, values);
    fprintf(stderr, "\n");
    va_end(values);
    _exit(1);
}

static double now(void)
{
    struct timespec time;
    clock_gettime(CLOCK_MONOTONIC, &time);
    return time.tv_sec + time.tv_nsec / 1e9;
}

/* ---- numbers in bytes */

static void put_be32(unsigned char *at, uint32_t value)
{
    value = htobe32(value);
    memcpy(at, &value, 4);
}

static uint32_t be32(const unsigned char *at)
{
    uint32_t value;
    memcpy(&value, at, 4);
    return be32toh(value);
}

static void put_le32(unsigned char *at, uint32_t value)
{
    value = htole32(value);
    memcpy(at, &value, 4);
}

static uint32_t le32(const unsigned char *at)
{
    uint32_t value;
    memcpy(&value, at, 4);
    return le32toh(value);
}

static void put_le64(unsigned char *at, uint64_t value)
{
    value = htole64(value);
    memcpy(at, &value, 8);
}

static uint64_t le64(const unsigned char *at)
{
    uint64_t value;
    memcpy(&value, at, 8);
    return le64toh(value);
}

/* ---- what a transfer is, by its number, which counts from 1 */

static int is_stream(void)
{
    return way == ISO || way == INTERRUPT;
}

static int is_in(uint64_t number)
{
    return way == BOTH ? number % 2 == 0 : way != OUT;
}

static uint32_t endpoint(void)
{
    return way == ISO ? 3 : way == INTERRUPT ? 2 : 1;
}

static uint64_t packets_each(void)
{
    return way == ISO ? ISO_PACKETS : 1;
}

static uint64_t total(void)
{
    return length * packets_each();
}

/* ---- links */

static int tuned(int link)
{
    int on = 1;
    if (setsockopt(link, IPPROTO_TCP, TCP_NODELAY, &on, sizeof on))
        fail("a link isn't tuned: %s", strerror(errno));
    return link;
}

static struct sockaddr_in address(int port)
{
    struct sockaddr_in at = {.sin_family = AF_INET, .sin_port = htons(port)};
    at.sin_addr.s_addr = htonl(INADDR_LOOPBACK);
    return at;
}

static int door_made(void)
{
    int door = socket(AF_INET, SOCK_STREAM, 0);
    struct sockaddr_in at = address(0);
    socklen_t size = sizeof at;
    if (door < 0 || bind(door, (struct sockaddr *)&at, size) || listen(door, 1) ||
        getsockname(door, (struct sockaddr *)&at, &size))
        fail("no door: %s", strerror(errno));
    printf("%d\n", ntohs(at.sin_port));
    fflush(stdout);
    return door;
}

static int dialed(int port)
{
    struct sockaddr_in at = address(port);
    for (double begin = now(); now() < begin + PATIENCE; usleep(10000)) {
        int link = socket(AF_INET, SOCK_STREAM, 0);
        if (connect(link, (struct sockaddr *)&at, sizeof at) == 0)
            return tuned(link);
        close(link);
    }
    fail("nothing listens at port %d", port);
    return -1;
}

/* ---- what is sent */

/* The messages of one side are numbered, and each is what `message` makes of its number: so what waits is a count. */
struct outbox {
    int link;
    /* Writes a message's head, of at most MOST_HEAD bytes, and says how many bytes of data are behind it. */
    size_t (*message)(uint64_t number, unsigned char *head, size_t *behind);
    /* Whether the messages of a transfer have SHORT bytes of data at most. */
    int is_short;
    /* How many messages go out in one call at most. */
    uint64_t most;
    pthread_mutex_t lock;
    pthread_cond_t handed_over;
    uint64_t queued, begun;
    /* Somebody sends: the thread that began, or the writer, to which it was handed over. */
    int is_busy, is_writers;
    struct iovec parts[2 * MOST_AT_ONCE];
    int part, part_count;
    unsigned char heads[MOST_AT_ONCE][MOST_HEAD];
};

static void take_next(struct outbox *box, uint64_t count)
{
    box->part = box->part_count = 0;
    for (uint64_t place = 0; place < count; place++) {
        size_t behind, size = box->message(++box->begun, box->heads[place], &behind);
        box->parts[box->part_count++] = (struct iovec){box->heads[place], size};
        if (behind)
            box->parts[box->part_count++] = (struct iovec){data, behind};
    }
}

/* Whether all parts are sent; where not, the link takes no more at once. */
static int send_parts(struct outbox *box, int flags)
{
    while (box->part < box->part_count) {
        struct msghdr message = {.msg_iov = box->parts + box->part, .msg_iovlen = box->part_count - box->part};
        ssize_t sent = sendmsg(box->link, &message, flags | MSG_NOSIGNAL);
        if (sent < 0 && (errno == EAGAIN || errno == EWOULDBLOCK))
            return 0;
        if (sent < 0)
            fail("a link takes nothing: %s", strerror(errno));
        for (; box->part < box->part_count && (size_t)sent >= box->parts[box->part].iov_len; box->part++)
            sent -= box->parts[box->part].iov_len;
        if (box->part < box->part_count) {
            box->parts[box->part].iov_base = (char *)box->parts[box->part].iov_base + sent;
            box->parts[box->part].iov_len -= sent;
        }
    }
    return 1;
}

/* Sends what is queued, also what is queued meanwhile, where the caller made the box busy. Whether all is sent. */
static int send_queued(struct outbox *box, int flags)
{
    while (send_parts(box, flags)) {
        pthread_mutex_lock(&box->lock);
        uint64_t count = box->queued - box->begun;
        box->is_busy = count > 0;
        pthread_mutex_unlock(&box->lock);
        if (count == 0)
            return 1;
        take_next(box, count < box->most ? count : box->most);
    }
    return 0;
}

static void *write_on(void *given)
{
    struct outbox *box = given;
    for (;;) {
        pthread_mutex_lock(&box->lock);
        while (!box->is_writers)
            pthread_cond_wait(&box->handed_over, &box->lock);
        box->is_writers = 0;
        pthread_mutex_unlock(&box->lock);
        send_queued(box, 0);
    }
    return NULL;
}

static void post(struct outbox *box, uint64_t count)
{
    pthread_mutex_lock(&box->lock);
    box->queued += count;
    int is_ours = !box->is_busy;
    box->is_busy = 1;
    pthread_mutex_unlock(&box->lock);
    if (!is_ours || (box->is_short && send_queued(box, MSG_DONTWAIT)))
        return;
    pthread_mutex_lock(&box->lock);
    box->is_writers = 1;
    pthread_cond_signal(&box->handed_over);
    pthread_mutex_unlock(&box->lock);
}

/* `each` messages are sent for a transfer. */
static void begin_outbox(struct outbox *box, int link, int has_data, uint64_t each,
                         size_t (*message)(uint64_t, unsigned char *, size_t *))
{
    pthread_t writer;
    box->link = link;
    box->message = message;
    /* What a stream brings is posted by the client's thread, which has its requests to send. */
    box->is_short = !has_data || (length * each <= SHORT && !is_stream());
    box->most = at_once * each < MOST_AT_ONCE ? at_once * each : MOST_AT_ONCE;
    pthread_mutex_init(&box->lock, NULL);
    pthread_cond_init(&box->handed_over, NULL);
    if (pthread_create(&writer, NULL, write_on, box))
        fail("no thread");
}

/* Data that begin with a number: the number stands in the head. */
static size_t numbered(uint64_t number, unsigned char *at, size_t size, size_t *behind)
{
    put_le64(at, number);
    *behind = size - 8;
    return 8;
}

/* ---- what is read */

struct inbox {
    int link;
    /* Sends what is to be sent for all that was read, since now more is awaited. */
    void (*before_more)(void);
    size_t from, upto;
    unsigned char bytes[ROOM];
};

/* Takes what has come. Whether the link hasn't ended. */
static int read_more(struct inbox *box)
{
    box->before_more();
    memmove(box->bytes, box->bytes + box->from, box->upto - box->from);
    box->upto -= box->from;
    box->from = 0;
    ssize_t count = recv(box->link, box->bytes + box->upto, ROOM - box->upto, 0);
    if (count < 0 && errno != ECONNRESET)
        fail("a link gives nothing: %s", strerror(errno));
    box->upto += count > 0 ? count : 0;
    return count > 0;
}

/* The next so many bytes, or NULL where the link has ended before the first of them. */
static unsigned char *next(struct inbox *box, size_t count)
{
    while (box->upto - box->from < count)
        if (!read_more(box)) {
            if (box->upto > box->from)
                fail("a link ended within a packet");
            return NULL;
        }
    box->from += count;
    return box->bytes + box->from - count;
}

static unsigned char *sure(struct inbox *box, size_t count)
{
    unsigned char *bytes = next(box, count);
    if (!bytes)
        fail("a link has ended");
    return bytes;
}

static void check_data(struct inbox *box, uint64_t number, uint64_t size)
{
    if (le64(sure(box, 8)) != number)
        fail("the data of %lu don't begin with that", number);
    for (size -= 8; size > 0;) {
        uint64_t count = box->upto - box->from;
        if (count > size)
            count = size;
        box->from += count;
        size -= count;
        if (size > 0 && !read_more(box))
            fail("a link ended within data");
    }
}

/* ---- the client */

static struct inbox answers;
static struct outbox requests;
static uint64_t asked, to_ask;
static volatile uint64_t answered;
static double begin, end;

static void descriptor(unsigned char *at, int place, uint32_t actual)
{
    put_be32(at, place * length);
    put_be32(at + 4, length);
    put_be32(at + 8, actual);
    put_be32(at + 12, 0);
}

static size_t submit(uint64_t number, unsigned char *head, size_t *behind)
{
    memset(head, 0, 48);
    put_be32(head, 1);
    put_be32(head + 4, number);
    put_be32(head + 8, 0x00010002);
    put_be32(head + 12, is_in(number));
    put_be32(head + 16, endpoint());
    put_be32(head + 24, total());
    *behind = 0;
    if (!is_in(number))
        return 48 + numbered(number, head + 48, length, behind);
    if (way != ISO)
        return 48;
    put_be32(head + 32, ISO_PACKETS);
    for (int place = 0; place < ISO_PACKETS; place++)
        descriptor(head + 48 + 16 * place, place, 0);
    return 48 + 16 * ISO_PACKETS;
}

static void check_answer(uint64_t number)
{
    unsigned char wanted[16], *head = sure(&answers, 48);
    if (be32(head) != 3)
        fail("packet %u came in place of an answer", be32(head));
    if (be32(head + 4) != (uint32_t)number)
        fail("the answer of %u came in place of %lu's", be32(head + 4), number);
    if (be32(head + 20) != 0)
        fail("the status of %lu is %d", number, (int32_t)be32(head + 20));
    if (be32(head + 24) != total())
        fail("the length of %lu is %u", number, be32(head + 24));
    if (!is_in(number))
        return;
    uint64_t first = (number - 1) * packets_each() + 1;
    if (way == ISO && (be32(head + 32) != ISO_PACKETS || be32(head + 36) != 0))
        fail("the packets of %lu are %u, with %u errors", number, be32(head + 32), be32(head + 36));
    for (uint64_t packet = 0; packet < packets_each(); packet++)
        check_data(&answers, first + packet, length);
    for (int place = 0; way == ISO && place < ISO_PACKETS; place++) {
        descriptor(wanted, place, length);
        if (memcmp(sure(&answers, 16), wanted, 16))
            fail("a descriptor of %lu is wrong", number);
    }
}

static void ask_stream(uint64_t count);

static void ask(void)
{
    uint64_t count = to_ask;
    to_ask = 0;
    if (count == 0 || (asked > 0 && now() >= begin + wanted_seconds))
        return;
    asked += count;
    post(&requests, count);
    if (is_stream())
        ask_stream(count);
}

static void import(int link)
{
    unsigned char request[40] = {1, 0x11, 0x80, 3, 0, 0, 0, 0, '1', '-', '1'};
    answers.link = link;
    answers.before_more = ask;
    for (;;) {
        /* The device may not have been told yet. */
        if (send(link, request, 40, MSG_NOSIGNAL) != 40)
            fail("a link takes nothing");
        if (be32(sure(&answers, 8) + 4) == 0)
            break;
        usleep(10000);
    }
    sure(&answers, 312);
}

static void *measure(void *given)
{
    import(dialed(*(int *)given));
    begin_outbox(&requests, answers.link, way == OUT || way == BOTH, 1, submit);
    begin = now();
    to_ask = in_flight;
    for (ask(); answered < asked; to_ask++, answered == asked ? ask() : (void)0)
        check_answer(++answered);
    end = now();
    return NULL;
}

/* ---- the far side */

static struct inbox far_requests;
static struct outbox far_answers;
static uint64_t to_answer;

static void answer(void)
{
    uint64_t count = to_answer;
    to_answer = 0;
    if (count > 0)
        post(&far_answers, count);
}

/* ---- the far side as a USB/IP server */

static size_t server_answer(uint64_t number, unsigned char *head, size_t *behind)
{
    memset(head, 0, 48);
    put_be32(head, 3);
    put_be32(head + 4, number);
    put_be32(head + 24, length);
    *behind = 0;
    return 48 + (is_in(number) ? numbered(number, head + 48, length, behind) : 0);
}

static void begin_server(int link)
{
    unsigned char reply[320] = {1, 0x11, 0, 3};
    sure(&far_requests, 40);
    if (send(link, reply, sizeof reply, MSG_NOSIGNAL) != sizeof reply)
        fail("a link takes nothing");
    begin_outbox(&far_answers, link, way != OUT, 1, server_answer);
}

/* Whether one came. */
static int check_request(uint64_t number)
{
    unsigned char *head = next(&far_requests, 48);
    if (!head)
        return 0;
    if (be32(head) != 1 || be32(head + 4) != (uint32_t)number || be32(head + 24) != length)
        fail("request %u of %u bytes came in place of %lu", be32(head + 4), be32(head + 24), number);
    if (!is_in(number))
        check_data(&far_requests, number, length);
    return 1;
}

/* ---- the far side as a usbredir host */

enum { DEVICE_CONNECT = 1, EP_INFO = 5, START_ISO = 12, START_INTERRUPT = 15 };
enum { BULK_PACKET = 101, ISO_PACKET = 102, INTERRUPT_PACKET = 103 };

static void header(unsigned char *at, uint32_t type, uint32_t behind, uint64_t id)
{
    put_le32(at, type);
    put_le32(at + 4, behind);
    put_le64(at + 8, id);
}

static size_t host_answer(uint64_t number, unsigned char *head, size_t *behind)
{
    size_t given = is_in(number) ? length : 0;
    header(head, BULK_PACKET, 10 + given, number);
    memset(head + 16, 0, 10);
    head[16] = is_in(number) ? 0x81 : 0x01;
    head[18] = length;
    head[19] = length >> 8;
    head[24] = length >> 16;
    head[25] = length >> 24;
    *behind = 0;
    return 26 + (given ? numbered(number, head + 26, length, behind) : 0);
}

static size_t stream_packet(uint64_t number, unsigned char *head, size_t *behind)
{
    header(head, way == ISO ? ISO_PACKET : INTERRUPT_PACKET, 4 + length, 0);
    head[16] = 0x80 | endpoint();
    head[17] = 0;
    head[18] = length;
    head[19] = length >> 8;
    return 20 + numbered(number, head + 20, length, behind);
}

/* The hello, with the capabilities that the gateway announces, and the device of this folder's scripts: its endpoints 1
   are bulk, 2 interrupt, 3 isochronous. */
static void tell_device(int link)
{
    static unsigned char told[80 + 16 + 160 + 16 + 10];
    unsigned char *endpoints = told + 96, *facts = told + 256;
    put_le32(told + 4, 68);
    memcpy(told + 12, "load", 4);
    put_le32(told + 76, 0x7A);
    header(told + 80, EP_INFO, 160, 0);
    memset(endpoints, 255, 32);
    for (int direction = 0; direction < 2; direction++) {
        memcpy(endpoints + 16 * direction, (unsigned char[]){0, 2, 3, 1}, 4);
        memcpy(endpoints + 96 + 32 * direction, (unsigned char[]){64, 0, 0, 2, 64, 0, 0, 4}, 8);
    }
    header(facts, DEVICE_CONNECT, 10, 0);
    memcpy(facts + 16, (unsigned char[]){2, 0, 0, 0, 0xF0, 0xFF, 2, 0, 0, 1}, 10);
    if (send(link, told, sizeof told, MSG_NOSIGNAL) != sizeof told)
        fail("a link takes nothing");
}

static void begin_host(int link)
{
    tell_device(link);
    sure(&far_requests, 80);
    begin_outbox(&far_answers, link, way != OUT, packets_each(), is_stream() ? stream_packet : host_answer);
}

/* How many transfers of a stream were asked for before it was started, under the lock. */
static pthread_mutex_t stream_lock = PTHREAD_MUTEX_INITIALIZER;
static uint64_t asked_early;
static int is_started;

static void ask_stream(uint64_t count)
{
    pthread_mutex_lock(&stream_lock);
    int goes_out = is_started;
    if (!goes_out)
        asked_early += count;
    pthread_mutex_unlock(&stream_lock);
    if (goes_out)
        post(&far_answers, count * packets_each());
}

static void start_stream(int link, const unsigned char *head, unsigned char asked_for)
{
    unsigned char status[18];
    header(status, le32(head) + 2, 2, le64(head + 8));
    status[16] = 0;
    status[17] = asked_for;
    if (send(link, status, sizeof status, MSG_NOSIGNAL) != sizeof status)
        fail("a link takes nothing");
    pthread_mutex_lock(&stream_lock);
    uint64_t count = asked_early;
    is_started = 1;
    pthread_mutex_unlock(&stream_lock);
    if (count > 0)
        post(&far_answers, count * packets_each());
}

/* Whether one came that isn't of a stream. */
static int check_packet(uint64_t number)
{
    unsigned char kept[16], *head, *fields;
    while ((head = next(&far_requests, 16))) {
        uint32_t type = le32(head), behind = le32(head + 4);
        if (type == BULK_PACKET)
            break;
        memcpy(kept, head, 16);
        fields = sure(&far_requests, behind);
        if (type == START_ISO || type == START_INTERRUPT)
            start_stream(far_requests.link, kept, fields[0]);
    }
    if (!head)
        return 0;
    if (le64(head + 8) != number || le32(head + 4) != 10 + (is_in(number) ? 0 : length))
        fail("packet %lu with %u bytes behind its header came in place of %lu", le64(head + 8), le32(head + 4), number);
    fields = sure(&far_requests, 10);
    uint32_t told = fields[2] | fields[3] << 8 | fields[8] << 16 | (uint32_t)fields[9] << 24;
    if (fields[0] != (is_in(number) ? 0x81 : 0x01) || told != length)
        fail("packet %lu has another endpoint or length", number);
    if (!is_in(number))
        check_data(&far_requests, number, length);
    return 1;
}

static void *serve(void *given)
{
    int link = accept(*(int *)given, NULL, NULL);
    if (link < 0)
        fail("nobody comes: %s", strerror(errno));
    far_requests.link = tuned(link);
    far_requests.before_more = answer;
    (to_relay ? begin_server : begin_host)(link);
    for (uint64_t number = 1; (to_relay ? check_request : check_packet)(number); number++)
        to_answer++;
    return NULL;
}

/* ---- the words */

static void *watch(void *given)
{
    for (uint64_t before = 0, silent = 0; silent < PATIENCE; before = answered) {
        sleep(1);
        silent = answered == before ? silent + 1 : 0;
    }
    fail("nothing comes any more after %lu answers", answered);
    return given;
}

static void read_words(char **words)
{
    to_relay = !strcmp(words[1], "relay");
    for (way = OUT; way <= INTERRUPT && strcmp(words[2], ways[way]);)
        way++;
    in_flight = strtoull(words[3], NULL, 10);
    length = strtoull(words[4], NULL, 10);
    wanted_seconds = atof(words[5]);
    at_once = strtoull(words[6], NULL, 10);
    if (way > INTERRUPT || in_flight == 0 || length < 8 || length > MOST_LENGTH || (to_relay && is_stream()))
        fail("these words say no load");
    if (at_once == 0 || at_once > MOST_AT_ONCE)
        fail("a call sends 1 to %d packets", MOST_AT_ONCE);
    if (is_stream() && (length > 1024 || in_flight * packets_each() > 1024))
        fail("no gateway holds so many packets of a stream, or such long ones");
}

int main(int count, char **words)
{
    pthread_t server, client, watcher;
    if (count != 8 && count != 9)
        fail("usage: load gateway|relay out|in|both|iso|interrupt IN_FLIGHT LENGTH SECONDS AT_ONCE NEAR [STAY]");
    read_words(words);
    memset(data, 0xA5, sizeof data);
    int door = door_made(), near = atoi(words[7]);
    if (pthread_create(&server, NULL, serve, &door) || pthread_create(&client, NULL, measure, &near) ||
        pthread_create(&watcher, NULL, watch, NULL))
        fail("no thread");
    pthread_join(client, NULL);
    printf("%lu %.6f\n", answered, end - begin);
    fflush(stdout);
    pthread_cancel(watcher);
    sleep(count == 9 ? atoi(words[8]) : 0);
    _exit(0);
}

/* Requests over links of HTTP, each answered before the next is sent: bench/threads.py measures servers with it.

   Usage: load PORT LINKS SECONDS get TARGET
          load PORT LINKS SECONDS post TARGET SIZE
   So many threads have a keep-alive link each, and ask for as many seconds. A GET asks for one target. A POST makes ConfigMaps of so many bytes, whose names
   are the number of the link and a count. Prints how many requests were answered, the seconds, and the middle time of one in microseconds. Another status
   than 200 or 201 ends it. */
#include <arpa/inet.h>
#include <netinet/tcp.h>
#include <pthread.h>
#include <stdatomic.h>
#include <stdio.h>
#include <stdlib.h>
#include <string.h>
#include <time.h>
#include <unistd.h>

enum { MOST_LINKS = 16, ROOM = 1 << 16, MOST_TIMES = 1 << 20 };

static int port, is_post, size;
static double seconds;
static const char *target;
static atomic_int ready;
static atomic_int go;

struct link {
    int number;
    long count;
    float *times;
};

static double now(void)
{
    struct timespec at;
    clock_gettime(CLOCK_MONOTONIC, &at);
    return at.tv_sec + at.tv_nsec / 1e9;
}

static void fail(const char *what)
{
    fprintf(stderr, "load: %s\n", what);
    exit(1);
}

static int connected(void)
{
    int one = 1, link = socket(AF_INET, SOCK_STREAM, 0);
    struct sockaddr_in at = { .sin_family = AF_INET, .sin_port = htons(port), .sin_addr.s_addr = htonl(INADDR_LOOPBACK) };
    if (link < 0 || connect(link, (struct sockaddr *)&at, sizeof at) != 0)
        fail("no link");
    setsockopt(link, IPPROTO_TCP, TCP_NODELAY, &one, sizeof one);
    return link;
}

/* The text of a request, and its length. */
static int request(char *text, int number, long count)
{
    char name[64], body[ROOM / 2];
    int head, length;
    if (!is_post)
        return snprintf(text, ROOM, "GET %s HTTP/1.1\r\nHost: h\r\n\r\n", target);
    snprintf(name, sizeof name, "c%d-%d-%ld", number, getpid(), count);
    head = snprintf(body, sizeof body, "{\"apiVersion\":\"v1\",\"kind\":\"ConfigMap\",\"metadata\":{\"name\":\"%s\"},\"data\":{\"a\":\"", name);
    length = size > head + 3 ? size : head + 3;
    memset(body + head, 'x', length - head - 3);
    memcpy(body + length - 3, "\"}}", 4);
    return snprintf(text, ROOM, "POST %s HTTP/1.1\r\nHost: h\r\nContent-Length: %d\r\n\r\n%s", target, length, body);
}

/* Reads one reply whole. */
static void reply(int link, char *room)
{
    int has = 0;
    for (;;) {
        int more = read(link, room + has, ROOM - 1 - has);
        char *end, *length;
        if (more <= 0)
            fail("a link ends");
        has += more;
        room[has] = 0;
        end = strstr(room, "\r\n\r\n");
        length = strstr(room, "content-length: ");
        if (end && length && has >= end + 4 - room + atoi(length + 16))
            break;
    }
    if (strncmp(room, "HTTP/1.1 20", 11) != 0)
        fail(room);
}

static void *ask(void *its)
{
    struct link *mine = its;
    static _Thread_local char text[ROOM], room[ROOM];
    int link = connected();
    double end;
    ready++;
    while (!go)
        usleep(100);
    for (end = now() + seconds; now() < end; mine->count++) {
        int length = request(text, mine->number, mine->count);
        double begun = now();
        if (write(link, text, length) != length)
            fail("a request isn't taken");
        reply(link, room);
        if (mine->count < MOST_TIMES)
            mine->times[mine->count] = now() - begun;
    }
    close(link);
    return NULL;
}

static int compare(const void *a, const void *b)
{
    float x = *(const float *)a, y = *(const float *)b;
    return (x > y) - (x < y);
}

int main(int count, char **words)
{
    int links, many = 0;
    long all = 0;
    double begun, spent;
    pthread_t threads[MOST_LINKS];
    static struct link its[MOST_LINKS];
    float *times;
    if (count < 6)
        fail("words are missing");
    port = atoi(words[1]), links = atoi(words[2]), seconds = atof(words[3]);
    is_post = strcmp(words[4], "post") == 0, target = words[5], size = count > 6 ? atoi(words[6]) : 0;
    if (links < 1 || links > MOST_LINKS)
        fail("too many links");
    for (int at = 0; at < links; at++) {
        its[at].number = at;
        its[at].times = malloc(MOST_TIMES * sizeof(float));
        pthread_create(&threads[at], NULL, ask, &its[at]);
    }
    while (ready < links)
        usleep(100);
    begun = now();
    go = 1;
    for (int at = 0; at < links; at++)
        pthread_join(threads[at], NULL);
    spent = now() - begun;
    times = malloc((size_t)links * MOST_TIMES * sizeof(float));
    for (int at = 0; at < links; at++) {
        all += its[at].count;
        for (long each = 0; each < its[at].count && each < MOST_TIMES; each++)
            times[many++] = its[at].times[each];
    }
    qsort(times, many, sizeof *times, compare);
    printf("%ld %.3f %.1f\n", all, spent, many ? times[many / 2] * 1e6 : 0.0);
    return 0;
}

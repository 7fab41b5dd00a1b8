/* Loads a server of objects: each connection makes its calls one after the other, and all do so at once.
 *
 * usage: load PORT GROUP ..    (a GROUP is OBJECT:CONNECTIONS:CALLS:CALL,CALL,.. as in "cell:8:1000:get,put #")
 * build: cc -O2 -pthread -o load load.c
 *
 * Each connection of a group opens the object and makes CALLS calls, which go round its list; the next connection begins one
 * further in the list. A `#` is a number that no other call of the group has: a put of what is there already writes nothing. A CALL
 * behind `!` is made under its key; behind `!!` it is the first call of its connection, asked for again. An OBJECT behind `!` is opened by
 * a name. Then it prints `calls N seconds S processor P`, the processor time of this program, and says `quit` when its standard input ends. Ends
 * with 1 where a call was not done.
 */
#include <arpa/inet.h>
#include <netinet/tcp.h>
#include <pthread.h>
#include <stdio.h>
#include <stdlib.h>
#include <string.h>
#include <sys/resource.h>
#include <sys/socket.h>
#include <time.h>
#include <unistd.h>

enum { MOST_CONNECTIONS = 64, MOST_CALLS = 64, LINE = 8192 };

struct connection {
    int socket, calls, begin, kinds;
    char *object, *kind[MOST_CALLS];
    char text[LINE];
    size_t from, to;
};

static int port;
static pthread_barrier_t ready;
static struct connection connections[MOST_CONNECTIONS];

static void fail(const char *why)
{
    fprintf(stderr, "load: %s\n", why);
    exit(1);
}

/* Whether the next line begins with WORD; the line is taken. */
static int hears(struct connection *it, const char *word)
{
    for (;;) {
        char *begin = it->text + it->from, *end = memchr(begin, '\n', it->to - it->from);
        if (end) {
            it->from = (size_t)(end + 1 - it->text);
            return strncmp(begin, word, strlen(word)) == 0;
        }
        memmove(it->text, begin, it->to - it->from);
        it->to -= it->from;
        it->from = 0;
        ssize_t got = read(it->socket, it->text + it->to, LINE - it->to);
        if (got <= 0)
            fail("the server is gone");
        it->to += (size_t)got;
    }
}

static void say(struct connection *it, const char *word, const char *text)
{
    char line[LINE];
    int size = snprintf(line, sizeof line, "%s%s\n", word, text);
    if (size >= (int)sizeof line || write(it->socket, line, (size_t)size) != size)
        fail("a line was not sent");
}

/* Makes the next call: its text with a number of its own in place of a `#`. */
static void call(struct connection *it, int made)
{
    const char *kind = it->kind[(it->begin + made) % it->kinds], *words = kind + strspn(kind, "!"), *mark = strchr(words, '#');
    int key = kind[0] != '!' ? 0 : kind[1] == '!' ? 1 : made + 1;
    char text[LINE / 2] = "";
    size_t front = 0;

    if (key)
        front = (size_t)snprintf(text, sizeof text, "#%d ", key);
    if (mark)
        snprintf(text + front, sizeof text - front, "%.*s%d%s", (int)(mark - words), words, it->begin * 1000000 + made + 1, mark + 1);
    else
        snprintf(text + front, sizeof text - front, "%s", words);
    say(it, "call ", text);
}

/* Opens the object, by the name `nK` where it is the K-th connection of a group with names. */
static void open_object(struct connection *it)
{
    char text[128];

    if (it->object[0] == '!')
        snprintf(text, sizeof text, "%s as n%d", it->object + 1, it->begin);
    say(it, "open ", it->object[0] == '!' ? text : it->object);
    if (!hears(it, "opened "))
        fail("the object was not opened");
}

static void *talk(void *argument)
{
    struct connection *it = argument;
    struct sockaddr_in server = {.sin_family = AF_INET};
    int one = 1;

    server.sin_port = htons((unsigned short)port);
    server.sin_addr.s_addr = htonl(INADDR_LOOPBACK);
    it->socket = socket(AF_INET, SOCK_STREAM, 0);
    if (connect(it->socket, (struct sockaddr *)&server, sizeof server) != 0)
        fail("no connection");
    setsockopt(it->socket, IPPROTO_TCP, TCP_NODELAY, &one, sizeof one);
    open_object(it);
    pthread_barrier_wait(&ready);
    for (int made = 0; made < it->calls; made++) {
        call(it, made);
        if (!(it->kind[0][1] == '!' && made ? hears(it, "repeat done ") : hears(it, "accepted ") && hears(it, "done ")))
            fail("a call was not done");
    }
    pthread_barrier_wait(&ready);
    pthread_barrier_wait(&ready);
    say(it, "quit", "");
    hears(it, "bye");
    close(it->socket);
    return NULL;
}

/* Reads a group into the connections from `first` on, and gives how many there are then. */
static int read_group(char *group, int first)
{
    char *object = strtok(group, ":"), *many = strtok(NULL, ":"), *calls = strtok(NULL, ":"), *kind = strtok(NULL, ",");
    char *kinds[MOST_CALLS];
    int count = 0;

    for (; kind && count < MOST_CALLS; kind = strtok(NULL, ","))
        kinds[count++] = kind;
    if (!count || first + atoi(many) > MOST_CONNECTIONS)
        fail("not a group");
    for (int k = 0; k < atoi(many); k++) {
        struct connection *it = &connections[first + k];
        it->object = object;
        it->calls = atoi(calls);
        it->begin = k;
        it->kinds = count;
        memcpy(it->kind, kinds, sizeof kinds);
    }
    return first + atoi(many);
}

static double now(void)
{
    struct timespec it;
    clock_gettime(CLOCK_MONOTONIC, &it);
    return (double)it.tv_sec + (double)it.tv_nsec / 1e9;
}

int main(int words, char **word)
{
    pthread_t threads[MOST_CONNECTIONS];
    struct rusage used;
    int count = 0, calls = 0;

    if (words < 3)
        fail("usage: load PORT GROUP ..");
    port = atoi(word[1]);
    for (int k = 2; k < words; k++)
        count = read_group(word[k], count);
    pthread_barrier_init(&ready, NULL, (unsigned)count + 1);
    for (int k = 0; k < count; k++) {
        calls += connections[k].calls;
        pthread_create(&threads[k], NULL, talk, &connections[k]);
    }
    pthread_barrier_wait(&ready);
    double begin = now();
    pthread_barrier_wait(&ready);
    double seconds = now() - begin;
    getrusage(RUSAGE_SELF, &used);
    printf("calls %d seconds %.4f processor %.4f\n", calls, seconds,
           (double)(used.ru_utime.tv_sec + used.ru_stime.tv_sec) + (double)(used.ru_utime.tv_usec + used.ru_stime.tv_usec) / 1e6);
    fflush(stdout);
    while (getchar() != EOF)
        ;
    pthread_barrier_wait(&ready);
    for (int k = 0; k < count; k++)
        pthread_join(threads[k], NULL);
    return 0;
}

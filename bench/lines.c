/* Loads a server that answers lines: of many connections each sends a request, reads its answer, and sends the next one.
 *
 * usage: lines PORT CONNECTIONS SECONDS AHEAD LINES REQUEST [FIRST]
 * build: cc -O2 -o lines lines.c
 *
 * Each connection first says FIRST, if it is given, and hears one line. Then it keeps AHEAD requests under way for so many
 * seconds; a request is the line REQUEST, and its answer has LINES lines. Of a REQUEST `A|B` half of the connections say A,
 * and half B. A `#` in it is a number of seven digits, another one each time. Where LINES is 0 the server is Redis: requests
 * are sent in its binary form, and its answers read so. In one process, by epoll, so that the same program loads both:
 * `call put #` here, `SET v #` there.
 *
 * Where AHEAD is 0, so many connections come one after the other: each says FIRST and one request, hears both answers, and
 * ends. Where SECONDS is 0 too they all stay, until standard input ends.
 *
 * It prints `calls N seconds S median M late L`: N calls were answered; half of them in at most M microseconds, and 99 of
 * 100 in at most L. Ends with 1 where a connection breaks.
 */
#include <arpa/inet.h>
#include <errno.h>
#include <fcntl.h>
#include <netinet/tcp.h>
#include <stdio.h>
#include <stdlib.h>
#include <string.h>
#include <sys/epoll.h>
#include <sys/resource.h>
#include <sys/socket.h>
#include <time.h>
#include <unistd.h>

enum { MOST_AHEAD = 64, EVENTS = 1024, PIECE = 65536, MOST_MICROS = 4000000 };

struct connection {
    int socket, lines, under_way, first, kind, in_bulk, at_line, nil;
    double begun[MOST_AHEAD];
    int oldest;
};

static char request[2][4096];
static size_t request_length[2];
static int ahead, lines_a_call, kinds = 1;
static unsigned *took;
static long asked;
static struct sockaddr_in to;

static void fail(const char *why)
{
    fprintf(stderr, "lines: %s\n", why);
    exit(1);
}

static double now(void)
{
    struct timespec it;
    clock_gettime(CLOCK_MONOTONIC, &it);
    return (double)it.tv_sec + (double)it.tv_nsec * 1e-9;
}

static void send_all(int socket, const char *text, size_t length)
{
    while (length) {
        ssize_t sent = write(socket, text, length);
        if (sent < 0 && (errno == EAGAIN || errno == EINTR))
            continue;
        if (sent <= 0)
            fail("the server is gone");
        text += sent;
        length -= (size_t)sent;
    }
}

/* Notes a request: a line, or for Redis its words, each with its length. A `#` is seven digits. */
static void set_request(int kind, const char *words)
{
    char line[4096], *to = request[kind];
    size_t length = 0;
    if (strlen(words) > 3000)
        fail("a request is too long");
    for (const char *from = words; *from; from++)
        length += (size_t)sprintf(line + length, *from == '#' ? "1000000" : "%c", *from);
    line[length] = 0;
    if (lines_a_call) {
        request_length[kind] = (size_t)sprintf(to, "%s\r\n", line);
        return;
    }
    int count = 1;
    for (char *at = line; *at; at++)
        count += *at == ' ';
    to += sprintf(to, "*%d\r\n", count);
    for (char *word = strtok(line, " "); word; word = strtok(NULL, " "))
        to += sprintf(to, "$%zu\r\n%s\r\n", strlen(word), word);
    request_length[kind] = (size_t)(to - request[kind]);
}

/* Puts the next number in place of the seven digits of a request, if it has them. */
static void number(char *text, size_t length)
{
    for (size_t at = length; at >= 7; at--) {
        if (text[at - 7] != '1' || text[at - 1] < '0' || text[at - 1] > '9')
            continue;
        char digits[24];
        snprintf(digits, sizeof digits, "%ld", 1000000 + asked++ % 9000000);
        memcpy(text + at - 7, digits, 7);
        return;
    }
}

static void ask(struct connection *it, int count)
{
    static char all[sizeof request * MOST_AHEAD];
    double at = now();
    size_t length = request_length[it->kind];
    for (int each = 0; each < count; each++) {
        memcpy(all + (size_t)each * length, request[it->kind], length);
        number(all + (size_t)each * length, length);
        it->begun[(it->oldest + it->under_way) % MOST_AHEAD] = at;
        it->under_way++;
    }
    send_all(it->socket, all, (size_t)count * length);
}

/* Reads a byte of an answer: whether a call ended with it. */
static int ends_call(struct connection *it, char byte)
{
    if (lines_a_call) {
        if (byte != '\n' || ++it->lines < lines_a_call)
            return 0;
        it->lines = 0;
        return 1;
    }
    if (it->at_line == 0)
        it->in_bulk = !it->lines && byte == '$', it->nil = 0;
    if (it->at_line == 1)
        it->nil = byte == '-';
    it->at_line++;
    if (byte != '\n')
        return 0;
    it->at_line = 0;
    it->lines = it->in_bulk && !it->nil;
    return !it->lines;
}

static int connected(void)
{
    int made = socket(AF_INET, SOCK_STREAM, 0), yes = 1;
    if (made < 0 || connect(made, (struct sockaddr *)&to, sizeof to))
        fail("no connection");
    setsockopt(made, IPPROTO_TCP, TCP_NODELAY, &yes, sizeof yes);
    return made;
}

static void say(int socket, const char *line)
{
    char text[4096];
    send_all(socket, text, (size_t)snprintf(text, sizeof text, "%s\r\n", line));
}

static void print(long calls, double passed)
{
    long half = -1, late = -1, due = 0;
    for (long micros = 0; micros <= MOST_MICROS; micros++) {
        due += took[micros];
        if (half < 0 && due * 2 >= calls)
            half = micros;
        if (late < 0 && due * 100 >= calls * 99)
            late = micros;
    }
    printf("calls %ld seconds %.3f median %ld late %ld\n", calls, passed, half, late);
    fflush(stdout);
}

static void note(double begun, double at)
{
    double micros = (at - begun) * 1e6;
    took[micros < MOST_MICROS ? (long)micros : MOST_MICROS]++;
}

/* Connections one after the other, each with one call; where they stay they are closed at the end of standard input. */
static void in_a_row(int connections, int stay, const char *first)
{
    double begun = now();
    for (int each = 0; each < connections; each++) {
        struct connection it = {0};
        double at = now();
        it.socket = connected();
        it.first = first != NULL;
        if (first)
            say(it.socket, first);
        ask(&it, 1);
        for (int done = 0; !done;) {
            char piece[4096];
            ssize_t got = read(it.socket, piece, sizeof piece);
            if (got <= 0)
                fail("the server is gone");
            for (ssize_t byte = 0; byte < got; byte++) {
                if (it.first)
                    it.first = piece[byte] != '\n';
                else
                    done |= ends_call(&it, piece[byte]);
            }
        }
        if (!stay)
            close(it.socket);
        note(at, now());
    }
    print(connections, now() - begun);
    while (stay && getchar() != EOF)
        ;
}

int main(int count, char **words)
{
    if (count < 7)
        fail("usage: lines PORT CONNECTIONS SECONDS AHEAD LINES REQUEST [FIRST]");
    int connections = atoi(words[2]);
    double seconds = atof(words[3]);
    ahead = atoi(words[4]);
    lines_a_call = atoi(words[5]);
    if (connections < 1 || ahead < 0 || ahead > MOST_AHEAD || lines_a_call < 0)
        fail("a number is out of range");
    char *bar = strchr(words[6], '|');
    if (bar) {
        *bar = 0;
        kinds = 2;
        set_request(1, bar + 1);
    }
    set_request(0, words[6]);
    const char *first = count > 7 ? words[7] : NULL;
    took = calloc(MOST_MICROS + 1, sizeof *took);
    struct rlimit files = {1 << 20, 1 << 20};
    if (setrlimit(RLIMIT_NOFILE, &files)) {
        getrlimit(RLIMIT_NOFILE, &files);
        files.rlim_cur = files.rlim_max;
        setrlimit(RLIMIT_NOFILE, &files);
    }
    to.sin_family = AF_INET;
    to.sin_port = htons((uint16_t)atoi(words[1]));
    to.sin_addr.s_addr = htonl(INADDR_LOOPBACK);
    if (!ahead) {
        in_a_row(connections, seconds == 0, first);
        return 0;
    }
    struct connection *all = calloc((size_t)connections, sizeof *all);
    int poll = epoll_create1(0);
    for (int each = 0; each < connections; each++) {
        struct connection *it = &all[each];
        it->socket = connected();
        it->kind = each % kinds;
        if (first) {
            say(it->socket, first);
            it->first = 1;
        }
        fcntl(it->socket, F_SETFL, O_NONBLOCK);
        struct epoll_event event = {.events = EPOLLIN, .data.ptr = it};
        epoll_ctl(poll, EPOLL_CTL_ADD, it->socket, &event);
    }
    static char piece[PIECE];
    struct epoll_event events[EVENTS];
    long calls = 0;
    double begun = now();
    for (int each = 0; each < connections; each++)
        if (!all[each].first)
            ask(&all[each], ahead);
    while (now() - begun < seconds) {
        int found = epoll_wait(poll, events, EVENTS, 100);
        for (int each = 0; each < found; each++) {
            struct connection *it = events[each].data.ptr;
            ssize_t got = read(it->socket, piece, PIECE);
            if (got < 0 && (errno == EAGAIN || errno == EINTR))
                continue;
            if (got <= 0)
                fail("the server is gone");
            double at = now();
            int again = 0;
            for (ssize_t byte = 0; byte < got; byte++) {
                if (it->first) {
                    if (piece[byte] == '\n') {
                        it->first = 0;
                        again = ahead;
                    }
                    continue;
                }
                if (!ends_call(it, piece[byte]))
                    continue;
                note(it->begun[it->oldest], at);
                it->oldest = (it->oldest + 1) % MOST_AHEAD;
                it->under_way--;
                calls++;
                again++;
            }
            if (again)
                ask(it, again);
        }
    }
    print(calls, now() - begun);
    return 0;
}

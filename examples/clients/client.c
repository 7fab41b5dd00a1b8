/* Calls operations of an object that `pathserve serve` serves, and prints how each call ended.
 *
 * usage: client PLACE OBJECT CALL ..    (a CALL is an operation with its arguments, as in "put 7")
 *        client PLACE OBJECT -          (the calls are read from standard input, one a line)
 * build: cc -o client client.c
 *
 * PLACE is a port of this machine, or the path of a socket, with a slash in it. With `-` it says `opened` on standard
 * error when the object is open.
 * Exit statuses: 0 each call was answered; 1 the object was not opened; 2 usage; 3 there is no server, or it was gone
 * before the last answer.
 */
#include <arpa/inet.h>
#include <errno.h>
#include <netinet/tcp.h>
#include <signal.h>
#include <stdio.h>
#include <stdlib.h>
#include <string.h>
#include <sys/socket.h>
#include <sys/un.h>

/* A line that the server writes has at most some 2,100 bytes. */
static char line[4096];

/* The call that was sent, and has no last line yet. */
static const char *sent;

/* Ends the program: the server is gone, or there is none. */
static void gone(const char *what, const char *why)
{
    fprintf(stderr, *why ? "client: %s: %s\n" : "client: %s%s\n", what, why);
    if (sent)
        fprintf(stderr, "client: it is not known whether this was done: %s\n", sent);
    exit(3);
}

/* Reads the next line. One that was cut is none. */
static void hear(FILE *from)
{
    if (!fgets(line, sizeof line, from) || !strchr(line, '\n'))
        gone("the server is gone", "");
}

/* Sends WORD, a space and TEXT as one line, and reads the first answer. */
static void ask(FILE *to, FILE *from, const char *word, const char *text)
{
    if (fprintf(to, *text ? "%s %s\n" : "%s%s\n", word, text) < 0 || fflush(to) != 0)
        gone("the server is gone", "");
    hear(from);
}

/* Has the system end a connection whose other side is gone without a word: asked after 10 s, each 5, 3 times. */
static void keep_alive(int connection)
{
    int on = 1, idle = 10, each = 5, count = 3;

    setsockopt(connection, SOL_SOCKET, SO_KEEPALIVE, &on, sizeof on);
    setsockopt(connection, IPPROTO_TCP, TCP_KEEPIDLE, &idle, sizeof idle);
    setsockopt(connection, IPPROTO_TCP, TCP_KEEPINTVL, &each, sizeof each);
    setsockopt(connection, IPPROTO_TCP, TCP_KEEPCNT, &count, sizeof count);
}

/* Connects to a port, or to the path of a socket; -1 where nobody is there. */
static int connected(const char *place)
{
    struct sockaddr_in at_port = {.sin_family = AF_INET};
    struct sockaddr_un at_path = {.sun_family = AF_UNIX};
    int is_path = strchr(place, '/') != NULL;
    int connection = socket(is_path ? AF_UNIX : AF_INET, SOCK_STREAM, 0);

    if (is_path && strlen(place) >= sizeof at_path.sun_path) {
        errno = ENAMETOOLONG;
        return -1;
    }
    at_port.sin_port = htons((unsigned short)atoi(place));
    at_port.sin_addr.s_addr = htonl(INADDR_LOOPBACK);
    strncpy(at_path.sun_path, place, sizeof at_path.sun_path - 1);
    if (connection < 0)
        return -1;
    if (is_path)
        return connect(connection, (struct sockaddr *)&at_path, sizeof at_path) == 0 ? connection : -1;
    keep_alive(connection);
    return connect(connection, (struct sockaddr *)&at_port, sizeof at_port) == 0 ? connection : -1;
}

/* Whether the line is the last one of the call whose number stands behind `accepted `. */
static int ends_call(const char *number)
{
    static const char *const kinds[] = {"done ", "refused ", "failed ", "cancelled "};
    size_t k, length = strlen(number);

    for (k = 0; k < sizeof kinds / sizeof *kinds; k++)
        if (strncmp(line, kinds[k], strlen(kinds[k])) == 0) {
            const char *rest = line + strlen(kinds[k]);
            return strncmp(rest, number, length) == 0 && (rest[length] == ' ' || rest[length] == '\n');
        }
    return 0;
}

/* Calls, and prints how the call ended. */
static void call(FILE *to, FILE *from, const char *text)
{
    char number[32];

    sent = text;
    ask(to, from, "call", text);
    if (sscanf(line, "accepted %31[0-9]", number) == 1) {
        /* The call waits until the paths admit it; then comes its last line. */
        hear(from);
        if (!ends_call(number))
            gone("the server wrote something else", "");
    } else if (strncmp(line, "no ", 3) != 0)
        gone("the server wrote something else", "");
    printf("%s: %s", text, line);
    fflush(stdout);
    sent = NULL;
}

int main(int count, char **words)
{
    static char text[4096];
    int connection;
    FILE *to, *from;
    int k;

    if (count < 3) {
        fprintf(stderr, "usage: client PLACE OBJECT CALL ..\n");
        return 2;
    }
    /* What is sent to a server that is gone is told by fflush, and does not end this program. */
    signal(SIGPIPE, SIG_IGN);
    connection = connected(words[1]);
    if (connection < 0)
        gone("there is no server", strerror(errno));
    to = fdopen(connection, "w");
    from = fdopen(connection, "r");
    if (!to || !from)
        gone("no memory", "");
    ask(to, from, "open", words[2]);
    if (strncmp(line, "opened ", 7) != 0) {
        fputs(line, stderr);
        return 1;
    }
    if (count == 4 && strcmp(words[3], "-") == 0) {
        fputs("opened\n", stderr);
        while (fgets(text, sizeof text, stdin)) {
            text[strcspn(text, "\n")] = 0;
            call(to, from, text);
        }
    } else
        for (k = 3; k < count; k++)
            call(to, from, words[k]);
    ask(to, from, "quit", "");
    return 0;
}

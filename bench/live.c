/* A client of a message bus on a Unix socket, that measures it: connects with Hello, round trips between two connections, and signals to
 * receivers. It speaks to any bus (ours, dbus-daemon, dbus-broker) and counts by the clock.
 * usage: live PATH connect N | round N FLIGHT [QUIET] | signals N RECEIVERS
 * Every run ends by itself: N is at most 1,000,000, and after 60 seconds an alarm ends it. */
#include <errno.h>
#include <stdint.h>
#include <stdio.h>
#include <stdlib.h>
#include <string.h>
#include <sys/prctl.h>
#include <sys/socket.h>
#include <sys/un.h>
#include <sys/wait.h>
#include <signal.h>
#include <time.h>
#include <unistd.h>

static void fail(const char *what) {
    fprintf(stderr, "live: %s: %s\n", what, strerror(errno));
    exit(1);
}

static double now(void) {
    struct timespec t;
    clock_gettime(CLOCK_MONOTONIC, &t);
    return t.tv_sec + t.tv_nsec / 1e9;
}

/* ---- bytes of a message ---- */

struct message { unsigned char bytes[512]; size_t len; };

static void put(struct message *m, const void *bytes, size_t n) { memcpy(m->bytes + m->len, bytes, n); m->len += n; }
static void pad(struct message *m, size_t to) { while (m->len % to) m->bytes[m->len++] = 0; }
static void put_u32(struct message *m, uint32_t v) { pad(m, 4); put(m, &v, 4); }
static void put_text(struct message *m, const char *text) { put_u32(m, strlen(text)); put(m, text, strlen(text) + 1); }

static void text_field(struct message *m, unsigned char code, char type, const char *text) {
    unsigned char head[4] = { code, 1, type, 0 };
    if (!text) return;
    pad(m, 8);
    put(m, head, 4);
    put_text(m, text);
}

/* a message whose body is one text, or none where it is NULL */
static void make(struct message *m, unsigned char kind, unsigned char flags, uint32_t serial, uint32_t reply, const char *path, const char *interface, const char *member,
                 const char *destination, const char *body) {
    unsigned char head[4] = { 'l', kind, flags, 1 };
    unsigned char reply_head[4] = { 5, 1, 'u', 0 };
    unsigned char signature[8] = { 8, 1, 'g', 0, 1, 's', 0, 0 };
    uint32_t fields;
    m->len = 0;
    put(m, head, 4);
    put_u32(m, body ? strlen(body) + 5 : 0);
    put_u32(m, serial);
    put_u32(m, 0);
    text_field(m, 1, 'o', path);
    text_field(m, 2, 's', interface);
    text_field(m, 3, 's', member);
    if (reply) { pad(m, 8); put(m, reply_head, 4); put_u32(m, reply); }
    text_field(m, 6, 's', destination);
    if (body) { pad(m, 8); put(m, signature, 7); }
    fields = m->len - 16;
    memcpy(m->bytes + 12, &fields, 4);
    pad(m, 8);
    if (body) put_text(m, body);
}

/* ---- a connection ---- */

struct conn { int fd; unsigned char held[1 << 16]; size_t from, to; uint32_t serial; char name[64]; };

static void send_all(int fd, const void *bytes, size_t n) {
    const char *at = bytes;
    while (n) {
        ssize_t sent = send(fd, at, n, MSG_NOSIGNAL);
        if (sent < 0) { if (errno == EINTR) continue; fail("send"); }
        at += sent;
        n -= sent;
    }
}

static void more(struct conn *c) {
    ssize_t n;
    if (c->from) { memmove(c->held, c->held + c->from, c->to - c->from); c->to -= c->from; c->from = 0; }
    n = recv(c->fd, c->held + c->to, sizeof c->held - c->to, 0);
    if (n == 0) { errno = ECONNRESET; fail("the bus closed the connection"); }
    if (n < 0) { if (errno == EINTR) return; fail("recv"); }
    c->to += n;
}

/* the next whole message, or NULL */
static unsigned char *whole(struct conn *c, size_t *len) {
    unsigned char *m = c->held + c->from;
    uint32_t body, fields;
    size_t n;
    if (c->to - c->from < 16) return NULL;
    memcpy(&body, m + 4, 4);
    memcpy(&fields, m + 12, 4);
    n = 16 + ((fields + 7) & ~7u) + body;
    if (n > sizeof c->held) fail("a long message");
    if (c->to - c->from < n) return NULL;
    c->from += n;
    *len = n;
    return m;
}

static unsigned char *next(struct conn *c, size_t *len) {
    unsigned char *m;
    while (!(m = whole(c, len))) more(c);
    return m;
}

static uint32_t reply_serial(const unsigned char *m) {
    uint32_t fields, len, serial = 0;
    size_t at = 16, end;
    memcpy(&fields, m + 12, 4);
    end = 16 + fields;
    while (at < end) {
        at = (at + 7) & ~(size_t)7;
        if (at >= end) break;
        switch (m[at + 2]) {
        case 'u': if (m[at] == 5) memcpy(&serial, m + at + 4, 4); at += 8; break;
        case 'g': at += 4 + 1 + m[at + 4] + 1; break;
        default: memcpy(&len, m + at + 4, 4); at += 8 + len + 1;
        }
    }
    return serial;
}

/* the text of field 7, the sender */
static void sender(const unsigned char *m, char *name, size_t room) {
    uint32_t fields, len;
    size_t at = 16, end;
    memcpy(&fields, m + 12, 4);
    end = 16 + fields;
    name[0] = 0;
    while (at < end) {
        at = (at + 7) & ~(size_t)7;
        if (at >= end) break;
        switch (m[at + 2]) {
        case 'u': at += 8; break;
        case 'g': at += 4 + 1 + m[at + 4] + 1; break;
        default:
            memcpy(&len, m + at + 4, 4);
            if (m[at] == 7) snprintf(name, room, "%s", m + at + 8);
            at += 8 + len + 1;
        }
    }
}

static void lines_over(struct conn *c) {
    char line[1024];
    size_t n = 0;
    while (n < sizeof line - 1 && (n < 2 || line[n - 2] != '\r' || line[n - 1] != '\n')) {
        ssize_t got = recv(c->fd, line + n, 1, 0);
        if (got <= 0) fail("authentication");
        n += got;
    }
    if (strncmp(line, "OK ", 3)) fail("authentication was refused");
    send_all(c->fd, "BEGIN\r\n", 7);
}

static uint32_t call_bus(struct conn *c, const char *member, const char *text) {
    struct message m;
    make(&m, 1, 0, ++c->serial, 0, "/org/freedesktop/DBus", "org.freedesktop.DBus", member, "org.freedesktop.DBus", text);
    send_all(c->fd, m.bytes, m.len);
    return c->serial;
}

static unsigned char *reply_to(struct conn *c, uint32_t serial, size_t *len) {
    unsigned char *m;
    do m = next(c, len); while (m[1] == 4 || reply_serial(m) != serial);
    if (m[1] != 2) { errno = EPROTO; fail("the bus answered an error"); }
    return m;
}

/* connects, authenticates and says Hello */
static void join(struct conn *c, const char *path) {
    struct sockaddr_un at = { .sun_family = AF_UNIX };
    char uid[16], line[128] = "AUTH EXTERNAL ";
    size_t len, i;
    unsigned char *m;
    uint32_t fields;
    memset(c, 0, sizeof *c);
    snprintf(at.sun_path, sizeof at.sun_path, "%s", path);
    c->fd = socket(AF_UNIX, SOCK_STREAM | SOCK_CLOEXEC, 0);
    if (c->fd < 0 || connect(c->fd, (struct sockaddr *)&at, sizeof at)) fail("connect");
    snprintf(uid, sizeof uid, "%u", (unsigned)getuid());
    for (i = 0; uid[i]; i++) sprintf(line + strlen(line), "%02x", uid[i]);
    strcat(line, "\r\n");
    send_all(c->fd, "", 1);
    send_all(c->fd, line, strlen(line));
    lines_over(c);
    m = reply_to(c, call_bus(c, "Hello", NULL), &len);
    memcpy(&fields, m + 12, 4);
    snprintf(c->name, sizeof c->name, "%s", (char *)m + 16 + ((fields + 7) & ~7u) + 4);
}

static void add_match(struct conn *c, const char *rule) {
    size_t len;
    reply_to(c, call_bus(c, "AddMatch", rule), &len);
}

/* ---- what is measured ---- */

/* a child that ends with its parent, and after 60 seconds */
static pid_t child_of(void) {
    pid_t child = fork();
    if (child < 0) fail("fork");
    if (!child) { prctl(PR_SET_PDEATHSIG, SIGKILL); alarm(60); }
    return child;
}

static void run_connect(const char *path, long n) {
    static struct conn c;
    double start = now();
    for (long i = 0; i < n; i++) { join(&c, path); close(c.fd); }
    printf("%.0f connects with Hello a second\n", n / (now() - start));
}

/* answers calls until the pipe closes */
static void serve(const char *path, int tell) {
    static struct conn c;
    struct message m;
    size_t len;
    char to[64];
    join(&c, path);
    if (write(tell, c.name, sizeof c.name) != sizeof c.name) fail("pipe");
    for (;;) {
        unsigned char *got = next(&c, &len);
        uint32_t serial;
        if (got[1] != 1) continue;
        memcpy(&serial, got + 8, 4);
        sender(got, to, sizeof to);
        make(&m, 2, 1, ++c.serial, serial, NULL, NULL, NULL, to, NULL);
        send_all(c.fd, m.bytes, m.len);
    }
}

static void run_round(const char *path, long n, long flight, long quiet) {
    static struct conn c, other;
    int fds[2];
    char name[64];
    struct message m;
    size_t len;
    pid_t child;
    long asked = 0, done = 0;
    double start;
    if (pipe(fds)) fail("pipe");
    child = child_of();
    if (!child) serve(path, fds[1]);
    if (read(fds[0], name, sizeof name) != sizeof name) fail("pipe");
    for (long i = 0; i < quiet; i++) join(&other, path);
    join(&c, path);
    start = now();
    while (done < n) {
        unsigned char *got;
        while (asked < n && asked - done < flight) {
            make(&m, 1, 0, ++c.serial, 0, "/a", "a.b", "C", name, NULL);
            send_all(c.fd, m.bytes, m.len);
            asked++;
        }
        got = next(&c, &len);
        if (got[1] == 2) done++;
        if (got[1] == 3) { errno = EPROTO; fail("an error came"); }
    }
    printf("%.0f round trips a second, %ld in flight, beside %ld quiet links\n", n / (now() - start), flight, quiet);
    kill(child, 15);
    waitpid(child, NULL, 0);
}

static void receive(const char *path, long n, int tell) {
    static struct conn c;
    size_t len;
    long got = 0;
    char done = 1;
    join(&c, path);
    add_match(&c, "type='signal',interface='a.b',member='S'");
    if (write(tell, &done, 1) != 1) fail("pipe");
    while (got < n) if (next(&c, &len)[1] == 4) got++;
    if (write(tell, &done, 1) != 1) fail("pipe");
    exit(0);
}

static void wait_for(int fd, long n) {
    char one;
    for (long i = 0; i < n; i++) if (read(fd, &one, 1) != 1) fail("a receiver ended");
}

static void run_signals(const char *path, long n, long receivers) {
    static struct conn c;
    int fds[2];
    struct message m;
    double start;
    if (pipe(fds)) fail("pipe");
    for (long i = 0; i < receivers; i++) {
        pid_t child = child_of();
        if (!child) receive(path, n, fds[1]);
    }
    close(fds[1]);
    wait_for(fds[0], receivers);
    join(&c, path);
    start = now();
    for (long i = 0; i < n; i++) {
        make(&m, 4, 1, ++c.serial, 0, "/a", "a.b", "S", NULL, "text");
        send_all(c.fd, m.bytes, m.len);
    }
    wait_for(fds[0], receivers);
    printf("%.0f signals a second to %ld receivers\n", n / (now() - start), receivers);
    while (wait(NULL) > 0) {}
}

int main(int argc, char **argv) {
    long n = argc > 3 ? atol(argv[3]) : 0, more_words = argc > 4 ? atol(argv[4]) : 0;
    if (argc < 4 || n < 1 || n > 1000000) { fprintf(stderr, "usage: live PATH connect N | round N FLIGHT [QUIET] | signals N RECEIVERS\n"); return 2; }
    alarm(60);
    if (!strcmp(argv[2], "connect")) run_connect(argv[1], n);
    else if (!strcmp(argv[2], "round")) run_round(argv[1], n, more_words < 1 ? 1 : more_words, argc > 5 ? atol(argv[5]) : 0);
    else if (!strcmp(argv[2], "signals")) run_signals(argv[1], n, more_words < 1 ? 1 : more_words > 60 ? 60 : more_words);
    else return 2;
    return 0;
}

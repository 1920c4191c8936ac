/*
 * Clients that send batches of transfers, each once its last one is answered: to a served ledger
 * over HTTP, or to PostgreSQL and the function of `ledger.sql` by libpq. Each keeps its connection;
 * all are in one thread.
 *
 *     clients http PORT CLIENTS TENANTS ACCOUNTS SIZE SECONDS FIRST < KEYS
 *     clients postgres FOLDER CLIENTS TENANTS ACCOUNTS SIZE SECONDS FIRST
 *
 * KEYS are the tenants' keys, one a line. A tenant's accounts are 1 to ACCOUNTS, and a transfer is
 * between two of them, drawn evenly. Ids come behind FIRST; each client has its own. Prints how many
 * transfers were accepted, the seconds, and the median and the 99th of a hundred of all waits in
 * milliseconds.
 */
#define _GNU_SOURCE
#include <arpa/inet.h>
#include <libpq-fe.h>
#include <netinet/tcp.h>
#include <poll.h>
#include <stdint.h>
#include <stdio.h>
#include <stdlib.h>
#include <string.h>
#include <sys/socket.h>
#include <time.h>
#include <unistd.h>

#define MOST 1000
#define KEY 64
#define ROOM (1 << 18)
#define IDS 1000000000000u

typedef struct {
    int socket;
    PGconn *server;
    const char *key;
    char tenant[24], *text, *reply;
    uint64_t next;
    size_t had;
    double begun;
} client;

static client clients[MOST];
static char keys[MOST][KEY + 2];
static uint64_t accounts, size;
static double *waits;
static size_t done, most_waits;

static void fail(const char *what, const char *why) {
    fprintf(stderr, "clients: %s: %s\n", what, why);
    exit(1);
}

static double now(void) {
    struct timespec t;
    clock_gettime(CLOCK_MONOTONIC, &t);
    return t.tv_sec + t.tv_nsec / 1e9;
}

static void keep_wait(double seconds) {
    if (done == most_waits) {
        most_waits = most_waits ? 2 * most_waits : 1 << 16;
        waits = realloc(waits, most_waits * sizeof *waits);
        if (!waits) fail("waits", "no memory");
    }
    waits[done++] = seconds;
}

/* Writes the next batch, an event after the other, in this form; each is told its id, its debit and
   its credit account. */
static size_t put_batch(client *it, char *to, const char *form) {
    char *end = to;
    for (uint64_t i = 0; i < size; i++, it->next++) {
        uint64_t mixed = it->next * 0x9E3779B97F4A7C15u;
        uint64_t debit = (mixed >> 40) % accounts;
        uint64_t credit = (debit + 1 + (mixed >> 20) % 1048576 % (accounts - 1)) % accounts;
        end += sprintf(end, form, i ? "," : "", (unsigned long long)it->next,
            (unsigned long long)debit + 1, (unsigned long long)credit + 1);
    }
    return (size_t)(end - to);
}

/* Over HTTP. */

static void connect_http(client *it, int port) {
    struct sockaddr_in to = {.sin_family = AF_INET, .sin_port = htons((uint16_t)port),
        .sin_addr.s_addr = htonl(INADDR_LOOPBACK)};
    int one = 1;
    it->socket = socket(AF_INET, SOCK_STREAM, 0);
    if (connect(it->socket, (struct sockaddr *)&to, sizeof to)) fail("connect", "refused");
    setsockopt(it->socket, IPPROTO_TCP, TCP_NODELAY, &one, sizeof one);
}

static void send_http(client *it) {
    static char body[ROOM];
    body[0] = '[';
    size_t length = 1 + put_batch(it, body + 1, "%s{\"id\":\"%llu\",\"debit_account_id\":\"%llu\","
        "\"credit_account_id\":\"%llu\",\"amount\":\"1\",\"ledger\":7,\"code\":1}");
    body[length++] = ']';
    int head = sprintf(it->text, "POST /transfers HTTP/1.1\r\nx-ledger-key: %s\r\n"
        "content-length: %zu\r\n\r\n", it->key, length);
    memcpy(it->text + head, body, length);
    size_t whole = (size_t)head + length;
    for (size_t sent = 0; sent < whole;) {
        ssize_t part = send(it->socket, it->text + sent, whole - sent, 0);
        if (part < 0) fail("send", it->text);
        sent += (size_t)part;
    }
    it->had = 0;
}

/* Whether the reply is whole. */
static int hear_http(client *it) {
    ssize_t part = recv(it->socket, it->reply + it->had, ROOM - 1 - it->had, 0);
    if (part <= 0) fail("recv", "the connection has ended");
    it->had += (size_t)part;
    it->reply[it->had] = 0;
    char *body = strstr(it->reply, "\r\n\r\n"), *length = strstr(it->reply, "content-length: ");
    if (!body || !length) return 0;
    body += 4;
    if ((size_t)(it->reply + it->had - body) < strtoul(length + 16, 0, 10)) return 0;
    uint64_t ok = 0;
    for (char *at = body; (at = strstr(at, "\"result\":\"ok\"")); at += 13) ok++;
    if (ok != size) fail("answered", it->reply);
    return 1;
}

/* By libpq. */

static void connect_postgres(client *it, const char *folder) {
    const char *names[] = {"host", "dbname", "user", 0}, *values[] = {folder, "postgres",
        "postgres", 0};
    it->server = PQconnectdbParams(names, values, 0);
    if (PQstatus(it->server) != CONNECTION_OK) fail("connect", PQerrorMessage(it->server));
    PGresult *made = PQprepare(it->server, "send", "SELECT send($1::bigint, (extract(epoch FROM "
        "clock_timestamp()) * 1000000000)::bigint, $2::event[])", 2, 0);
    if (PQresultStatus(made) != PGRES_COMMAND_OK) fail("prepare", PQerrorMessage(it->server));
    PQclear(made);
    PQsetnonblocking(it->server, 1);
    it->socket = PQsocket(it->server);
}

static void send_postgres(client *it) {
    it->text[0] = '{';
    size_t length = 1 + put_batch(it, it->text + 1,
        "%s\"(%llu,%llu,%llu,1,0,0,0,0,0,7,1,0,0)\"");
    strcpy(it->text + length, "}");
    const char *values[] = {it->tenant, it->text};
    if (!PQsendQueryPrepared(it->server, "send", 2, values, 0, 0, 0))
        fail("send", PQerrorMessage(it->server));
    while (PQflush(it->server) > 0) {
        struct pollfd ready = {.fd = it->socket, .events = POLLIN | POLLOUT};
        poll(&ready, 1, -1);
        PQconsumeInput(it->server);
    }
}

/* Whether the reply is whole: a row, and no more. */
static int hear_postgres(client *it) {
    if (!PQconsumeInput(it->server)) fail("recv", PQerrorMessage(it->server));
    while (!PQisBusy(it->server)) {
        PGresult *told = PQgetResult(it->server);
        if (!told) return 1;
        if (PQresultStatus(told) != PGRES_TUPLES_OK) fail("answered", PQerrorMessage(it->server));
        char *results = PQgetvalue(told, 0, 0);
        if (results[strspn(results, "{0,}")]) fail("answered", results);
        PQclear(told);
    }
    return 0;
}

static void begin(client *it, int place, int tenants, uint64_t first) {
    it->key = keys[place % tenants];
    sprintf(it->tenant, "%d", 1 + place % tenants);
    it->next = 1 + first + (uint64_t)place * IDS;
    it->text = malloc(ROOM);
    it->reply = malloc(ROOM);
    if (!it->text || !it->reply) fail("text", "no memory");
}

static void play(int many, double seconds, void (*send_next)(client *), int (*hear)(client *)) {
    struct pollfd ready[MOST];
    double end = now() + seconds;
    int left = many;
    for (int i = 0; i < many; i++) {
        ready[i] = (struct pollfd){.fd = clients[i].socket, .events = POLLIN};
        clients[i].begun = now();
        send_next(&clients[i]);
    }
    while (left) {
        if (poll(ready, (nfds_t)many, -1) < 0) fail("poll", "failed");
        for (int i = 0; i < many; i++) {
            client *it = &clients[i];
            if (!ready[i].revents || !hear(it)) continue;
            double moment = now();
            keep_wait(moment - it->begun);
            if (moment < end) {
                it->begun = moment;
                send_next(it);
            } else {
                ready[i].fd = -1;
                left--;
            }
        }
    }
}

static int by_length(const void *one, const void *other) {
    double a = *(const double *)one, b = *(const double *)other;
    return (a > b) - (a < b);
}

int main(int count, char **words) {
    if (count != 9) fail("words", "clients http|postgres WHERE CLIENTS TENANTS ACCOUNTS SIZE "
        "SECONDS FIRST");
    int is_http = !strcmp(words[1], "http"), many = atoi(words[3]), tenants = atoi(words[4]);
    if (many < 1 || many > MOST || tenants < 1 || tenants > many) fail("words", "so many clients");
    accounts = strtoull(words[5], 0, 10);
    size = strtoull(words[6], 0, 10);
    for (int i = 0; is_http && i < tenants; i++) {
        if (!fgets(keys[i], sizeof keys[i], stdin)) fail("keys", "too few");
        keys[i][KEY] = 0;
    }
    for (int i = 0; i < many; i++) {
        begin(&clients[i], i, tenants, strtoull(words[8], 0, 10));
        if (is_http) connect_http(&clients[i], atoi(words[2]));
        else connect_postgres(&clients[i], words[2]);
    }
    double begun = now();
    play(many, atof(words[7]), is_http ? send_http : send_postgres,
        is_http ? hear_http : hear_postgres);
    double took = now() - begun;
    qsort(waits, done, sizeof *waits, by_length);
    printf("%llu %.3f %.3f %.3f\n", (unsigned long long)(done * size), took,
        1e3 * waits[done / 2], 1e3 * waits[done * 99 / 100]);
    return 0;
}

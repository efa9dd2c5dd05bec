// Connections that ask an account server as fast as it answers, and what that cost.
//
//   cc -O2 -pthread -o calls calls.c
//   ./calls [-c CONNECTIONS] [-n CALLS] [-k KIND] [-u USERS] [-d DOMAIN] [-p PID] ADDRESS..
//
// Each connection is a thread. It binds, opens what its calls need, and waits for the others; then each asks, reads the
// answer whole, and asks again, until CALLS were made in all. Connection k goes to the k-th ADDRESS, round and round:
// tcp:HOST:PORT or unix:PATH. One line is printed: calls a second, the server's processor time a call (PID, by
// /proc/PID/stat), the wait for an answer (its median, its slowest hundredth and its longest), bytes of memory a call.
//
// KIND    names:N     SamrLookupNamesInDomain of N users (names:1 where -k is left out)
//         none:N      the same of N names that aren't there
//         ids:N       SamrLookupIdsInDomain of N users
//         users       SamrEnumerateUsersInDomain, a page a call, as large as the server gives them
//         lsanames:N  LsarLookupNames of N users, with the domain's name before it
//         lsasids:N   LsarLookupSids of N users
//         create      SamrCreateUser2InDomain and SamrDeleteUser, counted as one call
//         fill        SamrCreateUser2InDomain and SamrCloseHandle: makes the users u000001 to as many as CALLS says
// USERS   how many users `fill` made, on a store that had none (1,000)
#include <arpa/inet.h>
#include <netdb.h>
#include <netinet/tcp.h>
#include <pthread.h>
#include <stdatomic.h>
#include <stdint.h>
#include <stdio.h>
#include <stdlib.h>
#include <string.h>
#include <sys/socket.h>
#include <sys/un.h>
#include <time.h>
#include <unistd.h>

enum { FRAGMENT = 4280, HEAD = 24, VARIANTS = 16 };

// Operation numbers (MS-SAMR 3.1.5, MS-LSAT 3.1.4, MS-LSAD 3.1.4).
enum {
    SAMR_CLOSE = 1, SAMR_LOOKUP_DOMAIN = 5, SAMR_OPEN_DOMAIN = 7, SAMR_ENUMERATE_USERS = 13, SAMR_LOOKUP_NAMES = 17,
    SAMR_LOOKUP_IDS = 18, SAMR_DELETE_USER = 35, SAMR_CREATE_USER2 = 50, SAMR_CONNECT2 = 57,
    LSAR_LOOKUP_NAMES = 14, LSAR_LOOKUP_SIDS = 15, LSAR_OPEN_POLICY2 = 44
};

typedef enum { NAMES, NONE, IDS, USERS, LSA_NAMES, LSA_SIDS, CREATE, FILL } Kind;

static Kind kind = NAMES;
static long entries = 1, users = 1000, connections = 1, calls = 100000;
static const char *domain = "CORP";
static char **addresses;
static int address_count;
static pid_t server;

static atomic_long left, made, named;
static pthread_barrier_t ready, go;

static void fail(const char *what)
{
    fprintf(stderr, "calls: %s\n", what);
    exit(1);
}

static double now(void)
{
    struct timespec t;
    clock_gettime(CLOCK_MONOTONIC, &t);
    return t.tv_sec + t.tv_nsec * 1e-9;
}

// Bytes that grow: a stub, or an answer's.
typedef struct { uint8_t *bytes; size_t count, room; } Stub;

static void put(Stub *s, const void *bytes, size_t count)
{
    if (s->count + count > s->room) {
        s->room = 2 * (s->count + count) + 64;
        s->bytes = realloc(s->bytes, s->room);
        if (!s->bytes)
            fail("no memory");
    }
    memcpy(s->bytes + s->count, bytes, count);
    s->count += count;
}

static void align(Stub *s, size_t to)
{
    while (s->count % to)
        put(s, "", 1);
}

static void put16(Stub *s, uint16_t n) { align(s, 2); put(s, &n, 2); }
static void put32(Stub *s, uint32_t n) { align(s, 4); put(s, &n, 4); }
static uint32_t get32(const Stub *s, size_t at)
{
    uint32_t n;
    if (at + 4 > s->count)
        fail("an answer is short");
    memcpy(&n, s->bytes + at, 4);
    return n;
}

// RPC_UNICODE_STRING: its head, and what it points to.
static void put_text_head(Stub *s, const char *text)
{
    put16(s, 2 * strlen(text));
    put16(s, 2 * strlen(text));
    put32(s, 0x20000);
}

static void put_text_tail(Stub *s, const char *text)
{
    put32(s, strlen(text));
    put32(s, 0);
    put32(s, strlen(text));
    for (; *text; text++)
        put16(s, (uint8_t)*text);
}

// One connection.
typedef struct {
    int socket;
    uint32_t call_id;
    uint16_t context;
    uint8_t handle[20];
    uint8_t sid[68];
    size_t sid_size;
    Stub answer;
    Stub asked[VARIANTS];
    uint32_t page;
    uint64_t seed;
    float *waits;
    long count, room;
    pthread_t thread;
    int number;
} Link;

static void write_all(int to, const uint8_t *bytes, size_t count)
{
    while (count) {
        ssize_t n = write(to, bytes, count);
        if (n <= 0)
            fail("the server takes no bytes");
        bytes += n;
        count -= n;
    }
}

static void read_all(int from, uint8_t *bytes, size_t count)
{
    while (count) {
        ssize_t n = read(from, bytes, count);
        if (n <= 0)
            fail("the server closed a connection (is its history full, or are there fewer workers than connections?)");
        bytes += n;
        count -= n;
    }
}

// Reads one PDU, and gives its length.
static size_t read_pdu(Link *link, uint8_t *pdu)
{
    uint16_t length;
    read_all(link->socket, pdu, 16);
    memcpy(&length, pdu + 8, 2);
    if (length < 16 || length > FRAGMENT)
        fail("a PDU has a bad length");
    read_all(link->socket, pdu + 16, length - 16);
    return length;
}

static void write_head(uint8_t *pdu, uint8_t type, uint8_t flags, uint16_t length, uint32_t call_id)
{
    uint8_t head[16] = {5, 0, type, flags, 0x10};
    memcpy(head + 8, &length, 2);
    memcpy(head + 12, &call_id, 4);
    memcpy(pdu, head, 16);
}

// Sends a request, and reads its answer's stub.
static void ask(Link *link, uint16_t opnum, const Stub *stub)
{
    uint8_t pdu[FRAGMENT];
    const size_t most = FRAGMENT - HEAD;
    size_t at = 0;
    link->call_id++;
    do {
        size_t part = stub->count - at < most ? stub->count - at : most;
        uint32_t hint = stub->count - at;
        uint8_t flags = (at == 0) | (at + part == stub->count) << 1;
        write_head(pdu, 0, flags, HEAD + part, link->call_id);
        memcpy(pdu + 16, &hint, 4);
        memcpy(pdu + 20, &link->context, 2);
        memcpy(pdu + 22, &opnum, 2);
        memcpy(pdu + HEAD, stub->bytes + at, part);
        write_all(link->socket, pdu, HEAD + part);
        at += part;
    } while (at < stub->count);
    link->answer.count = 0;
    do {
        size_t length = read_pdu(link, pdu);
        if (pdu[2] != 2)
            fail("a call was answered by a fault (is the history full?)");
        put(&link->answer, pdu + HEAD, length - HEAD);
    } while (!(pdu[3] & 2));
}

static uint32_t status(const Link *link)
{
    return get32(&link->answer, link->answer.count - 4);
}

static void ask_well(Link *link, uint16_t opnum, const Stub *stub)
{
    ask(link, opnum, stub);
    if (status(link)) {
        fprintf(stderr, "calls: operation %d was answered 0x%08x\n", opnum, status(link));
        exit(1);
    }
}

static int connect_to(const char *address)
{
    char host[256];
    int one = 1, s;
    if (!strncmp(address, "unix:", 5)) {
        struct sockaddr_un to = {.sun_family = AF_UNIX};
        strncpy(to.sun_path, address + 5, sizeof to.sun_path - 1);
        s = socket(AF_UNIX, SOCK_STREAM, 0);
        if (s < 0 || connect(s, (struct sockaddr *)&to, sizeof to))
            fail("no connection");
        return s;
    }
    const char *port = strrchr(address, ':');
    if (strncmp(address, "tcp:", 4) || !port || port - address - 4 >= (long)sizeof host || port == address + 3)
        fail("an address is tcp:HOST:PORT or unix:PATH");
    memcpy(host, address + 4, port - address - 4);
    host[port - address - 4] = 0;
    struct addrinfo hints = {.ai_family = AF_INET, .ai_socktype = SOCK_STREAM}, *to;
    if (getaddrinfo(host, port + 1, &hints, &to))
        fail("no such host");
    s = socket(AF_INET, SOCK_STREAM, 0);
    if (s < 0 || connect(s, to->ai_addr, to->ai_addrlen))
        fail("no connection");
    freeaddrinfo(to);
    setsockopt(s, IPPROTO_TCP, TCP_NODELAY, &one, sizeof one);
    return s;
}

// Binds SAMR as context 0 and LSARPC as context 1.
static void bind_link(Link *link)
{
    static const uint8_t body[] = {
        0xb8, 0x10, 0xb8, 0x10, 0, 0, 0, 0, 2, 0, 0, 0,
        0, 0, 1, 0, 0x78, 0x57, 0x34, 0x12, 0x34, 0x12, 0xcd, 0xab, 0xef, 0, 1, 0x23, 0x45, 0x67, 0x89, 0xac, 1, 0, 0, 0,
        0x04, 0x5d, 0x88, 0x8a, 0xeb, 0x1c, 0xc9, 0x11, 0x9f, 0xe8, 0x08, 0, 0x2b, 0x10, 0x48, 0x60, 2, 0, 0, 0,
        1, 0, 1, 0, 0x78, 0x57, 0x34, 0x12, 0x34, 0x12, 0xcd, 0xab, 0xef, 0, 1, 0x23, 0x45, 0x67, 0x89, 0xab, 0, 0, 0, 0,
        0x04, 0x5d, 0x88, 0x8a, 0xeb, 0x1c, 0xc9, 0x11, 0x9f, 0xe8, 0x08, 0, 0x2b, 0x10, 0x48, 0x60, 2, 0, 0, 0};
    uint8_t pdu[FRAGMENT];
    write_head(pdu, 11, 3, 16 + sizeof body, ++link->call_id);
    memcpy(pdu + 16, body, sizeof body);
    write_all(link->socket, pdu, 16 + sizeof body);
    read_pdu(link, pdu);
    if (pdu[2] != 12)
        fail("the bind was refused");
}

// Opens the server and the domain, of which it learns the SID.
static void open_domain(Link *link)
{
    Stub s = {0};
    put32(&s, 0);
    put32(&s, 0x02000000);
    ask_well(link, SAMR_CONNECT2, &s);
    memcpy(link->handle, link->answer.bytes, 20);
    s.count = 0;
    put(&s, link->handle, 20);
    put_text_head(&s, domain);
    put_text_tail(&s, domain);
    ask_well(link, SAMR_LOOKUP_DOMAIN, &s);
    link->sid_size = link->answer.count - 12;
    memcpy(link->sid, link->answer.bytes + 8, link->sid_size);
    s.count = 0;
    put(&s, link->handle, 20);
    put32(&s, 0x02000000);
    put32(&s, get32(&link->answer, 4));
    put(&s, link->sid, link->sid_size);
    ask_well(link, SAMR_OPEN_DOMAIN, &s);
    memcpy(link->handle, link->answer.bytes, 20);
    free(s.bytes);
}

static void open_policy(Link *link)
{
    Stub s = {0};
    link->context = 1;
    for (int i = 0; i < 7; i++)
        put32(&s, i == 1 ? 24 : 0);
    put32(&s, 0x02000000);
    ask_well(link, LSAR_OPEN_POLICY2, &s);
    memcpy(link->handle, link->answer.bytes, 20);
    free(s.bytes);
}

static uint32_t any_user(Link *link)
{
    link->seed = link->seed * 6364136223846793005u + 1442695040888963407u;
    return (link->seed >> 33) % users;
}

// The stub of a look-up of so many users, taken at random.
static void write_stub(Link *link, Stub *s)
{
    char text[320];
    uint32_t *which = malloc(entries * sizeof *which);
    for (long i = 0; i < entries; i++)
        which[i] = any_user(link);
    put(s, link->handle, 20);
    if (kind == NAMES || kind == NONE || kind == IDS) {
        put32(s, entries);
        put32(s, 1000);
        put32(s, 0);
        put32(s, entries);
    } else if (kind == LSA_NAMES) {
        put32(s, entries);
        put32(s, entries);
    } else if (kind == LSA_SIDS) {
        put32(s, entries);
        put32(s, 0x20000);
        put32(s, entries);
    }
    for (int tails = 0; tails < 2; tails++)
        for (long i = 0; i < entries; i++) {
            const char *form = kind == NONE ? "v%06u" : "u%06u";
            int front = kind == LSA_NAMES ? snprintf(text, sizeof text, "%s\\", domain) : 0;
            snprintf(text + front, sizeof text - front, form, which[i] + 1);
            switch (kind) {
            case NAMES: case NONE: case LSA_NAMES:
                (tails ? put_text_tail : put_text_head)(s, text);
                break;
            case IDS:
                if (!tails)
                    put32(s, 1000 + which[i]);
                break;
            case LSA_SIDS:
                if (tails) {
                    put32(s, link->sid[1] + 1);
                    put(s, "\1", 1);
                    put(s, &(uint8_t){link->sid[1] + 1}, 1);
                    put(s, link->sid + 2, link->sid_size - 2);
                    put32(s, 1000 + which[i]);
                } else
                    put32(s, 0x20000);
                break;
            default:
                break;
            }
        }
    if (kind == LSA_NAMES || kind == LSA_SIDS) {
        put32(s, 0);
        put32(s, 0);
        put16(s, 1);
        put32(s, 0);
    }
    free(which);
}

static void make_user(Link *link, const char *name)
{
    Stub s = {0};
    put(&s, link->handle, 20);
    put_text_head(&s, name);
    put_text_tail(&s, name);
    put32(&s, 0x10);
    put32(&s, 0x02000000);
    ask_well(link, SAMR_CREATE_USER2, &s);
    s.count = 0;
    put(&s, link->answer.bytes, 20);
    ask_well(link, kind == CREATE ? SAMR_DELETE_USER : SAMR_CLOSE, &s);
    free(s.bytes);
}

static void next_page(Link *link)
{
    Stub s = {0};
    put(&s, link->handle, 20);
    put32(&s, link->page);
    put32(&s, 0);
    put32(&s, 0xffffffff);
    ask(link, SAMR_ENUMERATE_USERS, &s);
    link->page = status(link) == 0x105 ? get32(&link->answer, 0) : 0;
    free(s.bytes);
}

static void one_call(Link *link)
{
    static const uint16_t opnums[] = {
        [NAMES] = SAMR_LOOKUP_NAMES, [NONE] = SAMR_LOOKUP_NAMES, [IDS] = SAMR_LOOKUP_IDS,
        [LSA_NAMES] = LSAR_LOOKUP_NAMES, [LSA_SIDS] = LSAR_LOOKUP_SIDS};
    char name[32];
    switch (kind) {
    case CREATE:
        snprintf(name, sizeof name, "n%d", link->number);
        make_user(link, name);
        break;
    case FILL:
        snprintf(name, sizeof name, "u%06ld", atomic_fetch_add(&named, 1) + 1);
        make_user(link, name);
        break;
    case USERS:
        next_page(link);
        break;
    case NONE:
        ask(link, SAMR_LOOKUP_NAMES, &link->asked[link->count % VARIANTS]);
        break;
    default:
        ask_well(link, opnums[kind], &link->asked[link->count % VARIANTS]);
    }
}

static void *run(void *of)
{
    Link *link = of;
    link->socket = connect_to(addresses[link->number % address_count]);
    link->seed = link->number + 1;
    bind_link(link);
    open_domain(link);
    if (kind == LSA_NAMES || kind == LSA_SIDS)
        open_policy(link);
    for (int i = 0; i < VARIANTS; i++)
        write_stub(link, &link->asked[i]);
    pthread_barrier_wait(&ready);
    pthread_barrier_wait(&go);
    while (atomic_fetch_sub(&left, 1) > 0) {
        double began = now();
        one_call(link);
        if (link->count == link->room) {
            link->room = 2 * link->room + 1024;
            link->waits = realloc(link->waits, link->room * sizeof *link->waits);
            if (!link->waits)
                fail("no memory");
        }
        link->waits[link->count++] = now() - began;
    }
    atomic_fetch_add(&made, link->count);
    return NULL;
}

// The processor time of the server's process in seconds, and its memory in bytes.
static void look(double *seconds, double *memory)
{
    char path[64], text[1024], *at;
    unsigned long user, system;
    long pages;
    *seconds = *memory = 0;
    if (!server)
        return;
    snprintf(path, sizeof path, "/proc/%d/stat", (int)server);
    FILE *f = fopen(path, "r");
    if (!f || !fgets(text, sizeof text, f) || !(at = strrchr(text, ')')))
        fail("there is no such process");
    fclose(f);
    if (sscanf(at + 1, " %*c %*d %*d %*d %*d %*d %*u %*u %*u %*u %*u %lu %lu %*d %*d %*d %*d %*d %*d %*u %*u %ld",
               &user, &system, &pages) != 3)
        fail("the process can't be read");
    *seconds = (double)(user + system) / sysconf(_SC_CLK_TCK);
    *memory = (double)pages * sysconf(_SC_PAGESIZE);
}

static int by_size(const void *a, const void *b)
{
    float x = *(const float *)a, y = *(const float *)b;
    return (x > y) - (x < y);
}

static void read_kind(const char *word)
{
    static const char *const words[] = {"names", "none", "ids", "users", "lsanames", "lsasids", "create", "fill"};
    const char *colon = strchr(word, ':');
    size_t length = colon ? (size_t)(colon - word) : strlen(word);
    for (int i = 0; i < 8; i++)
        if (strlen(words[i]) == length && !strncmp(words[i], word, length)) {
            kind = i;
            entries = colon ? atol(colon + 1) : 1;
            return;
        }
    fail("KIND is names:N, none:N, ids:N, users, lsanames:N, lsasids:N, create or fill");
}

int main(int count, char **words)
{
    const char *shown = "names:1";
    int option;
    while ((option = getopt(count, words, "c:n:k:u:d:p:")) != -1)
        switch (option) {
        case 'c': connections = atol(optarg); break;
        case 'n': calls = atol(optarg); break;
        case 'k': read_kind(shown = optarg); break;
        case 'u': users = atol(optarg); break;
        case 'd': domain = optarg; break;
        case 'p': server = atoi(optarg); break;
        default: return 1;
        }
    addresses = words + optind;
    address_count = count - optind;
    if (address_count < 1 || connections < 1 || calls < 1 || entries < 1 || entries > 1000 || users < 1)
        fail("calls [-c CONNECTIONS] [-n CALLS] [-k KIND] [-u USERS] [-d DOMAIN] [-p PID] ADDRESS..");
    left = calls;
    pthread_barrier_init(&ready, NULL, connections + 1);
    pthread_barrier_init(&go, NULL, connections + 1);
    Link *links = calloc(connections, sizeof *links);
    for (int i = 0; i < connections; i++) {
        links[i].number = i;
        if (pthread_create(&links[i].thread, NULL, run, &links[i]))
            fail("no thread");
    }
    double cpu[2], memory[2], began, took;
    pthread_barrier_wait(&ready);
    look(&cpu[0], &memory[0]);
    began = now();
    pthread_barrier_wait(&go);
    for (int i = 0; i < connections; i++)
        pthread_join(links[i].thread, NULL);
    took = now() - began;
    look(&cpu[1], &memory[1]);
    float *waits = malloc((made + 1) * sizeof *waits);
    long n = 0;
    for (int i = 0; i < connections; i++) {
        memcpy(waits + n, links[i].waits, links[i].count * sizeof *waits);
        n += links[i].count;
    }
    qsort(waits, n, sizeof *waits, by_size);
    printf("%-12s connections %4ld  calls %7ld  a_second %8.0f  cpu_us %8.2f  median_us %8.1f  slow_us %9.1f  "
           "longest_us %9.1f  bytes %6.0f\n",
           shown, connections, n, n / took, (cpu[1] - cpu[0]) / n * 1e6, waits[n / 2] * 1e6, waits[n - 1 - n / 100] * 1e6,
           waits[n - 1] * 1e6, (memory[1] - memory[0]) / n);
    return 0;
}

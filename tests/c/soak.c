/*
 * A client and a server on the loopback interface, for as many messages as are requested: soak MESSAGES < FRAMES
 *
 * FRAMES has a frame of version 9 on each line, in hexadecimal. The client opens a connection after the other, writes
 * frames that it picks at random in chunks of random sizes, and ends each connection in one of four ways in turn: after
 * a complete frame; within one; after the header of a message that is longer than the limit; or by a reset, which makes
 * a read of the server fail. The server reads chunks of random sizes and finds their items by journal_next_within. Both
 * pick from the same seed, so the server knows what has to come: each frame as it was sent, in order, and the end that
 * belongs to it. The resident memory of its own is read each million messages, and has to stay as it was after the
 * first, except for a few pages of the C library.
 */
#include <netinet/in.h>
#include <netinet/tcp.h>
#include <stdio.h>
#include <stdlib.h>
#include <string.h>
#include <sys/prctl.h>
#include <sys/socket.h>
#include <sys/wait.h>
#include <unistd.h>

#include <pendratsoa.h>

enum { MOST_FRAMES = 4096, LONGEST = 1 << 20, LIMIT = 1 << 20, CHUNK = 65536, ENDS = 4, FEW_PAGES = 16 };
enum end { WHOLE, WITHIN, TOO_LONG, RESET };

struct frame {
    uint8_t *bytes;
    size_t length;
};

static struct frame frames[MOST_FRAMES];
static size_t frame_count;

/* xorshift: the same numbers on both sides */
static uint64_t next_random(uint64_t *state) {
    *state ^= *state << 13;
    *state ^= *state >> 7;
    *state ^= *state << 17;
    return *state;
}

static void fail(const char *what) {
    fprintf(stderr, "soak: %s\n", what);
    exit(1);
}

static void read_frames(void) {
    static char line[2 * LONGEST + 2];
    while (fgets(line, sizeof line, stdin) != NULL && frame_count < MOST_FRAMES) {
        size_t length = strcspn(line, "\n") / 2;
        struct frame *frame = &frames[frame_count++];
        frame->bytes = malloc(length);
        frame->length = length;
        for (size_t i = 0; i < length; i++) {
            unsigned byte;
            if (sscanf(line + 2 * i, "%2x", &byte) != 1) fail("a frame is not hexadecimal");
            frame->bytes[i] = (uint8_t)byte;
        }
    }
    if (frame_count == 0) fail("there are no frames");
}

/* A connection: how it ends, how many frames it has, and where its numbers begin. */
struct connection {
    enum end end;
    size_t count;
    uint64_t picks;
};

static struct connection connection_of(uint64_t index) {
    uint64_t state = 0x9E3779B97F4A7C15u * (index + 1);
    struct connection connection = {(enum end)(index % ENDS), 0, 0};
    connection.count = 1 + next_random(&state) % 20000;
    connection.picks = next_random(&state);
    return connection;
}

static const struct frame *pick(uint64_t *picks) {
    return &frames[next_random(picks) % frame_count];
}

/* ---- the client */

static uint8_t chunk[CHUNK];
static size_t filled;

static int send_all(int to, const uint8_t *bytes, size_t length) {
    while (length > 0) {
        ssize_t count = send(to, bytes, length, MSG_NOSIGNAL);
        if (count < 0) return -1;
        bytes += count;
        length -= (size_t)count;
    }
    return 0;
}

/* Adds bytes to the chunk, and sends it whenever it has a random number of bytes. */
static void put(int to, const uint8_t *bytes, size_t length, uint64_t *sizes) {
    static size_t size = CHUNK;
    while (length > 0) {
        size_t count = length < size - filled ? length : size - filled;
        memcpy(chunk + filled, bytes, count);
        filled += count;
        bytes += count;
        length -= count;
        if (filled == size) {
            (void)send_all(to, chunk, filled);
            filled = 0;
            size = next_random(sizes) % 8 == 0 ? 1 + next_random(sizes) % 16 : 1 + next_random(sizes) % CHUNK;
        }
    }
}

static void serve_as_client(struct sockaddr_in address) {
    uint64_t sizes = 12345;
    for (uint64_t index = 0;; index++) {
        struct connection connection = connection_of(index);
        int to = socket(AF_INET, SOCK_STREAM, 0);
        int at_once = 1;
        if (to < 0 || connect(to, (struct sockaddr *)&address, sizeof address) != 0) exit(0);
        (void)setsockopt(to, IPPROTO_TCP, TCP_NODELAY, &at_once, sizeof at_once);
        for (size_t i = 0; i < connection.count; i++) {
            const struct frame *frame = pick(&connection.picks);
            put(to, frame->bytes, frame->length, &sizes);
        }
        if (connection.end == WITHIN) {
            const struct frame *frame = pick(&connection.picks);
            put(to, frame->bytes, frame->length - 1, &sizes);
        } else if (connection.end == TOO_LONG) {
            const uint8_t header[9] = {0x04, 0x00, 0, 0, 0xFF, 0xFF, 0xFF, 0xFF, 0x72};
            put(to, header, sizeof header, &sizes);
        }
        (void)send_all(to, chunk, filled);
        filled = 0;
        if (connection.end == RESET) {
            struct linger linger = {1, 0};
            (void)setsockopt(to, SOL_SOCKET, SO_LINGER, &linger, sizeof linger);
        } else {
            /* until the server has closed it too, so that no more connections wait than it takes */
            (void)shutdown(to, SHUT_WR);
            while (read(to, chunk, sizeof chunk) > 0) continue;
        }
        close(to);
    }
}

/* ---- the server */

/* The bytes received that are in no complete item yet. */
static uint8_t pending[LONGEST + 8 + CHUNK];
static size_t pending_length;

/* Pages of the process's own, resident or swapped out. Those of its files (the program, the C library) come as they are
 * first used. They are counted one by one: /proc/self/statm may lack those that a processor has not added to it yet. */
static long own_pages(void) {
    static char line[256];
    long found = 0, own = 0, swapped = 0;
    FILE *memory = fopen("/proc/self/smaps_rollup", "r");
    while (memory != NULL && fgets(line, sizeof line, memory) != NULL) {
        found += sscanf(line, "Anonymous: %ld kB", &own) == 1;
        found += sscanf(line, "Swap: %ld kB", &swapped) == 1;
    }
    if (found != 2) fail("no memory to read");
    fclose(memory);
    return (own + swapped) / (sysconf(_SC_PAGESIZE) / 1024);
}

/* Takes the items at the front of what is pending. Returns the error that ended them, or 0. */
static int64_t take_items(struct connection *connection, size_t *taken) {
    struct journal_item item;
    size_t at = 0;
    int64_t result = 0;
    for (;;) {
        result = journal_next_within(9, LIMIT, pending + at, pending_length - at, &item, JOURNAL_ITEM_NUMBERS);
        if (result != 0) break;
        if (*taken == connection->count) fail("an item more than was sent");
        const struct frame *frame = pick(&connection->picks);
        if (item.size != frame->length || memcmp(pending + at, frame->bytes, frame->length) != 0) {
            fail("an item is not what was sent");
        }
        *taken += 1;
        at += (size_t)item.size;
    }
    memmove(pending, pending + at, pending_length - at);
    pending_length -= at;
    return result;
}

/* Reads a connection to its end, which has to be that which it was given. */
static size_t read_connection(int from, struct connection connection, uint64_t *sizes) {
    size_t taken = 0;
    int64_t result = 0;
    ssize_t count;
    pending_length = 0;
    for (;;) {
        size_t room = 1 + next_random(sizes) % CHUNK;
        count = read(from, pending + pending_length, room);
        if (count <= 0) break;
        pending_length += (size_t)count;
        result = take_items(&connection, &taken);
        if (result < 0) break;
    }
    if (connection.end == TOO_LONG && result != JOURNAL_TOO_LONG) fail("a message is too long, and is no error");
    if (connection.end != TOO_LONG && result < 0) fail("an error that should not be");
    if (connection.end == RESET && count == 0 && taken < connection.count) fail("a reset is a clean end");
    if (connection.end != RESET && taken != connection.count) fail("an item was lost");
    if (connection.end == WHOLE && pending_length != 0) fail("bytes are left after a whole item");
    if (connection.end == WITHIN && pending_length != pick(&connection.picks)->length - 1) {
        fail("a part of an item is lost");
    }
    return taken;
}

int main(int count, char **words) {
    size_t messages = count == 2 ? strtoull(words[1], NULL, 10) : 0;
    if (messages == 0) {
        fprintf(stderr, "usage: soak MESSAGES < FRAMES\n");
        return 2;
    }
    read_frames();
    struct sockaddr_in address = {.sin_family = AF_INET};
    socklen_t size = sizeof address;
    int listening = socket(AF_INET, SOCK_STREAM, 0);
    address.sin_addr.s_addr = htonl(INADDR_LOOPBACK);
    if (listening < 0 || bind(listening, (struct sockaddr *)&address, sizeof address) != 0 ||
        listen(listening, 16) != 0 || getsockname(listening, (struct sockaddr *)&address, &size) != 0) {
        fail("no socket");
    }
    pid_t client = fork();
    if (client == 0) {
        close(listening);
        serve_as_client(address);
    }
    /* the system would make a large page of several at any time, which holds more */
    (void)prctl(PR_SET_THP_DISABLE, 1, 0, 0, 0);
    /* all of it is resident from the beginning, so that nothing but what is held can grow */
    memset(pending, 1, sizeof pending);
    uint64_t sizes = 54321;
    size_t done = 0, reported = 0;
    long first = 0, most = 0;
    for (uint64_t index = 0; done < messages; index++) {
        int from = accept(listening, NULL, NULL);
        if (from < 0) fail("no connection");
        done += read_connection(from, connection_of(index), &sizes);
        close(from);
        if (done / 1000000 > reported) {
            reported = done / 1000000;
            long own = own_pages();
            if (first == 0) first = own;
            if (own > most) most = own;
            printf("%zu messages, %zu connections, %ld pages\n", done, (size_t)index + 1, own);
        }
    }
    close(listening);
    waitpid(client, NULL, 0);
    if (most > first + FEW_PAGES) fail("memory grows");
    printf("%zu messages came as they were sent\n", done);
    return 0;
}

/*
 * Measures the sides on the messages on the standard input. A line is the name of a workload, a schema and a payload in
 * hex digits: main [--side NAME WORK ROUNDS WORKLOAD]
 *
 * A line of the output is a workload, the work, nanoseconds a message of each side, and how many times as fast as each
 * of the others the first one is. Before that the sides have to read the same and to write the payloads. The sides take
 * turns; the least of the measurements counts. With --side only that side works, for a profiler.
 */
#define _POSIX_C_SOURCE 200809L
#include <stdio.h>
#include <stdlib.h>
#include <string.h>
#include <time.h>

#include "sides.h"

#define MEASUREMENTS 15
#define LENGTH 20e6
#define MOST_WORKLOADS 32

struct workload {
    char name[64];
    struct message *messages;
    size_t count;
    size_t bytes;
};

static const struct side *const sides[] = {&ours, &protobuf_c, &libprotobuf, &libprotobuf_reused};
#define SIDES (sizeof sides / sizeof *sides)

static struct workload workloads[MOST_WORKLOADS];
static size_t workload_count;
static uint8_t *out;
static size_t room;

static void fail(const char *why) {
    fprintf(stderr, "measure: %s\n", why);
    exit(1);
}

static double now(void) {
    struct timespec time;

    clock_gettime(CLOCK_PROCESS_CPUTIME_ID, &time);
    return (double)time.tv_sec * 1e9 + (double)time.tv_nsec;
}

static unsigned digit(char character) {
    return character <= '9' ? (unsigned)(character - '0') : (unsigned)(character - 'a' + 10);
}

static void add(const char *name, uint32_t schema, const char *digits) {
    size_t length = strcmp(digits, "-") == 0 ? 0 : strlen(digits) / 2;
    uint8_t *payload = malloc(length + 1);
    struct workload *workload;

    if (workload_count == 0 || strcmp(workloads[workload_count - 1].name, name) != 0) {
        if (workload_count == MOST_WORKLOADS) {
            fail("too many workloads");
        }
        snprintf(workloads[workload_count++].name, sizeof workloads->name, "%s", name);
    }
    workload = &workloads[workload_count - 1];
    for (size_t i = 0; i < length; i++) {
        payload[i] = (uint8_t)(digit(digits[2 * i]) << 4 | digit(digits[2 * i + 1]));
    }
    workload->messages = realloc(workload->messages, (workload->count + 1) * sizeof *workload->messages);
    workload->messages[workload->count++] = (struct message){schema, payload, length};
    workload->bytes += length;
}

static void read_messages(void) {
    char *line = NULL;
    size_t had = 0;

    while (getline(&line, &had, stdin) >= 0) {
        char *name = strtok(line, " \n"), *schema = strtok(NULL, " \n"), *digits = strtok(NULL, " \n");

        if (digits == NULL) {
            fail("a line has too few words");
        }
        add(name, (uint32_t)strtoul(schema, NULL, 10), digits);
    }
    free(line);
}

static uint64_t work(const struct side *side, const struct workload *workload, int encodes) {
    return encodes ? side->encode(out, room) : side->decode(workload->messages, workload->count);
}

/* Leaves out the messages that protobuf-c cannot have: its strings end at a zero byte. Says how many there are. */
static void leave_out(struct workload *workload) {
    size_t left = 0, had = workload->count;

    workload->bytes = 0;
    for (size_t i = 0; i < had; i++) {
        const struct message one = workload->messages[i];

        protobuf_c.keep(&one, 1);
        if (protobuf_c.encode(out, room) == one.length && memcmp(out, one.payload, one.length) == 0) {
            workload->messages[left++] = one;
            workload->bytes += one.length;
        }
    }
    workload->count = left;
    if (left < had) {
        printf("%s: %zu of %zu messages have a text with a zero byte, which protobuf-c cuts; they are left out\n",
               workload->name, had - left, had);
    }
}

/* Whether all sides read the same and write the payloads. */
static void compare(const struct workload *workload) {
    uint64_t sum = sides[0]->decode(workload->messages, workload->count);

    for (size_t i = 0; i < SIDES; i++) {
        size_t at = 0;

        if (sides[i]->decode(workload->messages, workload->count) != sum) {
            fail("the sides read other fields");
        }
        sides[i]->keep(workload->messages, workload->count);
        if (sides[i]->encode(out, room) != workload->bytes) {
            fail("a side writes another payload");
        }
        for (size_t k = 0; k < workload->count; at += workload->messages[k++].length) {
            if (memcmp(out + at, workload->messages[k].payload, workload->messages[k].length) != 0) {
                fail("a side writes another payload");
            }
        }
    }
}

static void measure(const struct workload *workload, int encodes) {
    double least[SIDES];
    size_t rounds[SIDES];

    for (size_t i = 0; i < SIDES; i++) {
        double start = now(), took;

        sides[i]->keep(workload->messages, workload->count);
        start = now();
        rounds[i] = 0;
        do {
            work(sides[i], workload, encodes);
            rounds[i]++;
            took = now() - start;
        } while (took < LENGTH / 4);
        rounds[i] *= 4;
        least[i] = 1e300;
    }
    for (int turn = 0; turn < MEASUREMENTS; turn++) {
        for (size_t i = 0; i < SIDES; i++) {
            double start = now(), took;

            for (size_t k = 0; k < rounds[i]; k++) {
                work(sides[i], workload, encodes);
            }
            took = (now() - start) / (double)rounds[i] / (double)workload->count;
            least[i] = took < least[i] ? took : least[i];
        }
    }
    printf("| %s | %s |", workload->name, encodes ? "encode" : "decode");
    for (size_t i = 0; i < SIDES; i++) {
        printf(" %.0f |", least[i]);
    }
    for (size_t i = 1; i < SIDES; i++) {
        printf(" %.2f |", least[i] / least[0]);
    }
    printf("\n");
    fflush(stdout);
}

int main(int count, char **words) {
    read_messages();
    for (size_t i = 0; i < workload_count; i++) {
        room = workloads[i].bytes > room ? workloads[i].bytes : room;
    }
    out = malloc(room + 1);
    if (count == 6 && strcmp(words[1], "--side") == 0) {
        for (size_t i = 0; i < SIDES; i++) {
            for (size_t k = 0; k < workload_count; k++) {
                if (strcmp(sides[i]->name, words[2]) == 0 && strcmp(workloads[k].name, words[5]) == 0) {
                    sides[i]->keep(workloads[k].messages, workloads[k].count);
                    for (long round = strtol(words[4], NULL, 10); round > 0; round--) {
                        work(sides[i], &workloads[k], strcmp(words[3], "encode") == 0);
                    }
                }
            }
        }
        return 0;
    }
    for (size_t i = 0; i < workload_count; i++) {
        leave_out(&workloads[i]);
    }
    printf("| Messages | Work | pendratsoa, ns | protobuf-c | libprotobuf | reused | ratios: protobuf-c | libprotobuf |"
           " reused |\n|---|---|---|---|---|---|---|---|---|\n");
    for (size_t i = 0; i < workload_count; i++) {
        compare(&workloads[i]);
        measure(&workloads[i], 0);
        measure(&workloads[i], 1);
    }
    return 0;
}

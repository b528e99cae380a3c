/* Writes and reads blocks of a device past the page cache, from several threads, and looks whether each has what was written there last.
 *
 *     blocks DEVICE SECONDS BYTES THREADS
 *
 * Each 512 bytes have their place and the number of the write in them. The last line is 'N operations, M mismatches, E errors'. */
#define _GNU_SOURCE
#include <fcntl.h>
#include <pthread.h>
#include <stdint.h>
#include <stdio.h>
#include <stdlib.h>
#include <string.h>
#include <time.h>
#include <unistd.h>

enum { UNIT = 512, PLACES = 16, MOST_THREADS = 64 };

static int device;
static size_t bytes;
static double end;

struct worker {
    pthread_t thread;
    unsigned seed, number;
    uint64_t written[PLACES]; /* the number of the last write of each place; 0 where it isn't known */
    uint64_t operations, mismatches, errors;
};

static double now(void)
{
    struct timespec time;
    clock_gettime(CLOCK_MONOTONIC, &time);
    return time.tv_sec + time.tv_nsec / 1e9;
}

static void stamp(uint64_t *data, uint64_t offset, uint64_t number)
{
    for (size_t at = 0; at < bytes; at += UNIT)
        for (size_t word = 0; word < UNIT / 8; word += 2) {
            data[at / 8 + word] = offset + at;
            data[at / 8 + word + 1] = number;
        }
}

static void *work(void *argument)
{
    struct worker *self = argument;
    uint64_t *data, *wanted, number = 0;
    if (posix_memalign((void **)&data, 4096, bytes) || posix_memalign((void **)&wanted, 4096, bytes))
        exit(2);
    while (now() < end) {
        unsigned place = rand_r(&self->seed) % PLACES;
        uint64_t offset = ((uint64_t)self->number * PLACES + place) * bytes;
        if (!self->written[place] || rand_r(&self->seed) % 2) {
            stamp(data, offset, ++number);
            self->written[place] = number;
            if (pwrite(device, data, bytes, offset) != (ssize_t)bytes) {
                self->written[place] = 0;
                self->errors++;
            }
        } else if (pread(device, data, bytes, offset) != (ssize_t)bytes) {
            self->errors++;
        } else {
            stamp(wanted, offset, self->written[place]);
            self->mismatches += memcmp(data, wanted, bytes) != 0;
        }
        self->operations++;
    }
    return NULL;
}

int main(int count, char **words)
{
    static struct worker workers[MOST_THREADS];
    if (count != 5 || (device = open(words[1], O_RDWR | O_DIRECT)) < 0) {
        perror("blocks");
        return 2;
    }
    end = now() + atof(words[2]);
    bytes = strtoul(words[3], NULL, 10);
    unsigned threads = strtoul(words[4], NULL, 10);
    struct worker all = {0};
    for (unsigned index = 0; index < threads && index < MOST_THREADS; index++) {
        workers[index].number = index;
        workers[index].seed = index + 1;
        pthread_create(&workers[index].thread, NULL, work, &workers[index]);
    }
    for (unsigned index = 0; index < threads && index < MOST_THREADS; index++) {
        pthread_join(workers[index].thread, NULL);
        all.operations += workers[index].operations;
        all.mismatches += workers[index].mismatches;
        all.errors += workers[index].errors;
    }
    printf("%llu operations, %llu mismatches, %llu errors\n", (unsigned long long)all.operations, (unsigned long long)all.mismatches,
           (unsigned long long)all.errors);
    return all.mismatches || all.errors || !all.operations;
}

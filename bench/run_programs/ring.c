// A ring of threads that hand a number on, each by a semaphore of its own, until it has been handed on so many times:
// `ring THREADS TIMES`.
#include <pthread.h>
#include <semaphore.h>
#include <stdio.h>
#include <stdlib.h>

static long threads, times, handed;
static sem_t *full, done;

static void *hand(void *number) {
    for (long at = (long)number;;) {
        sem_wait(&full[at]);
        if (handed >= times) {
            sem_post(&done);
            return NULL;
        }
        handed += 1;
        sem_post(&full[(at + 1) % threads]);
    }
}

int main(int count, char **words) {
    if (count != 3) return 2;
    threads = atol(words[1]);
    times = atol(words[2]);
    full = malloc(threads * sizeof *full);
    if (!full) return 1;
    sem_init(&done, 0, 0);
    for (long n = 0; n < threads; n++) sem_init(&full[n], 0, 0);
    pthread_attr_t small;
    pthread_attr_init(&small);
    pthread_attr_setstacksize(&small, 65536);
    for (long n = 0; n < threads; n++) {
        pthread_t made;
        if (pthread_create(&made, &small, hand, (void *)n)) return 1;
    }
    sem_post(&full[0]);
    sem_wait(&done);
    return 0;
}

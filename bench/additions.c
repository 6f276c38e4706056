/* Threads add to one word: what each addition takes, in nanoseconds, as a thread sees it, where it does so many rounds of
 * work of its own between two of them. Without the work as much as possible is added in a row by the thread that has the
 * word's cache line; with it the line goes from thread to thread, as it does between the steps of a run.
 * usage: additions THREADS ROUNDS ADDITIONS     prints the time of a pass with the additions, and of one without */
#include <pthread.h>
#include <stdalign.h>
#include <stdatomic.h>
#include <stdint.h>
#include <stdio.h>
#include <stdlib.h>
#include <time.h>

static alignas(128) _Atomic uint64_t word;
static alignas(128) pthread_barrier_t together;
static long rounds, additions;
static int adds;

static double now(void) {
  struct timespec t;
  clock_gettime(CLOCK_MONOTONIC, &t);
  return t.tv_sec * 1e9 + t.tv_nsec;
}

static void *work(void *spent) {
  uint64_t state = (uintptr_t)spent | 1;
  pthread_barrier_wait(&together);
  double begin = now();
  for (long i = 0; i < additions; i++) {
    for (long j = 0; j < rounds; j++) {
      state = state * 6364136223846793005u + 1442695040888963407u;
      __asm__ volatile("" : "+r"(state));
    }
    if (adds) atomic_fetch_add(&word, 1);
  }
  *(double *)spent = (now() - begin) / additions;
  return NULL;
}

static double pass(int threads, int with) {
  pthread_t ids[64];
  double spent[64], sum = 0;
  adds = with;
  pthread_barrier_init(&together, NULL, threads);
  for (int i = 0; i < threads; i++) pthread_create(&ids[i], NULL, work, &spent[i]);
  for (int i = 0; i < threads; i++) pthread_join(ids[i], NULL), sum += spent[i];
  pthread_barrier_destroy(&together);
  return sum / threads;
}

int main(int count, char **words) {
  if (count != 4) return 2;
  int threads = atoi(words[1]);
  rounds = atol(words[2]), additions = atol(words[3]);
  if (threads < 1 || threads > 64 || additions < 1) return 2;
  double with = pass(threads, 1), without = pass(threads, 0);
  printf("%.2f %.2f\n", with, without);
}

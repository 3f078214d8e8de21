/* Four threads that call swap() beside the collector of runtime/. */
#include "dgrt.h"
#include <pthread.h>
#include <stdio.h>

long swap(long rounds);

static void *work(void *seen) {
  dg_attach(DG_ANY);
  *(long *)seen = swap(10000);
  dg_detach();
  return 0;
}

int main(void) {
  uint32_t cells[] = {100};
  pthread_t threads[4];
  long seen[4];
  if (dg_open(&(struct dg_setup){.cells = cells}) != 0)
    return 1;
  for (int i = 0; i < 4; i++)
    pthread_create(&threads[i], 0, work, &seen[i]);
  for (int i = 0; i < 4; i++) {
    pthread_join(threads[i], 0);
    if (seen[i] > 0 && seen[i] <= 10000)
      printf("thread %d returned\n", i);
  }
  struct dg_counts counts;
  dg_close(&counts);
  printf("%s\n", counts.frees > 0 ? "cells were freed" : "no cell was freed");
  return 0;
}

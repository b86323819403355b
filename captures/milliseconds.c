// To be loaded before a program (LD_PRELOAD): its clocks have whole milliseconds, so that a log in
// milliseconds has the times that the program itself used. OpenSSL asks for the time of day.
#define _GNU_SOURCE
#include <dlfcn.h>
#include <sys/time.h>
#include <time.h>

enum { NANOSECONDS_IN_MILLISECOND = 1000000, NANOSECONDS_IN_MICROSECOND = 1000 };

typedef int (*clock_function)(clockid_t, struct timespec *);

int clock_gettime(clockid_t id, struct timespec *time) {
  static clock_function original;
  if (!original) original = (clock_function)dlsym(RTLD_NEXT, "clock_gettime");
  int result = original(id, time);
  if (result == 0 && (id == CLOCK_MONOTONIC || id == CLOCK_REALTIME))
    time->tv_nsec -= time->tv_nsec % NANOSECONDS_IN_MILLISECOND;
  return result;
}

int gettimeofday(struct timeval *restrict time, void *restrict zone) {
  (void)zone;
  struct timespec now;
  int result = clock_gettime(CLOCK_REALTIME, &now);
  time->tv_sec = now.tv_sec;
  time->tv_usec = now.tv_nsec / NANOSECONDS_IN_MICROSECOND;
  return result;
}

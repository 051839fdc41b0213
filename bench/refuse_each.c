// Refuses each allocation of a program in turn, in one run of it: at each call of the allocator the program splits in two. The one half is refused
// this call and goes on; the other waits for it, and goes on as if nothing had been. So what comes before a refusal runs once for all of them.
//
// A half that was refused need not run to its end: where the program's rows each begin with one large table, the row in which the refusal came is
// behind it, and was compared, by the time that it has asked for such a table for the third time since. (The first may be the same row's, made anew.) It
// then ends with status 0. Where TABLE is not set it runs to its end.
//
// For each call a line goes to descriptor 9: the number of the call from 1 on, how its half ended (a status, or 128 and the signal), and whether it
// had written a line "again". What it wrote stands in the file that WROTE names, and what it said in the file SAID. Behind one that did not end with
// status 0 no other is refused, so that these stand.
#define _GNU_SOURCE
#include <dlfcn.h>
#include <fcntl.h>
#include <stdio.h>
#include <stdlib.h>
#include <string.h>
#include <sys/wait.h>
#include <unistd.h>

static long calls;
static int refused;
static int tables;

static int wrote_again(const char *path) {
  static char text[65536];
  int file = open(path, O_RDONLY);
  if (file < 0) return 0;
  ssize_t size = read(file, text, sizeof text - 1);
  close(file);
  text[size < 0 ? 0 : size] = 0;
  return strncmp(text, "again\n", 6) == 0 || strstr(text, "\nagain\n") != NULL;
}

static void send_to(const char *path, int descriptor) {
  int file = open(path, O_WRONLY | O_CREAT | O_TRUNC, 0600);
  dup2(file, descriptor);
  close(file);
}

// Whether this call is refused in this half.
static int refuses(size_t size) {
  const char *table = getenv("TABLE");
  if (refused) {
    if (table && size >= (size_t)atol(table) && ++tables == 3) _exit(0);
    return 0;
  }
  const char *wrote = getenv("WROTE"), *said = getenv("SAID");
  if (!wrote || !said) return 0;
  calls++;
  pid_t half = fork();
  if (half < 0) _exit(125);
  if (half == 0) {
    refused = 1;
    send_to(wrote, 1);
    send_to(said, 2);
    alarm(60);
    return 1;
  }
  int ended = 0, status;
  if (waitpid(half, &ended, 0) != half) _exit(125);
  status = WIFEXITED(ended) ? WEXITSTATUS(ended) : 128 + WTERMSIG(ended);
  char line[64];
  int length = snprintf(line, sizeof line, "%ld %d %d\n", calls, status, wrote_again(wrote));
  if (write(9, line, length) != length) _exit(125);
  if (status != 0) _exit(1);
  return 0;
}

void *malloc(size_t size) {
  static void *(*real)(size_t);
  if (!real) real = dlsym(RTLD_NEXT, "malloc");
  return refuses(size) ? NULL : real(size);
}

void *realloc(void *block, size_t size) {
  static void *(*real)(void *, size_t);
  if (!real) real = dlsym(RTLD_NEXT, "realloc");
  return refuses(size) ? NULL : real(block, size);
}

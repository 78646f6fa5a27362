/* Preloaded into a program: it runs again and again, each time from a fork before its main, and its calls for memory and its
   devices fail where the environment says so.

   OB0_MEMORY=N     the Nth call that takes memory is refused; OB0_MEMORY=N.. it and all after it
   OB0_READS=N      standard input gives one byte a call, and fails at the Nth call
   OB0_FILE=N       any other file gives one byte a call, and fails at the Nth call
   OB0_WRITES=N     standard output takes one byte a call, and fails once it has taken N; OB0_WRITES=N.. it then takes none
   OB0_CALLS=N      the Nth read or write, of whatever file, fails
   OB0_SHORT=N      the Nth read or write of several bytes moves one
   OB0_EACH=WORD A-B/S   the N of OB0_WORD (in capitals) is each number from A to B in steps of S, one a run; standard input
                    is a file, and read from its start in each run
   OB0_REPORT=FD    to this descriptor goes a record for runs of one N after the other that end alike */
#define _GNU_SOURCE
#include <dlfcn.h>
#include <errno.h>
#include <stdio.h>
#include <stdlib.h>
#include <string.h>
#include <sys/mman.h>
#include <sys/wait.h>
#include <unistd.h>

static long memory_at, reads_at, file_at, writes_at = -1, calls_at, short_at, report_to = -1;
static int all_memory, takes_none, is_ready;
static long reads, file_reads, written;

/* What is known of a run when it ends: a walk shares it with the run. */
struct known {
  long is_touched, memory_calls, calls, long_calls;
};
static struct known own, *known = &own;

static void *(*real_malloc)(size_t);
static void *(*real_realloc)(void *, size_t);
static void *(*real_calloc)(size_t, size_t);
static ssize_t (*real_read)(int, void *, size_t);
static ssize_t (*real_write)(int, const void *, size_t);

static long number(const char *name, long otherwise, int *and_on) {
  char *end, *text = getenv(name);
  long found = otherwise;
  if (text) {
    found = strtol(text, &end, 10);
    if (and_on) *and_on = !strcmp(end, "..");
  }
  return found;
}

static void emit(const void *bytes, size_t size) {
  if (real_write((int)report_to, bytes, size) != (ssize_t)size) _exit(99);
}

/* How a run ended, and what it wrote on both outputs. */
struct ending {
  long first, last, status, sizes[2];
  struct known known;
  char *wrote[2];
};

static void take(struct ending *it, const int *outputs) {
  for (int which = 0; which < 2; which++) {
    it->sizes[which] = lseek(outputs[which], 0, SEEK_END);
    it->wrote[which] = real_malloc((size_t)it->sizes[which] + 1);
    if (pread(outputs[which], it->wrote[which], (size_t)it->sizes[which], 0) != it->sizes[which]) _exit(99);
  }
}

static int are_alike(const struct ending *one, const struct ending *two) {
  if (one->status != two->status || one->known.is_touched != two->known.is_touched) return 0;
  for (int which = 0; which < 2; which++)
    if (one->sizes[which] != two->sizes[which] || memcmp(one->wrote[which], two->wrote[which], (size_t)one->sizes[which])) return 0;
  return 1;
}

static void put(struct ending *it) {
  char head[200];
  emit(head, (size_t)snprintf(head, sizeof head, "%ld %ld %ld %ld %ld %ld %ld %ld %ld\n", it->first, it->last, it->status, it->known.is_touched, it->known.memory_calls, it->known.calls, it->known.long_calls, it->sizes[0], it->sizes[1]));
  for (int which = 0; which < 2; which++) emit(it->wrote[which], (size_t)it->sizes[which]);
}

static void drop(struct ending *it) {
  free(it->wrote[0]);
  free(it->wrote[1]);
}

static long *numbered(const char *word) {
  if (!strcmp(word, "memory")) return &memory_at;
  if (!strcmp(word, "reads")) return &reads_at;
  if (!strcmp(word, "file")) return &file_at;
  if (!strcmp(word, "writes")) return &writes_at;
  if (!strcmp(word, "calls")) return &calls_at;
  if (!strcmp(word, "short")) return &short_at;
  _exit(99);
}

/* Comes back in each run, and never in the process that walks. */
static void walk(long *number, long first, long last, long step) {
  int outputs[2] = {memfd_create("out", 0), memfd_create("err", 0)};
  struct ending held = {.first = -1};
  known = mmap(NULL, sizeof *known, PROT_READ | PROT_WRITE, MAP_SHARED | MAP_ANONYMOUS, -1, 0);
  for (long at = first; at <= last; at += step) {
    struct ending it = {.first = at, .last = at};
    int status;
    pid_t child;
    memset(known, 0, sizeof *known);
    lseek(0, 0, SEEK_SET);
    for (int which = 0; which < 2; which++)
      if (ftruncate(outputs[which], 0) || lseek(outputs[which], 0, SEEK_SET)) _exit(99);
    child = fork();
    if (!child) {
      if (dup2(outputs[0], 1) < 0 || dup2(outputs[1], 2) < 0) _exit(99);
      *number = at;
      alarm(60);
      return;
    }
    if (child < 0 || waitpid(child, &status, 0) != child) _exit(99);
    it.status = WIFEXITED(status) ? WEXITSTATUS(status) : -WTERMSIG(status);
    it.known = *known;
    take(&it, outputs);
    if (held.first >= 0 && are_alike(&held, &it)) {
      held.last = at;
      drop(&it);
      continue;
    }
    if (held.first >= 0) {
      put(&held);
      drop(&held);
    }
    held = it;
  }
  if (held.first >= 0) put(&held);
  _exit(0);
}

__attribute__((constructor)) static void begin(void) {
  const char *walked = getenv("OB0_EACH");
  char word[10];
  long first, last, step;
  real_malloc = dlsym(RTLD_NEXT, "malloc");
  real_realloc = dlsym(RTLD_NEXT, "realloc");
  real_calloc = dlsym(RTLD_NEXT, "calloc");
  real_read = dlsym(RTLD_NEXT, "read");
  real_write = dlsym(RTLD_NEXT, "write");
  memory_at = number("OB0_MEMORY", 0, &all_memory);
  reads_at = number("OB0_READS", 0, NULL);
  file_at = number("OB0_FILE", 0, NULL);
  writes_at = number("OB0_WRITES", -1, &takes_none);
  calls_at = number("OB0_CALLS", 0, NULL);
  short_at = number("OB0_SHORT", 0, NULL);
  report_to = number("OB0_REPORT", -1, NULL);
  if (!walked || sscanf(walked, "%9s %ld-%ld/%ld", word, &first, &last, &step) != 4) _exit(99);
  walk(numbered(word), first, last, step);
  is_ready = 1;
}

static int is_refused(void) {
  if (!is_ready) return 0;
  known->memory_calls++;
  if (!memory_at) return 0;
  if (known->memory_calls != memory_at && !(all_memory && known->memory_calls > memory_at)) return 0;
  known->is_touched = 1;
  errno = ENOMEM;
  return 1;
}

void *malloc(size_t size) {
  if (!real_malloc) real_malloc = dlsym(RTLD_NEXT, "malloc");
  return is_refused() ? NULL : real_malloc(size);
}

void *realloc(void *old, size_t size) {
  if (!real_realloc) real_realloc = dlsym(RTLD_NEXT, "realloc");
  return is_refused() ? NULL : real_realloc(old, size);
}

void *calloc(size_t count, size_t size) {
  if (!real_calloc) real_calloc = dlsym(RTLD_NEXT, "calloc");
  return is_refused() ? NULL : real_calloc(count, size);
}

/* Whether a read or write fails; one that is to move a single byte has its size changed. */
static int fails(size_t *size) {
  if (!is_ready) return 0;
  if (++known->calls == calls_at) {
    known->is_touched = 1;
    errno = EIO;
    return 1;
  }
  if (*size > 1 && ++known->long_calls == short_at) {
    known->is_touched = 1;
    *size = 1;
  }
  return 0;
}

ssize_t read(int file, void *bytes, size_t size) {
  long fails_at = file == 0 ? reads_at : file_at;
  if (!real_read) real_read = dlsym(RTLD_NEXT, "read");
  if (fails(&size)) return -1;
  if (is_ready && fails_at) {
    if (++*(file == 0 ? &reads : &file_reads) == fails_at) {
      known->is_touched = 1;
      errno = EIO;
      return -1;
    }
    if (size > 1) size = 1;
  }
  return real_read(file, bytes, size);
}

ssize_t write(int file, const void *bytes, size_t size) {
  ssize_t count;
  if (!real_write) real_write = dlsym(RTLD_NEXT, "write");
  if (fails(&size)) return -1;
  if (file == 1 && writes_at >= 0 && size) {
    if (written == writes_at) {
      known->is_touched = 1;
      if (takes_none) return 0;
      errno = ENOSPC;
      return -1;
    }
    size = 1;
    count = real_write(file, bytes, size);
    if (count > 0) written += count;
    return count;
  }
  return real_write(file, bytes, size);
}

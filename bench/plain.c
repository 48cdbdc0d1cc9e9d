/* The plain loops that bench/contents.py sets beside `filehost pipe`: each does its work and prints the seconds that it took.

   plain commits FOLDER DATA RECORD         for each COUNT that it reads from its input, COUNT times: DATA bytes behind the end of
                                            one file, fdatasync; RECORD bytes behind the gate at the end of a second file,
                                            fdatasync; the gate, fdatasync
   plain writes FOLDER COUNT BYTES          COUNT times: BYTES bytes behind the end of a file, fdatasync
   plain reads FILE COUNT BYTES             COUNT times: BYTES bytes of the file, from its start on and then again, are read and
                                            written to /dev/null
*/
#include <fcntl.h>
#include <stdio.h>
#include <stdlib.h>
#include <string.h>
#include <time.h>
#include <unistd.h>

static void fail(const char *what) {
  perror(what);
  exit(1);
}

static double now(void) {
  struct timespec t;
  clock_gettime(CLOCK_MONOTONIC, &t);
  return t.tv_sec + t.tv_nsec * 1e-9;
}

static int open_in(const char *folder, const char *name) {
  char path[4096];
  snprintf(path, sizeof path, "%s/%s", folder, name);
  int file = open(path, O_RDWR | O_CREAT | O_TRUNC, 0644);
  if (file < 0) fail(path);
  return file;
}

static void put(int file, const char *bytes, size_t count, off_t at) {
  while (count > 0) {
    ssize_t n = pwrite(file, bytes, count, at);
    if (n <= 0) fail("pwrite");
    bytes += n;
    count -= n;
    at += n;
  }
  if (fdatasync(file) != 0) fail("fdatasync");
}

static void commits(const char *folder, size_t data, size_t record, const char *bytes) {
  int blocks = open_in(folder, "plain_blocks"), slot = open_in(folder, "plain_slot");
  char closed = 0, open_gate = (char)0xa5;
  put(slot, &closed, 1, 0);
  long done = 0, count;
  while (scanf("%ld", &count) == 1) {
    double begun = now();
    for (long end = done + count; done < end; done++) {
      off_t gate = (off_t)(done * record);
      put(blocks, bytes, data, (off_t)(done * data));
      put(slot, bytes, record, gate + 1);
      put(slot, &open_gate, 1, gate);
    }
    printf("%.9f\n", now() - begun);
    fflush(stdout);
  }
}

static void writes(const char *folder, long count, size_t size, const char *bytes) {
  int file = open_in(folder, "plain_blocks");
  double begun = now();
  for (long i = 0; i < count; i++) put(file, bytes, size, (off_t)(i * size));
  printf("%.9f\n", now() - begun);
}

static void reads(const char *path, long count, size_t size, char *bytes) {
  int file = open(path, O_RDONLY), sink = open("/dev/null", O_WRONLY);
  if (file < 0 || sink < 0) fail(path);
  off_t end = lseek(file, 0, SEEK_END), at = 0;
  double begun = now();
  for (long i = 0; i < count; i++) {
    if (at + (off_t)size > end) at = 0;
    if (pread(file, bytes, size, at) != (ssize_t)size) fail("pread");
    if (write(sink, bytes, size) != (ssize_t)size) fail("write");
    at += size;
  }
  printf("%.9f\n", now() - begun);
}

int main(int argc, char **argv) {
  if (argc != 5) return 2;
  int is_commits = strcmp(argv[1], "commits") == 0;
  long count = atol(argv[3]);
  size_t size = (size_t)atol(is_commits ? argv[3] : argv[4]), record = is_commits ? (size_t)atol(argv[4]) : 0;
  char *bytes = malloc(size + record + 1);
  if (bytes == NULL) return 5;
  memset(bytes, 'a', size + record + 1);
  if (is_commits) commits(argv[2], size, record, bytes);
  else if (strcmp(argv[1], "writes") == 0) writes(argv[2], count, size, bytes);
  else if (strcmp(argv[1], "reads") == 0) reads(argv[2], count, size, bytes);
  else return 2;
  return 0;
}

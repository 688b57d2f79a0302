// Does what the program that LASTING names does, and goes on until both have had 100 ms of a processor: a market that takes so long.
//
//     LASTING=compress_cli lasting solve ROSTER TRADES MODE
#include <stdlib.h>
#include <sys/resource.h>
#include <sys/wait.h>
#include <unistd.h>

static const double least = 0.100;

static double used(int who) {
  struct rusage usage;
  getrusage(who, &usage);
  return usage.ru_utime.tv_sec + usage.ru_stime.tv_sec + (usage.ru_utime.tv_usec + usage.ru_stime.tv_usec) / 1e6;
}

int main(int count, char **words) {
  char *program = getenv("LASTING");
  if (count == 0 || program == NULL) return 2;
  pid_t child = fork();
  if (child == 0) {
    words[0] = program;
    execv(program, words);
    _exit(127);
  }
  int status = 127 << 8;
  if (child < 0 || waitpid(child, &status, 0) < 0) return 127;
  while (used(RUSAGE_SELF) + used(RUSAGE_CHILDREN) < least)
    for (volatile int turn = 0; turn < 20000; turn++) {
    }
  return WIFEXITED(status) ? WEXITSTATUS(status) : 127;
}

// Lets Debian's cron load crontabs, by its own `load_user`, and prints their jobs: `agree-cron TIME ..`.
//
// Standard input has a line for each file: `user` or `system`, a blank, and its path. The output has a line for each file, with
// its number, which is its base name, and `ignored` or the number of its jobs; and before it a line for each job:
//
//   NUMBER:JOB STARTS "USER" "COMMAND" "SHELL" INPUT
//
// JOB counts from 1. STARTS are the first starts after each TIME, separated by commas. USER is that of the system's form, or empty.
// COMMAND is the command as cron keeps it, and SHELL what it gives to the shell. INPUT is `input` if the shell has input to
// read, and `-` if not. Strings are those of JSON. Parts are separated by tabs, and times are in agenda's form.
//
// bin/witness compiles this file in the package's source, with its other files. It includes do_command.c, in which what
// touches the machine does nothing. A user exists if a name can be that of a user.

#define _GNU_SOURCE
#include <setjmp.h>
#include <signal.h>
#include <stdarg.h>
#include <stdio.h>
#include <time.h>
#include <fcntl.h>
#include <unistd.h>

// cron.h defines cron's variables for one file, which is this one
#define MAIN_PROGRAM
#define fork witness_fork
#define close witness_close
#define signal(which, handler) 0
#define pipe(ends) 0
#define tmpfile() stdout
static int witness_fork(void), witness_close(int end);
#include <do_command.c>
#undef fork
#undef close

enum { MOST_TIMES = 32, MOST_USERS = 100000 };

static const char *form = "%Y-%m-%dT%H:%M:%SZ";
static long long times[MOST_TIMES];
static char *users[MOST_USERS];
static int asked, known;

// The state of child_process, which is left as soon as it has split a command: how often it has forked and closed.
static jmp_buf split;
static int forks, closes;

// The first fork is for the shell. The second is for its input, if there is any.
static int witness_fork(void) {
  if (++forks == 2) longjmp(split, 1);
  return 1;
}

// The second end that is closed is that of the input, after it was written.
static int witness_close(int end) {
  if (++closes == 2) longjmp(split, 1);
  return 0;
}

void syslog(int priority, const char *message, ...) {}

// A user exists if its name can be one: it isn't empty, has no slash, colon or newline, and begins with neither a hyphen nor
// a digit. Its user ID is the number of its name.
struct passwd *getpwnam(const char *name) {
  static struct passwd one = {"any", "", 0, 0, "", "/", "/bin/sh"};
  if (!*name || strpbrk(name, "/:\n") || strchr("-0123456789", *name)) return NULL;
  if (known == MOST_USERS) exit(2);
  one.pw_uid = known;
  users[known++] = strdup(name);
  return &one;
}

static long long second_of(const char *text) {
  struct tm parts = {0};
  if (!strptime(text, form, &parts)) exit(2);
  return timegm(&parts);
}

static void print_string(const char *text) {
  static const char *escaped = "\b\t\n\f\r\"\\", *letters = "btnfr\"\\";
  printf("\t\"");
  for (; *text; text++) {
    const char *at = strchr(escaped, *text);
    if (at)
      printf("\\%c", letters[at - escaped]);
    else if ((unsigned char)*text < 32 || *text == 127)
      printf("\\u%04x", *text);
    else
      putchar(*text);
  }
  putchar('"');
}

// Tests whether a job starts on a day, as find_jobs of cron.c does.
static int is_day(const entry *job, const struct tm *day) {
  int of_month = bit_test(job->dom, day->tm_mday - FIRST_DOM) != 0, of_week = bit_test(job->dow, day->tm_wday - FIRST_DOW) != 0;
  if (!bit_test(job->month, day->tm_mon + 1 - FIRST_MONTH)) return 0;
  return (job->flags & (DOM_STAR | DOW_STAR)) ? of_month && of_week : of_month || of_week;
}

// Prints the first start of a job after a second, before the next 12 years end, or `none`.
static void print_start(const entry *job, long long after) {
  long long minute = after / 60 + 1, last = minute + 12LL * 366 * 24 * 60;
  while (minute < last && !(job->flags & WHEN_REBOOT)) {
    time_t second = minute * 60;
    struct tm *parts = gmtime(&second);
    if (!is_day(job, parts)) {
      minute = (minute / 1440 + 1) * 1440;
    } else if (!bit_test(job->hour, parts->tm_hour)) {
      minute = (minute / 60 + 1) * 60;
    } else if (!bit_test(job->minute, parts->tm_min)) {
      minute++;
    } else {
      char text[32];
      strftime(text, sizeof text, form, parts);
      printf("%s", text);
      return;
    }
  }
  printf("none");
}

// Prints what cron gives to the shell, and whether that has input.
static void print_shell(entry *job, user *owner) {
  forks = closes = 0;
  if (!setjmp(split)) child_process(job, owner);
  print_string(job->cmd);
  printf("\t%s\n", forks == 2 ? "input" : "-");
}

static void print_job(entry *job, user *owner, const char *name, int number, int has_users) {
  printf("%s:%d\t", name, number);
  for (int at = 0; at < asked; at++) {
    if (at) putchar(',');
    print_start(job, times[at]);
  }
  print_string(has_users ? users[job->uid] : "");
  print_string(job->cmd);
  print_shell(job, owner);
}

// Prints jobs in the order of their lines. cron keeps them in the other order.
static int print_jobs(entry *job, user *owner, const char *name, int has_users) {
  if (!job) return 0;
  int number = print_jobs(job->next, owner, name, has_users) + 1;
  print_job(job, owner, name, number, has_users);
  return number;
}

static void load(char *path, int has_users) {
  const char *name = strrchr(path, '/') + 1;
  int file = open(path, O_RDONLY);
  if (file < 0) exit(2);
  known = 0;
  struct passwd *owner = has_users ? NULL : getpwnam("any");
  user *loaded = load_user(file, owner, "any", has_users ? "*system*" : "any", path);
  int count = loaded ? print_jobs(loaded->crontab, loaded, name, has_users) : 0;
  if (loaded)
    printf("%s\t%d\n", name, count);
  else
    printf("%s\tignored\n", name);
  if (loaded) free_user(loaded);
  while (known) free(users[--known]);
}

int main(int count, char **words) {
  char line[4096];
  asked = count - 1;
  if (asked > MOST_TIMES) return 2;
  for (int at = 0; at < asked; at++) times[at] = second_of(words[at + 1]);
  ProgramName = strdup("cron");
  while (fgets(line, sizeof line, stdin)) {
    line[strcspn(line, "\n")] = 0;
    char *path = strchr(line, ' ');
    if (!path) return 2;
    load(path + 1, line[0] == 's');
  }
  return 0;
}

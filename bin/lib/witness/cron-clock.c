// Runs the main loop of Debian's cron on a simulated clock, and prints what it starts: `cron-clock SINCE UPTO
// FILE`, in the zone of the variable TZ.
//
// The daemon runs from the minute before SINCE to UPTO, with FILE, a user's crontab. A line has the time of a
// start, a tab and the command. Times are in agenda's form, in UTC.
//
// bin/witness compiles this file in the package's source, with its other files. It includes cron.c, and
// replaces time(), sleep(), do_command() and the loading of crontabs. What would change the machine, such as
// locks and logs, does nothing. Everything else is cron's, and local time is that of the C library.

#define _GNU_SOURCE
#include <fcntl.h>
#include <pwd.h>
#include <stdio.h>
#include <stdlib.h>
#include <time.h>
#include <unistd.h>

#define main cron_main
#define time simulated_time
#define sleep simulated_sleep
#define access simulated_access
#define log_it simulated_log_it
#define log_close simulated_log_close
#define acquire_daemonlock simulated_lock
#define set_cron_uid simulated_uid
#define set_cron_cwd simulated_cwd
time_t simulated_time(time_t *second);
unsigned simulated_sleep(unsigned seconds);
int simulated_access(const char *path, int mode);
#include <cron.c>
#undef main
#undef time

static const char *form = "%Y-%m-%dT%H:%M:%SZ";
static time_t now, upto;
static int crontab;
// Whether a job has ended since the daemon last slept: its signal then ends the next sleep at once.
static int job_ended;

time_t simulated_time(time_t *second) {
  if (second) *second = now;
  return now;
}

// Sleeps, or ends the simulation if the sleep passes its end.
unsigned simulated_sleep(unsigned seconds) {
  if (job_ended) {
    job_ended = 0;
    return seconds;
  }
  now += seconds;
  if (now > upto) exit(0);
  return 0;
}

// Says that the @reboot jobs were already run.
int simulated_access(const char *path, int mode) { return 0; }

// Prints the start of a job. The daemon wakes up one second after a minute begins, so the start is the second before.
void do_command(entry *job, user *owner) {
  char text[32];
  time_t second = now - 1;
  strftime(text, sizeof text, form, gmtime(&second));
  printf("%s\t%s\n", text, job->cmd);
  job_ended = 1;
}

// Loads the crontab once.
void load_database(cron_db *database) {
  static struct passwd any = {"any", "", 0, 0, "", "/", "/bin/sh"};
  if (database->head) return;
  database->head = database->tail = load_user(crontab, &any, "any", "any", "any");
  if (!database->head) exit(3);
  database->head->next = database->head->prev = NULL;
}

void check_orphans(cron_db *database) {}
void simulated_log_it(char *user, int process, char *event, char *detail) {}
void simulated_log_close(void) {}
void simulated_lock(int is_closed) {}
void simulated_uid(void) {}
void simulated_cwd(void) {}

static time_t second_of(const char *text) {
  struct tm parts = {0};
  if (!strptime(text, form, &parts)) exit(2);
  return timegm(&parts);
}

int main(int count, char **words) {
  char *options[] = {"cron", "-f", NULL};
  if (count != 4) return 2;
  now = second_of(words[1]) - 60;
  upto = second_of(words[2]);
  crontab = open(words[3], O_RDONLY);
  if (crontab < 0) return 2;
  return cron_main(2, options);
}

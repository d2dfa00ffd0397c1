// Asks Debian's cron when jobs start, by its own parser of rules and crontabs, and its own test of a minute.
//
// bin/witness compiles this file in the package's source, with its other files. It includes cron.c, because
// the test of a minute has a name only there.
//
//   rules AFTER END COUNT   reads one rule per line, and prints a line for each: `refused`, or up to COUNT
//                           starts that are later than AFTER and before END, or `none`
//   crontab SINCE END FILE  reads FILE as the system's crontab, and prints the starts of the span with the
//                           lines of their jobs, or `refused: line N`
//
// Times are in agenda's form. After 2038-01-19 cron's number of the second is too large for its type.

#define _GNU_SOURCE
#include <time.h>
#define main cron_main
#include <cron.c>
#undef main

enum { MOST_JOBS = 100000, LONGEST = 4096 };

static entry *jobs[MOST_JOBS];
static time_min *starts[MOST_JOBS];
static int counts[MOST_JOBS], lines[MOST_JOBS];
static int number, wanted, filled;
static time_min minute;
static user crontab;
static cron_db database = {&crontab, &crontab};

static const char *form = "%Y-%m-%dT%H:%M:%SZ";

static long long second_of(const char *text) {
  struct tm parts = {0};
  if (!strptime(text, form, &parts)) exit(2);
  return timegm(&parts);
}

static const char *text_of(time_min which) {
  static char text[32];
  time_t second = which * 60LL;
  strftime(text, sizeof text, form, gmtime(&second));
  return text;
}

// Replaces what cron.c needs from the files that aren't compiled. A job that cron adds to the jobs to run has
// a start. Its user ID is its number here.
void job_add(entry *job, user *owner) {
  int at = job->uid;
  if (!wanted)
    printf("%s %d\n", text_of(minute), lines[at]);
  else if (counts[at] < wanted)
    starts[at][counts[at]++] = minute;
  if (wanted && counts[at] == wanted) filled = 1;
}

int job_runqueue(void) { return 0; }

// Every user exists, as on a machine with the package installed.
struct passwd *getpwnam(const char *name) {
  static struct passwd any = {"any", "", 0, 0, "", "/", "/bin/sh"};
  return &any;
}

static void keep(entry *job, int line) {
  if (number == MOST_JOBS) exit(2);
  jobs[number] = job;
  lines[number] = line;
  if (job) job->uid = number;
  if (wanted) starts[number] = calloc(wanted, sizeof(time_min));
  number++;
}

// Links the jobs that still need starts, in their order.
static void link_jobs(void) {
  entry **end = &crontab.crontab;
  for (int at = 0; at < number; at++) {
    if (!jobs[at] || (wanted && counts[at] == wanted)) continue;
    *end = jobs[at];
    end = &jobs[at]->next;
  }
  *end = NULL;
  filled = 0;
}

// Lets cron test each minute, from the first one that begins at or after SINCE to the last one that begins before END.
static void walk(long long since, long long end) {
  link_jobs();
  for (minute = (since + 59) / 60; crontab.crontab && minute * 60LL < end; minute++) {
    find_jobs(minute, &database, TRUE, TRUE);
    if (filled) link_jobs();
  }
}

static void read_rules(void) {
  static char text[LONGEST + 4];
  char **none = env_init();
  while (fgets(text, LONGEST, stdin)) {
    text[strcspn(text, "\n")] = 0;
    strcat(text, " x\n");
    FILE *file = fmemopen(text, strlen(text), "r");
    keep(load_entry(file, NULL, getpwnam("any"), none), 0);
    fclose(file);
  }
}

static void print_starts(void) {
  for (int at = 0; at < number; at++) {
    if (!counts[at]) printf(jobs[at] ? "none" : "refused");
    for (int one = 0; one < counts[at]; one++) printf("%s%s", one ? " " : "", text_of(starts[at][one]));
    printf("\n");
  }
}

// Reads a crontab in the same way as cron's load_user, and keeps the line of each job.
static int read_crontab(FILE *file) {
  char setting[MAX_ENVSTR], **settings = env_init();
  int kind;
  LineNumber = 1;
  while ((kind = load_env(setting, file)) != ERR) {
    entry *job = kind == FALSE ? load_entry(file, NULL, NULL, settings) : NULL;
    if (kind == FALSE && !job) return LineNumber - 1;
    if (job) keep(job, LineNumber - 1);
    if (kind == TRUE) settings = env_set(settings, setting);
  }
  return *setting ? LineNumber : 0;
}

int main(int words, char **word) {
  if (words != 5) return 2;
  long long from = second_of(word[2]), end = second_of(word[3]);
  if (!strcmp(word[1], "rules")) {
    wanted = atoi(word[4]);
    read_rules();
    walk(from + 1, end);
    print_starts();
    return 0;
  }
  FILE *file = fopen(word[4], "r");
  if (!file) return 2;
  int refused = read_crontab(file);
  if (refused) printf("refused: line %d\n", refused);
  else walk(from, end);
  return 0;
}

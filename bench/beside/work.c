/*
 * The work of a user: 2,000 inserts of a record at random positions of a list, 400 deletes at random positions, then inserts until the
 * process is killed; then the list is opened again, inserts until the kill, and so on.
 *
 *     ENGINE killed|power
 *
 * The calls that are measured survive a killed process, or a power cut of the machine. In the second setting they are ten of each hundred,
 * since syncing takes long; the others are made as in the first. The list is compared with a plain array after the deletes and after
 * each kill: then it must be as before or as after the insert in which the kill fell. The list is made in a new
 * folder 'list' of the current one.
 *
 * Prints one line: nanoseconds of an insert, of a delete (the mean; each hundred calls from the run that disturbed them least) and of
 * opening again after a kill (median); bytes written by an insert; kills in an insert, and after how many of them the list was as before
 * it; runs.
 */
#define _GNU_SOURCE
#include "work.h"
#include <signal.h>
#include <stdio.h>
#include <stdlib.h>
#include <string.h>
#include <sys/mman.h>
#include <sys/stat.h>
#include <sys/wait.h>
#include <time.h>
#include <unistd.h>

enum { INSERTS = 2000, DELETES = 400, HUNDREDS = INSERTS / 100 };
/* Kills of a run, and the most runs. No run begins after so many seconds. */
enum { KILLS = 20, RUNS = 60, SECONDS = 6 };

void must(int right, const char *call)
{
    if (right)
        return;
    fprintf(stderr, "failed: %s\n", call);
    exit(1);
}

static double now(void)
{
    struct timespec time;
    clock_gettime(CLOCK_MONOTONIC, &time);
    return 1e9 * (double)time.tv_sec + (double)time.tv_nsec;
}

/* Random numbers (splitmix64): the same in every run and for every engine. */
static uint64_t draw(uint64_t *random)
{
    uint64_t z = *random += 0x9e3779b97f4a7c15u;
    z = (z ^ z >> 30) * 0xbf58476d1ce4e5b9u;
    z = (z ^ z >> 27) * 0x94d049bb133111ebu;
    return z ^ z >> 31;
}

static int below(uint64_t *random, int limit) { return (int)(draw(random) % (uint64_t)limit); }

static Record draw_record(uint64_t *random)
{
    Record record;
    for (size_t i = 0; i < sizeof record.bytes; i++)
        record.bytes[i] = (uint8_t)draw(random);
    return record;
}

/* The list as it must be: a plain array. */
typedef struct {
    int length;
    Record records[NODES];
} Model;

static void model_insert(Model *model, int position, const Record *record)
{
    Record *place = &model->records[position];
    memmove(place + 1, place, (size_t)(model->length++ - position) * sizeof *place);
    *place = *record;
}

static void model_delete(Model *model, int position)
{
    Record *place = &model->records[position];
    memmove(place, place + 1, (size_t)(--model->length - position) * sizeof *place);
}

static int same(const Model *one, const Model *other)
{
    return one->length == other->length && memcmp(one->records, other->records, (size_t)one->length * sizeof(Record)) == 0;
}

/* The calls of one kind that are measured: their nanoseconds, of each hundred calls of the work, and the bytes that they wrote. */
typedef struct {
    double nanoseconds[HUNDREDS];
    long long bytes;
    int calls;
} Measured;

/* Nanoseconds of a call. */
static double mean(const Measured *measured)
{
    double sum = 0;
    for (int i = 0; i < HUNDREDS; i++)
        sum += measured->nanoseconds[i];
    return sum / measured->calls;
}

/* Keeps of each hundred the time that was disturbed least: a run makes the same calls as the one before. */
static void keep_least(Measured *best, const Measured *now)
{
    for (int i = 0; i < HUNDREDS; i++)
        if (best->calls == 0 || now->nanoseconds[i] < best->nanoseconds[i])
            best->nanoseconds[i] = now->nanoseconds[i];
    best->bytes = now->bytes;
    best->calls = now->calls;
}

/* What a process leaves to its parent, in memory that they share. */
typedef struct {
    Measured inserts, deletes;
    double opening;
    Model found;
    volatile int begun, done;
} Told;

static Told *told;
static int power;

/* Bytes written so far. Stored, or handed to the system; with syncs those of the pages that the system has to write. */
static long long bytes_written(void)
{
    if (!power && bytes_stored() >= 0)
        return bytes_stored();
    char line[100];
    long long number = -1;
    FILE *file = fopen("/proc/self/io", "r");
    must(file != NULL, "/proc/self/io");
    while (fgets(line, sizeof line, file) && sscanf(line, power ? "write_bytes: %lld" : "wchar: %lld", &number) != 1)
        ;
    fclose(file);
    must(number >= 0, "/proc/self/io");
    return number;
}

/* Is this call of each hundred measured? */
static int chosen(int i) { return !power || i % 100 < 10; }

/* Before the first of a row of measured calls: what was written before them is put on the disk, so that it is not counted. */
static void begin_row(Measured *measured)
{
    if (power) {
        must(system("sync -- *") == 0, "sync");
        set_durable(1);
    }
    measured->bytes -= bytes_written();
}

static void end_row(Measured *measured)
{
    measured->bytes += bytes_written();
    set_durable(0);
}

/* Call number i of a kind, of so many in all. */
static void call(Measured *measured, int i, int all, int position, const Record *record)
{
    if (chosen(i) && (i == 0 || !chosen(i - 1)))
        begin_row(measured);
    double began = now();
    if (record != NULL)
        insert_at(position, record);
    else
        delete_at(position);
    double took = now() - began;
    if (!chosen(i))
        return;
    measured->nanoseconds[i / 100] += took;
    measured->calls++;
    if (i == all - 1 || !chosen(i + 1))
        end_row(measured);
}

/* The work on an empty list: in the engine, or in the model. */
static void work(uint64_t *random, Model *model)
{
    for (int i = 0; i < INSERTS; i++) {
        int position = below(random, i + 1);
        Record record = draw_record(random);
        if (model == NULL)
            call(&told->inserts, i, INSERTS, position, &record);
        else
            model_insert(model, position, &record);
    }
    for (int i = 0; i < DELETES; i++) {
        int position = below(random, INSERTS - i);
        if (model == NULL)
            call(&told->deletes, i, DELETES, position, NULL);
        else
            model_delete(model, position);
    }
}

/* The system kills this process after so many nanoseconds, whatever it does then. */
static void kill_me_in(long nanoseconds)
{
    struct sigevent event = {.sigev_notify = SIGEV_SIGNAL, .sigev_signo = SIGKILL};
    struct itimerspec when = {.it_value = {nanoseconds / 1000000000, nanoseconds % 1000000000}};
    timer_t timer;
    must(timer_create(CLOCK_MONOTONIC, &event, &timer) == 0 && timer_settime(timer, 0, &when, NULL) == 0, "timer");
}

/* Inserts until the kill, which comes within the time of three inserts, and 100 microseconds for the first to begin. */
static void insert_until_killed(uint64_t random, int length)
{
    double limit = 3 * mean(&told->inserts) + 100000;
    set_durable(power);
    kill_me_in(1 + (long)(draw(&random) % (uint64_t)limit));
    for (; length < NODES; length++) {
        int position = below(&random, length + 1);
        Record record = draw_record(&random);
        told->begun++;
        insert_at(position, &record);
        told->done++;
    }
    for (;;)
        pause();
}

/* What a process does: opens the list, does the work if the list is new, tells what it finds, goes on until it is killed. */
static void live(uint64_t random, int new)
{
    double began = now();
    open_list();
    told->opening = now() - began;
    if (new)
        work(&random, NULL);
    told->found.length = read_list(told->found.records);
    insert_until_killed(random, told->found.length);
}

static void killed(uint64_t random, int new)
{
    int status;
    told->begun = told->done = 0;
    pid_t child = fork();
    must(child >= 0, "fork");
    if (child == 0)
        live(random, new);
    must(waitpid(child, &status, 0) == child && WIFSIGNALED(status) && WTERMSIG(status) == SIGKILL, "a killed process");
}

/* Inserts the next record of insert_until_killed. */
static void next(Model *model, uint64_t *random)
{
    int position = below(random, model->length + 1);
    Record record = draw_record(random);
    model_insert(model, position, &record);
}

/* All runs together. */
static Measured inserts, deletes;
static double openings[RUNS * KILLS];
static int opened, kills, as_before;

/* One run: a new list, the work and a kill; then the list is opened, compared, and the process killed again. */
static void run(void)
{
    uint64_t random = 1, seed = 2;
    Model model = {0}, after;
    memset(told, 0, sizeof *told);
    killed(random, 1);
    work(&random, &model);
    must(same(&told->found, &model), "the list after the work");
    for (int i = 0; i < KILLS; i++) {
        /* The last kill fell in the insert after those done, or between two. */
        draw(&random);
        for (int done = 0; done < told->done; done++)
            next(&model, &random);
        int inside = told->begun > told->done;
        after = model;
        if (inside)
            next(&after, &random);
        random = draw(&seed);
        killed(random, 0);
        openings[opened++] = told->opening;
        int before = same(&told->found, &model);
        must(before || same(&told->found, &after), "the list after a kill");
        if (!before)
            model = after;
        kills += inside;
        as_before += inside && before;
    }
    keep_least(&inserts, &told->inserts);
    keep_least(&deletes, &told->deletes);
}

static int compare(const void *one, const void *other)
{
    double a = *(const double *)one, b = *(const double *)other;
    return (a > b) - (a < b);
}

int main(int count, char **arguments)
{
    int runs = 0;
    double began = now();
    must(count == 2 && (strcmp(arguments[1], "killed") == 0 || strcmp(arguments[1], "power") == 0), "ENGINE killed|power");
    power = arguments[1][0] == 'p';
    told = mmap(NULL, sizeof *told, PROT_READ | PROT_WRITE, MAP_SHARED | MAP_ANONYMOUS, -1, 0);
    must(told != MAP_FAILED, "mmap");
    for (; runs < RUNS && now() - began < 1e9 * SECONDS; runs++) {
        must(mkdir("list", 0755) == 0 && chdir("list") == 0, "a new folder");
        run();
        must(chdir("..") == 0 && system("rm -r list") == 0, "rm");
    }
    qsort(openings, (size_t)opened, sizeof *openings, compare);
    printf("%.0f %.0f %.0f %lld %d %d %d\n", mean(&inserts), mean(&deletes), openings[opened / 2], inserts.bytes / inserts.calls, kills,
           as_before, runs);
    return 0;
}

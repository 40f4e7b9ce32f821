#define _POSIX_C_SOURCE 199309L /* clock_gettime */
#include "turns.h"

#include <math.h>
#include <stdlib.h>
#include <time.h>

static double seconds_by(clockid_t clock)
{
    struct timespec time;
    clock_gettime(clock, &time);
    return (double)time.tv_sec + (double)time.tv_nsec * 1e-9;
}

double wall_time(void)
{
    return seconds_by(CLOCK_MONOTONIC);
}

double thread_time(void)
{
    return seconds_by(CLOCK_THREAD_CPUTIME_ID);
}

static double time_of(const struct trial *trial, int variant, int copy, size_t turn)
{
    const size_t places = trial->share.more_stacks + 1;
    volatile char lower[16 + (size_t)copy * LOWER_STACK + turn % places * STACK_STEP];
    lower[0] = 0;
    (void)lower[0];
    if (trial->work->before != NULL)
        trial->work->before(variant);
    const double start = trial->share.clock();
    trial->work->run(variant, copy);
    return trial->share.clock() - start;
}

static void take_turn(struct trial *trial, int copy, int first)
{
    const size_t turn = trial->turns[copy]++;
    for (int i = 0; i < trial->variants; i++) {
        const int variant = (first + i) % trial->variants;
        trial->seconds[variant][copy][turn] = time_of(trial, variant, copy, turn);
    }
}

bool has_round(const struct trial *trial, int round)
{
    return round % trial->share.every == 0;
}

/* The copies take turns, too. Which variant is first changes from turn to turn, and for a copy from one of its rounds to the
   next. */
void take_turns(struct trial *trial, int round)
{
    const int own = round / trial->share.every, copies = trial->share.copies;
    for (int turn = 0; turn < trial->share.turns; turn++)
        take_turn(trial, own % copies, own / copies + turn);
}

/* What the times come to. */

static int ascending(const void *a, const void *b)
{
    const double one = *(const double *)a, other = *(const double *)b;
    return (one > other) - (one < other);
}

static void sort(double *numbers, size_t count)
{
    qsort(numbers, count, sizeof *numbers, ascending);
}

static double mean_of(const double *numbers, size_t count)
{
    double sum = 0;
    for (size_t i = 0; i < count; i++)
        sum += numbers[i];
    return sum / (double)count;
}

static double median_of_ratios(const double *over, const double *under, size_t count)
{
    double ratios[MOST_TURNS];
    for (size_t i = 0; i < count; i++)
        ratios[i] = over[i] / under[i];
    sort(ratios, count);
    return (ratios[(count - 1) / 2] + ratios[count / 2]) / 2;
}

void into_mean(double *mean, double number, size_t of)
{
    *mean *= pow(number, 1 / (double)of);
}

/* The least alone: a slow run of the last variant shall not make the first one fast. */
static void take_last_off(struct trial *trial, int copy)
{
    const double *last = trial->seconds[trial->variants - 1][copy];
    double least = last[0];
    for (size_t i = 1; i < trial->turns[copy]; i++)
        least = fmin(least, last[i]);
    for (size_t i = 0; i < trial->turns[copy]; i++)
        trial->seconds[0][copy][i] -= least;
}

/* Sorts the seconds, so that the turns are lost. */
static void summarise_copy(struct trial *trial, int copy)
{
    const size_t turns = trial->turns[copy], copies = (size_t)trial->share.copies;
    if (trial->less_last)
        take_last_off(trial, copy);
    for (int v = 0; v < trial->variants; v++)
        into_mean(&trial->times[v].ratios[PAIRS],
                  median_of_ratios(trial->seconds[v][copy], trial->seconds[0][copy], turns), copies);
    for (int v = 0; v < trial->variants; v++) {
        double *seconds = trial->seconds[v][copy];
        sort(seconds, turns);
        into_mean(&trial->times[v].least, seconds[0], copies);
        into_mean(&trial->times[v].tenth, mean_of(seconds, (turns + 9) / 10), copies);
    }
}

void summarise(struct trial *trial)
{
    struct times *times = trial->times;
    for (int v = 0; v < trial->variants; v++)
        times[v] = (struct times){1, 1, {1, 1, 1}};
    for (int copy = 0; copy < trial->share.copies; copy++)
        summarise_copy(trial, copy);
    for (int v = 0; v < trial->variants; v++) {
        times[v].ratios[LEAST] = times[v].least / times[0].least;
        times[v].ratios[TENTH] = times[v].tenth / times[0].tenth;
    }
}

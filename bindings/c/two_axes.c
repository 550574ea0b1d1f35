/* Plans the two axes of a move, both moving at its ends, in mm, and prints when both can arrive. */
#include <stdio.h>

#include "girnhusk.h"

#define AXES 2

static const char *const NAMES[AXES] = {"carriage", "cross slide"};

/* p0 v0 a0 pf vf af v_max v_min a_max a_min j_max brake accel */
static const double MOVES[AXES][GIRNHUSK_MOVE_LENGTH] = {
    {400.0, 175.0, -900.0, 330.0, -575.0, -2100.0, 800.0, -800.0, 3000.0, -3000.0, 3500.0, 0.0, 0.0},
    {0.0, 500.0, 0.0, 280.0, 100.0, 0.0, 500.0, -500.0, 1500.0, -1500.0, 2000.0, 0.0, 0.0},
};

/* The four numbers that girnhusk_arrival takes of a plan, beside its duration. */
static void put_ends(const double *plan, double *ends)
{
    const double *a = plan + GIRNHUSK_PLAN_STRETCH_A, *b = plan + GIRNHUSK_PLAN_STRETCH_B;

    ends[GIRNHUSK_ENDS_A_LEFT] = a[GIRNHUSK_INTERVAL_LEFT];
    ends[GIRNHUSK_ENDS_A_RIGHT] = a[GIRNHUSK_INTERVAL_RIGHT];
    ends[GIRNHUSK_ENDS_B_LEFT] = b[GIRNHUSK_INTERVAL_LEFT];
    ends[GIRNHUSK_ENDS_B_RIGHT] = b[GIRNHUSK_INTERVAL_RIGHT];
}

static void print_axis(const char *name, double duration, const double *ends)
{
    int i;

    printf("%s: duration %.6f s\n", name, duration);
    for (i = 0; i < GIRNHUSK_ENDS_LENGTH; i += 2)
        if (ends[i + 1] > 0.0)
            printf("  blocked from %.6f to %.6f s\n", ends[i], ends[i + 1]);
}

int main(void)
{
    double plan[GIRNHUSK_PLAN_LENGTH], durations[AXES], ends[AXES * GIRNHUSK_ENDS_LENGTH], time;
    uint64_t axis, status;
    int i;

    for (i = 0; i < AXES; i++) {
        double *own = ends + i * GIRNHUSK_ENDS_LENGTH;

        status = girnhusk_plan(MOVES[i], GIRNHUSK_MOVE_LENGTH, plan, GIRNHUSK_PLAN_LENGTH);
        if (status != GIRNHUSK_PLANNED) {
            printf("%s: refused %d\n", NAMES[i], (int)status);
            return 1;
        }
        durations[i] = plan[GIRNHUSK_PLAN_DURATION];
        put_ends(plan, own);
        print_axis(NAMES[i], durations[i], own);
    }
    status = girnhusk_arrival(durations, AXES, ends, AXES * GIRNHUSK_ENDS_LENGTH, &time, &axis);
    if (status != GIRNHUSK_ARRIVES) {
        printf("refused %d\n", (int)status);
        return 1;
    }
    printf("both arrive at %.6f s, set by axis %d, the %s\n", time, (int)axis, NAMES[axis]);
    return 0;
}

/* Plans one move, 4 m from rest to rest with limits of 1 m/s, 1 m/s^2 and 1 m/s^3, and prints the plan. */
#include <stdio.h>

#include "girnhusk.h"

static const char *const LIMITS[] = {"Acc0Acc1Vel", "Vel", "Acc0", "Acc1", "Acc0Acc1", "Acc0Vel", "Acc1Vel", "None"};

static void print_profile(const double *profile)
{
    const double *t = profile + GIRNHUSK_PROFILE_T, *j = profile + GIRNHUSK_PROFILE_J;
    const double *a = profile + GIRNHUSK_PROFILE_A, *v = profile + GIRNHUSK_PROFILE_V;
    const double *p = profile + GIRNHUSK_PROFILE_P;
    int i;

    printf("found as: direction %s, limits %s\n",
           (int)profile[GIRNHUSK_PROFILE_DIRECTION] == GIRNHUSK_UP ? "UP" : "DOWN",
           LIMITS[(int)profile[GIRNHUSK_PROFILE_LIMITS]]);
    printf("phase  duration      jerk   then: acceleration  velocity  position\n");
    for (i = 0; i < GIRNHUSK_PHASES; i++)
        printf("%5d %9.4f %9.4f %20.4f %9.4f %9.4f\n", i, t[i], j[i], a[i + 1], v[i + 1], p[i + 1]);
}

static void print_stretch(const char *name, const double *interval)
{
    if ((int)interval[GIRNHUSK_INTERVAL_KIND] == GIRNHUSK_NOTHING)
        printf("stretch %s: nothing\n", name);
    else
        printf("stretch %s: blocked from %g to %g s\n", name, interval[GIRNHUSK_INTERVAL_LEFT],
               interval[GIRNHUSK_INTERVAL_RIGHT]);
}

int main(void)
{
    /*                                       p0   v0   a0   pf   vf   af  v_max v_min a_max a_min j_max brake accel */
    const double mv[GIRNHUSK_MOVE_LENGTH] = {0.0, 0.0, 0.0, 4.0, 0.0, 0.0, 1.0, -1.0, 1.0, -1.0, 1.0, 0.0, 0.0};
    double plan[GIRNHUSK_PLAN_LENGTH];
    uint64_t status = girnhusk_plan(mv, GIRNHUSK_MOVE_LENGTH, plan, GIRNHUSK_PLAN_LENGTH);

    if (status != GIRNHUSK_PLANNED) {
        printf("refused %d\n", (int)status);
        return 1;
    }
    printf("duration %g s\n", plan[GIRNHUSK_PLAN_DURATION]);
    print_profile(plan + GIRNHUSK_PLAN_PROFILE);
    print_stretch("a", plan + GIRNHUSK_PLAN_STRETCH_A);
    print_stretch("b", plan + GIRNHUSK_PLAN_STRETCH_B);
    printf("5 s: %s\n", girnhusk_is_blocked(plan, GIRNHUSK_PLAN_LENGTH, 5.0) == GIRNHUSK_FREE ? "free" : "blocked");
    printf("7 s: %s\n", girnhusk_is_blocked(plan, GIRNHUSK_PLAN_LENGTH, 7.0) == GIRNHUSK_FREE ? "free" : "blocked");
    return 0;
}

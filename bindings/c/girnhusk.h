/*
 * Girnhusk: a motion planner for one machine axis, proved.
 *
 * The functions of libgirnhusk.a, which `rt lib` in crates/girnhusk writes to its folder out. It is for x86-64 Linux
 * only: no Arm, no other system.
 *
 * What each function gives is proved for every argument: no double makes one fail, and none keeps state, allocates or
 * calls the system. A caller owes this much: a pointer is not null and is aligned for its type; with it goes the number
 * of doubles that may be read, or written, there; what is written overlaps nothing else that is handed over; the
 * machine rounds to nearest and keeps subnormal numbers, as it does unless told otherwise; and there is stack, some
 * 20 kB for girnhusk_plan.
 *
 * Before relying on a plan, read docs/USING.md. In short:
 *
 * - The tolerances are absolute, 1e-12 at the limits of velocity and acceleration and 1e-8, 1e-8 and 1e-10 at the
 *   target, so the unit of length matters: metres, or millimetres with accelerations up to some 8000 mm/s^2. In 0.1 mm
 *   or micrometres many a plain move is refused, in nanometres most.
 * - The duration is the least of the profiles that the search accepted, not of all motions.
 * - Direction and limits name the try that was accepted, not what the motion does or reaches.
 * - A start outside the limits is planned all the same.
 */
#ifndef GIRNHUSK_H
#define GIRNHUSK_H

#include <stddef.h>
#include <stdint.h>

#ifdef __cplusplus
extern "C" {
#endif

/* ---- A move: 13 doubles, with one unit of length and one of time throughout. */
enum {
    GIRNHUSK_MOVE_P0, /* start: position, velocity, acceleration */
    GIRNHUSK_MOVE_V0,
    GIRNHUSK_MOVE_A0,
    GIRNHUSK_MOVE_PF, /* target */
    GIRNHUSK_MOVE_VF,
    GIRNHUSK_MOVE_AF,
    GIRNHUSK_MOVE_V_MAX, /* limits: the upper ones at least 0, the lower ones at most 0 */
    GIRNHUSK_MOVE_V_MIN,
    GIRNHUSK_MOVE_A_MAX,
    GIRNHUSK_MOVE_A_MIN,
    GIRNHUSK_MOVE_J_MAX,
    GIRNHUSK_MOVE_BRAKE, /* durations that are only added to the plan's: brake and accel, from 0 to 1e12 */
    GIRNHUSK_MOVE_ACCEL,
    GIRNHUSK_MOVE_LENGTH
};

/* ---- A plan: 166 doubles. Names are stored as the numbers below. It is one enum, so that C++ adds its places without
   a warning. */
enum {
    /* Seven phases of constant jerk, and the eight rows before and after them. */
    GIRNHUSK_PHASES = 7,
    GIRNHUSK_ROWS = GIRNHUSK_PHASES + 1,

    /* Offsets in a profile. The empty profile is all 0, limits GIRNHUSK_NONE. */
    GIRNHUSK_PROFILE_DIRECTION = 0,                                /* enum girnhusk_direction */
    GIRNHUSK_PROFILE_LIMITS,                                       /* enum girnhusk_limits */
    GIRNHUSK_PROFILE_CONTROL_SIGNS,                                /* enum girnhusk_control_signs */
    GIRNHUSK_PROFILE_T,                                            /* the durations of the phases */
    GIRNHUSK_PROFILE_T_SUM = GIRNHUSK_PROFILE_T + GIRNHUSK_PHASES, /* their sums: when each phase ends */
    GIRNHUSK_PROFILE_J = GIRNHUSK_PROFILE_T_SUM + GIRNHUSK_PHASES, /* the phases' jerks */
    GIRNHUSK_PROFILE_A = GIRNHUSK_PROFILE_J + GIRNHUSK_PHASES,     /* the rows' accelerations */
    GIRNHUSK_PROFILE_V = GIRNHUSK_PROFILE_A + GIRNHUSK_ROWS,       /* velocities */
    GIRNHUSK_PROFILE_P = GIRNHUSK_PROFILE_V + GIRNHUSK_ROWS,       /* positions */
    GIRNHUSK_PROFILE_PF = GIRNHUSK_PROFILE_P + GIRNHUSK_ROWS,      /* the target */
    GIRNHUSK_PROFILE_VF,
    GIRNHUSK_PROFILE_AF,
    GIRNHUSK_PROFILE_BRAKE, /* the durations that are only added */
    GIRNHUSK_PROFILE_ACCEL,
    GIRNHUSK_PROFILE_LENGTH,

    /* Offsets in an interval: a stretch of blocked durations, and a profile. The ends are themselves not blocked. */
    GIRNHUSK_INTERVAL_KIND = 0, /* enum girnhusk_kind */
    GIRNHUSK_INTERVAL_LEFT,     /* 0 for GIRNHUSK_NOTHING */
    GIRNHUSK_INTERVAL_RIGHT,    /* 0 for GIRNHUSK_NOTHING, infinity for GIRNHUSK_FROM */
    /* of a stretch between two durations, the profile that takes the longer one; else the empty profile */
    GIRNHUSK_INTERVAL_PROFILE,
    GIRNHUSK_INTERVAL_LENGTH = GIRNHUSK_INTERVAL_PROFILE + GIRNHUSK_PROFILE_LENGTH,

    /* Offsets in a plan. */
    GIRNHUSK_PLAN_DURATION = 0, /* with brake and accel; the least of the profiles accepted, not of all motions */
    GIRNHUSK_PLAN_PROFILE,      /* the profile that takes it */
    /* two intervals; their stretches are not sorted and can overlap */
    GIRNHUSK_PLAN_STRETCH_A = GIRNHUSK_PLAN_PROFILE + GIRNHUSK_PROFILE_LENGTH,
    GIRNHUSK_PLAN_STRETCH_B = GIRNHUSK_PLAN_STRETCH_A + GIRNHUSK_INTERVAL_LENGTH,
    GIRNHUSK_PLAN_LENGTH = GIRNHUSK_PLAN_STRETCH_B + GIRNHUSK_INTERVAL_LENGTH
};

enum girnhusk_kind { GIRNHUSK_NOTHING = 0, GIRNHUSK_BETWEEN = 1, GIRNHUSK_FROM = 2 };

/* The direction that was tried: up if the upper velocity limit of the try was above 0, as v_max is with the limits as
   given; down with the limits swapped. Not which way the motion goes: it may fall throughout and say GIRNHUSK_UP. */
enum girnhusk_direction { GIRNHUSK_UP = 0, GIRNHUSK_DOWN = 1 };

/* The kind of profile that was tried. Not which limits the motion reaches: it may keep to v_max and say
   GIRNHUSK_NONE. */
enum girnhusk_limits {
    GIRNHUSK_ACC0_ACC1_VEL = 0,
    GIRNHUSK_VEL = 1,
    GIRNHUSK_ACC0 = 2,
    GIRNHUSK_ACC1 = 3,
    GIRNHUSK_ACC0_ACC1 = 4,
    GIRNHUSK_ACC0_VEL = 5,
    GIRNHUSK_ACC1_VEL = 6,
    GIRNHUSK_NONE = 7
};

enum girnhusk_control_signs { GIRNHUSK_UDDU = 0, GIRNHUSK_UDUD = 1 };

/* ---- What girnhusk_plan returns: 0, or why there is no plan. The numbers 1 to 5 are those of docs/01-scope.md. */
enum girnhusk_status {
    GIRNHUSK_PLANNED = 0,
    GIRNHUSK_NOT_FINITE = 1,     /* one of the 13 numbers is NaN or infinite */
    GIRNHUSK_WRONG_SIGN = 2,     /* v_max, a_max or j_max < 0, or v_min or a_min > 0 */
    GIRNHUSK_WRONG_DURATION = 3, /* brake or accel < 0 or > 1e12 */
    GIRNHUSK_NO_PROFILE = 4,     /* no profile was accepted */
    GIRNHUSK_NO_REMOVAL = 5,     /* four profiles were accepted, and no rule says which of them goes */
    GIRNHUSK_WRONG_LENGTH = 255  /* mv is not 13 doubles, or plan fewer than 166 */
};

/* Plans a move. On GIRNHUSK_PLANNED the first 166 doubles of plan hold the plan, and what lies beyond them is as it
   was. On anything else nothing is written. */
uint64_t girnhusk_plan(const double *mv, size_t mv_len, double *plan, size_t plan_len);

/* ---- What girnhusk_is_blocked returns. */
enum girnhusk_blocking {
    GIRNHUSK_FREE = 0,
    GIRNHUSK_BLOCKED = 1,         /* below the plan's duration, or inside a stretch */
    GIRNHUSK_TIME_NOT_FINITE = 6, /* t is NaN or infinite */
    GIRNHUSK_PLAN_SHORT = GIRNHUSK_WRONG_LENGTH /* plan has fewer than 166 doubles */
};

/* Whether the duration t is blocked by the plan that girnhusk_plan wrote: below the plan's duration, or inside a
   stretch. Blocked means that the planner offers nothing there, not that no motion takes so long. */
uint64_t girnhusk_is_blocked(const double *plan, size_t plan_len, double t);

/* ---- Several axes: one arrival time for all. */
enum {
    GIRNHUSK_AXES_MOST = 8,

    /* Offsets in an axis's ends, as its plan has them. A missing stretch is 0 and 0, one from a time on ends at
       infinity. */
    GIRNHUSK_ENDS_A_LEFT = 0, /* at GIRNHUSK_PLAN_STRETCH_A + GIRNHUSK_INTERVAL_LEFT of the plan */
    GIRNHUSK_ENDS_A_RIGHT,    /* at GIRNHUSK_PLAN_STRETCH_A + GIRNHUSK_INTERVAL_RIGHT */
    GIRNHUSK_ENDS_B_LEFT,     /* at GIRNHUSK_PLAN_STRETCH_B + GIRNHUSK_INTERVAL_LEFT */
    GIRNHUSK_ENDS_B_RIGHT,    /* at GIRNHUSK_PLAN_STRETCH_B + GIRNHUSK_INTERVAL_RIGHT */
    GIRNHUSK_ENDS_LENGTH
};

/* ---- What girnhusk_arrival returns: 0, or why there is no time. The numbers are document 02's. */
enum girnhusk_arrival_status {
    GIRNHUSK_ARRIVES = 0,
    /* No axes or more than 8; ends_len is not four times durations_len; a duration is below 0 or not finite; or a
       stretch's left end is not finite or is below the duration, or its right end is NaN or below the left. */
    GIRNHUSK_MALFORMED = 9,
    GIRNHUSK_NEVER = 10 /* no finite time is free for all axes */
};

/* When all axes of a move can arrive: the earliest time that is free for 1 to 8 plans, and the lowest axis, counted
   from 0, that has it as its duration or as the right end of a stretch. No smaller double is free for all. durations
   holds each plan's GIRNHUSK_PLAN_DURATION, ends four doubles for each. -0 counts as 0, and is given as 0. On a refusal
   the time is 0 and the axis 0. */
uint64_t girnhusk_arrival(const double *durations, size_t durations_len, const double *ends, size_t ends_len,
                          double *time, uint64_t *axis);

/* ---- The elementary functions as the planner uses them. Each gives the double nearest the exact number. */

/* IEEE 754's square root: NaN below 0. */
double girnhusk_sqrt(double x);

/* The cube root. -0, infinities and NaN give themselves. */
double girnhusk_cbrt(double x);

/* The c from 1/2 to 1 with 4c^3 - 3c = t, the cosine of a third of the angle whose cosine is t; and the square root of
   1 - c^2, with the exact c. NaN for t outside -1 to 1. */
double girnhusk_third_angle_cosine(double t);
double girnhusk_third_angle_sine(double t);

/* Both, in less time than one after the other. */
void girnhusk_third_angle_pair(double t, double *cosine, double *sine);

/* The same numbers, found one binary digit at a time. */
double girnhusk_sqrt_by_digits(double x);
double girnhusk_cbrt_by_digits(double x);
double girnhusk_third_angle_cosine_by_digits(double t);
double girnhusk_third_angle_sine_by_digits(double t);

#ifdef __cplusplus
}
#endif

#endif

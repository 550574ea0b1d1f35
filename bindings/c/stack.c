/*
 * How much stack girnhusk_plan takes. Reads document 01's records from standard input, plans each on a thread whose
 * stack was filled with a pattern, and prints how far below the call the pattern is gone. docs/USING.md has the
 * command.
 */
#define _POSIX_C_SOURCE 200809L
#include <pthread.h>
#include <stdio.h>
#include <stdlib.h>
#include <string.h>

#include "girnhusk.h"

enum { STACK = 1 << 20, PATTERN = 0xA5, HEAD = 3, RECORD = HEAD + 8 * GIRNHUSK_MOVE_LENGTH };

static unsigned long moves, planned;
static const unsigned char *call; /* where the caller's own frame is */

static double double_at(const unsigned char *bytes)
{
    uint64_t bits = 0;
    double number;
    int i;

    for (i = 0; i < 8; i++)
        bits = bits << 8 | bytes[i];
    memcpy(&number, &bits, sizeof number);
    return number;
}

static void *plan_all(void *unused)
{
    static unsigned char record[RECORD];
    static double mv[GIRNHUSK_MOVE_LENGTH], plan[GIRNHUSK_PLAN_LENGTH];
    unsigned char here = 0;
    size_t i;

    call = &here;
    while (fread(record, 1, RECORD, stdin) == RECORD) {
        for (i = 0; i < GIRNHUSK_MOVE_LENGTH; i++)
            mv[i] = double_at(record + HEAD + 8 * i);
        moves++;
        planned += girnhusk_plan(mv, GIRNHUSK_MOVE_LENGTH, plan, GIRNHUSK_PLAN_LENGTH) == GIRNHUSK_PLANNED;
    }
    return unused;
}

int main(void)
{
    unsigned char *stack = aligned_alloc(4096, STACK), *lowest = stack;
    pthread_attr_t attributes;
    pthread_t thread;

    if (stack == NULL)
        return 1;
    memset(stack, PATTERN, STACK);
    if (pthread_attr_init(&attributes) || pthread_attr_setstack(&attributes, stack, STACK)
        || pthread_create(&thread, &attributes, plan_all, NULL) || pthread_join(thread, NULL))
        return 1;
    while (*lowest == PATTERN)
        lowest++;
    printf("%lu moves, %lu planned: %ld bytes of stack\n", moves, planned, (long)(call - lowest));
    return 0;
}

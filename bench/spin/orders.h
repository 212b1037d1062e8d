/* What both models share: two tasks, each on a core of its own, and an event group. A state has what
 * rdbg's has of these applications; what never changes there is left out. */
#define RUN 0
#define WAIT 1
#define GIVEN 2
#define ALL 3

/* Where LAWS is defined, states are one that differ in the turn alone, or whose ticks are equal by
 * the number of cores. */
#ifdef LAWS
#define AFTER_STEP(core) skip
#define AFTER_TICK tick = 1 - tick
#else
#define AFTER_STEP(core) turn = core + 1
#define AFTER_TICK tick++; turn = 0
#endif

int tick;
byte turn;
byte bits;
byte pc[2];
byte phase[2];
byte given[2];
byte r0[2];
byte r1[2];
/* who waits, in the order of arrival, each as its number and 1 */
byte list[2];

/* Sets bits, and gives them to who waits where all have come. */
inline set_bits(more) {
    bits = bits | more;
    if
    :: bits == ALL ->
        if :: phase[0] == WAIT -> phase[0] = GIVEN; given[0] = bits :: else fi;
        if :: phase[1] == WAIT -> phase[1] = GIVEN; given[1] = bits :: else fi;
        list[0] = 0;
        list[1] = 0
    :: else
    fi
}

/* Has a task wait for all bits. */
inline wait_for_all(task) {
    phase[task] = WAIT;
    if :: list[0] == 0 -> list[0] = task + 1 :: else -> list[1] = task + 1 fi
}

/* Has a task return from its wait with the bits that it was given. */
inline return_given(task) {
    r0[task] = given[task];
    given[task] = 0;
    phase[task] = RUN;
    pc[task]++
}

#define IS_ASLEEP (phase[0] == WAIT && phase[1] == WAIT)

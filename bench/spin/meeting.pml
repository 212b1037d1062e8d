/* examples/meeting.json: can both wait for ever, the one for a bit that the other has cleared? */
#include "orders.h"

/* gset there MINE, gwait there 3 all keep max */
inline meet(task, mine) {
    if
    :: pc[task] == 0 -> set_bits(mine); r0[task] = bits; pc[task] = 1
    :: pc[task] == 1 && phase[task] == GIVEN -> return_given(task)
    :: pc[task] == 1 && phase[task] == RUN && bits == ALL -> r0[task] = bits; pc[task] = 2
    :: pc[task] == 1 && phase[task] == RUN && bits != ALL -> wait_for_all(task)
    :: pc[task] == 2 && task == 0 -> r0[0] = bits; bits = 0; pc[0] = 3
    :: pc[task] == 2 && task == 1 -> r1[1] = 1; pc[1] = 3
    :: pc[task] == 3 -> pc[task] = 0
    fi
}

active proctype orders() {
    do
    :: d_step { phase[0] != WAIT -> meet(0, 1); AFTER_STEP(0); assert(!IS_ASLEEP) }
    :: d_step { phase[1] != WAIT -> meet(1, 2); AFTER_STEP(1); assert(!IS_ASLEEP) }
    :: d_step { AFTER_TICK }
    od
}

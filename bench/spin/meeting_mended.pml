/* examples/meeting_mended.json: the call that waits clears the bits as well. */
#include "orders.h"

/* gsync there MINE 3 max, whose answer is the bits before it clears them */
inline sync(task, mine) {
    if
    :: phase[task] == GIVEN -> return_given(task)
    :: else ->
        set_bits(mine);
        if
        :: bits == ALL -> r0[task] = bits; bits = 0; pc[task] = 1
        :: else -> wait_for_all(task)
        fi
    fi
}

inline meet(task, mine) {
    if
    :: pc[task] == 0 -> sync(task, mine)
    :: pc[task] == 1 -> r1[task] = 1; pc[task] = 2
    :: pc[task] == 2 -> pc[task] = 0
    fi
}

active proctype orders() {
    do
    :: d_step { phase[0] != WAIT -> meet(0, 1); AFTER_STEP(0); assert(!IS_ASLEEP) }
    :: d_step { phase[1] != WAIT -> meet(1, 2); AFTER_STEP(1); assert(!IS_ASLEEP) }
    :: d_step { AFTER_TICK }
    od
}

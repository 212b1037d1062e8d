/* A mend of stop_bit.c that is none: who reads the bit leaves it, and the supervisor takes it back after two
 * periods, so that the next start finds none. A drive that is late by then never sees it. */
#define STOP (1UL << 0)
#define PERIOD 2

/* rdbg:
 * cores 2
 * notes 2
 * const STOP 1 << 0
 * const PERIOD 2
 * group flags
 */
static BaseType_t stop_asked(TickType_t patience)
{
    EventBits_t bits = xEventGroupWaitBits(flags, STOP, pdFALSE, pdFALSE, patience);
    return (bits & STOP) != 0;
}

// rdbg: task pump priority 2
static void pump(void *unused)
{
    // rdbg: loop
    // rdbg(stop_asked): gwait flags STOP any keep PERIOD
    while (!stop_asked(PERIOD)) {       // rdbg: if r0 & STOP break
        drive_pump();                   // rdbg: add r1 1
    }                                   // rdbg: end
    pump_off();
    vTaskDelete(NULL);                  // rdbg: end task
}

// rdbg: task valve priority 2
static void valve(void *unused)
{
    // rdbg: loop
    // rdbg(stop_asked): gwait flags STOP any keep PERIOD
    while (!stop_asked(PERIOD)) {       // rdbg: if r0 & STOP break
        drive_valve();                  // rdbg: add r1 1
    }                                   // rdbg: end
    valve_off();
    vTaskDelete(NULL);                  // rdbg: end task
}

// rdbg: task supervisor priority 3
static void supervisor(void *unused)
{
    vTaskDelay(3);                      // rdbg: wait 3
    xEventGroupSetBits(flags, STOP);    // rdbg: gset flags STOP
    vTaskDelay(2 * PERIOD);             // rdbg: wait 4
    xEventGroupClearBits(flags, STOP);  // rdbg: gclear flags STOP
    vTaskDelete(NULL);                  // rdbg: end task
}

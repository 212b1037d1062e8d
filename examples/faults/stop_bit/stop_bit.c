/* A pump and a valve are driven by a task each, until a supervisor stops both. */
#include "FreeRTOS.h"
#include "event_groups.h"
#include "task.h"
#include "drive.h"

#define STOP (1UL << 0)
#define PERIOD 2

static EventGroupHandle_t flags;

/* rdbg:
 * cores 2
 * notes 2
 * const STOP 1 << 0
 * const PERIOD 2
 * group flags
 */

/* Whether all is to stop. */
static BaseType_t stop_asked(TickType_t patience)
{
    EventBits_t bits = xEventGroupWaitBits(flags, STOP, pdTRUE, pdFALSE, patience);
    return (bits & STOP) != 0;
}

// rdbg: task pump priority 2
static void pump(void *unused)
{
    // rdbg: loop
    // rdbg(stop_asked): gwait flags STOP any clear PERIOD
    while (!stop_asked(PERIOD)) {       // rdbg: if r0 & STOP break
        drive_pump();                   // rdbg: add r1 1
    }                                   // rdbg: end
    pump_off();
    vTaskDelete(NULL);                  // rdbg: end task
}

// rdbg: task valve priority 2
static void valve(void *unused)
{
    // rdbg: loop
    // rdbg(stop_asked): gwait flags STOP any clear PERIOD
    while (!stop_asked(PERIOD)) {       // rdbg: if r0 & STOP break
        drive_valve();                  // rdbg: add r1 1
    }                                   // rdbg: end
    valve_off();
    vTaskDelete(NULL);                  // rdbg: end task
}

// rdbg: task supervisor priority 3
static void supervisor(void *unused)
{
    vTaskDelay(3);              /* the run */   // rdbg: wait 3
    xEventGroupSetBits(flags, STOP);            // rdbg: gset flags STOP
    vTaskDelete(NULL);                          // rdbg: end task
}

void drives_start(void)
{
    flags = xEventGroupCreate();
    xTaskCreate(pump, "pump", 256, NULL, 2, NULL);
    xTaskCreate(valve, "valve", 256, NULL, 2, NULL);
    xTaskCreate(supervisor, "supervisor", 256, NULL, 3, NULL);
}

/* Two tasks share a bus on two cores. Whoever wants it looks whether it is free, and says that it isn't
 * any more. On one core that went well for years: a time slice hardly ever ends between the two. */
#include "FreeRTOS.h"
#include "event_groups.h"
#include "task.h"
#include "bus.h"

#define BUSY (1UL << 0)

static EventGroupHandle_t bus;

/* rdbg:
 * cores 2
 * const BUSY 1 << 0
 * group bus
 */

static void with_bus(void (*transfer)(void))
{
    while (xEventGroupGetBits(bus) & BUSY) {
        vTaskDelay(1);
    }
    xEventGroupSetBits(bus, BUSY);
    transfer();
    xEventGroupClearBits(bus, BUSY);
}

// rdbg: task sensor priority 2
static void sensor(void *unused)
{
    for (;;) {                  // rdbg: loop
        /* rdbg(with_bus):
         * gget bus
         * while r0
         *     wait 1
         *     gget bus
         * end
         * gset bus BUSY
         * transfer: set r1 1
         * gclear bus BUSY
         */
        with_bus(read_sensor);
        vTaskDelay(2);          // rdbg: wait 2
    }                           // rdbg: end
}

// rdbg: task display priority 2
static void display(void *unused)
{
    for (;;) {                  // rdbg: loop
        /* rdbg(with_bus):
         * gget bus
         * while r0
         *     wait 1
         *     gget bus
         * end
         * gset bus BUSY
         * transfer: set r1 1
         * gclear bus BUSY
         */
        with_bus(write_display);
        vTaskDelay(3);          // rdbg: wait 3
    }                           // rdbg: end
}

void bus_start(void)
{
    bus = xEventGroupCreate();
    xTaskCreate(sensor, "sensor", 256, NULL, 2, NULL);
    xTaskCreate(display, "display", 256, NULL, 2, NULL);
}

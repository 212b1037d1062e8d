/* A mend of look_and_set.c that is none: it looks once more before it sets the bit. Two look twice, and then
 * both set it. */
#define BUSY (1UL << 0)

/* rdbg:
 * cores 2
 * const BUSY 1 << 0
 * group bus
 */
static void with_bus(void (*transfer)(void))
{
    do {
        while (xEventGroupGetBits(bus) & BUSY) {
            vTaskDelay(1);
        }
    } while (xEventGroupGetBits(bus) & BUSY);
    xEventGroupSetBits(bus, BUSY);
    transfer();
    xEventGroupClearBits(bus, BUSY);
}

// rdbg: task sensor priority 2
static void sensor(void *unused)
{
    for (;;) {                  // rdbg: loop
        /* rdbg(with_bus):
         * again: gget bus
         * while r0
         *     wait 1
         *     gget bus
         * end
         * gget bus
         * if r0 goto again
         * gset bus BUSY
         * transfer: set r1 1
         * gclear bus BUSY
         */
        with_bus(read_sensor);
        vTaskDelay(2);          // rdbg: wait 2
    }                           // rdbg: end
}

// rdbg: task display priority 2
static void display(void *unused)
{
    for (;;) {                  // rdbg: loop
        /* rdbg(with_bus):
         * again: gget bus
         * while r0
         *     wait 1
         *     gget bus
         * end
         * gget bus
         * if r0 goto again
         * gset bus BUSY
         * transfer: set r1 1
         * gclear bus BUSY
         */
        with_bus(write_display);
        vTaskDelay(3);          // rdbg: wait 3
    }                           // rdbg: end
}

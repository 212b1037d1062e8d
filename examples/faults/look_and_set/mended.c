/* The mend of look_and_set.c: a mutex, which is looked at and taken in one call. */
static SemaphoreHandle_t bus;

/* rdbg:
 * cores 2
 * mutex bus
 */
static void with_bus(void (*transfer)(void))
{
    xSemaphoreTake(bus, portMAX_DELAY);
    transfer();
    xSemaphoreGive(bus);
}

// rdbg: task sensor priority 2
static void sensor(void *unused)
{
    for (;;) {                  // rdbg: loop
        /* rdbg(with_bus):
         * take bus portMAX_DELAY
         * transfer: set r1 1
         * give bus
         */
        with_bus(read_sensor);
        vTaskDelay(2);          // rdbg: wait 2
    }                           // rdbg: end
}

// rdbg: task display priority 2
static void display(void *unused)
{
    for (;;) {                  // rdbg: loop
        /* rdbg(with_bus):
         * take bus portMAX_DELAY
         * transfer: set r1 1
         * give bus
         */
        with_bus(write_display);
        vTaskDelay(3);          // rdbg: wait 3
    }                           // rdbg: end
}

/* A mend of swallowed.c that is none: it looks before each read, too. What comes between that look and the
 * read is swallowed as before, and so is what ends the read's wait. */
#define STOP (1UL << 0)

/* rdbg:
 * cores 3
 * const STOP 1 << 0
 * stream rx size 8 trigger 1
 * task radio priority 9
 *     wait 1
 *     data 55
 *     swrite rx 0
 *     wait 1
 *     swrite rx 0
 *     end
 */
// rdbg: task receiver priority 2
static void receiver(void *unused)
{
    uint8_t bytes[8];
    uint32_t told;

    for (;;) {                                                              // rdbg: loop
        if (xTaskNotifyWait(0, STOP, &told, 0) == pdTRUE) {                 // rdbg: nwait 0 0 STOP 0
            break;                                                          // rdbg: if r0 break
        }
        // rdbg: sread rx 8 portMAX_DELAY
        size_t count = xStreamBufferReceive(rx, bytes, sizeof bytes, portMAX_DELAY);
        if (count > 0) {
            take_in(bytes, count);
        }
        if (xTaskNotifyWait(0, STOP, &told, 0) == pdTRUE) {                 // rdbg: nwait 0 0 STOP 0
            break;                                                          // rdbg: if r0 break
        }
    }                                                                       // rdbg: end
    radio_off();
    vTaskDelete(NULL);                                                      // rdbg: end task
}

// rdbg: task control priority 2
static void control(void *unused)
{
    vTaskDelay(2);                                  // rdbg: wait 2
    xTaskNotify(receiver_task, STOP, eSetBits);     // rdbg: notify receiver 0 STOP bits
    vTaskDelete(NULL);                              // rdbg: end
}

/* A mend of swallowed.c that is half of one: index 1 is nobody else's, so that nothing is swallowed any
 * more. But it doesn't end a read either: once the line is silent, the receiver waits for a byte, with
 * STOP beside it. */
#define configTASK_NOTIFICATION_ARRAY_ENTRIES 2
#define STOP (1UL << 0)

/* rdbg:
 * cores 3
 * notes 2
 * const STOP 1 << 0
 * stream rx size 8 trigger 1
 * task radio priority 9
 *     wait 1
 *     data 55
 *     swrite rx 0
 *     wait 1
 *     swrite rx 0
 *     end
 */
// rdbg: task receiver priority 2
static void receiver(void *unused)
{
    uint8_t bytes[8];
    uint32_t told;

    for (;;) {                                                              // rdbg: loop
        // rdbg: sread rx 8 portMAX_DELAY
        size_t count = xStreamBufferReceive(rx, bytes, sizeof bytes, portMAX_DELAY);
        if (count > 0) {
            take_in(bytes, count);
        }
        if (xTaskNotifyWaitIndexed(1, 0, STOP, &told, 0) == pdTRUE) {       // rdbg: nwait 1 0 STOP 0
            break;                                                          // rdbg: if r0 break
        }
    }                                                                       // rdbg: end
    radio_off();
    vTaskDelete(NULL);                                                      // rdbg: end task
}

// rdbg: task control priority 2
static void control(void *unused)
{
    vTaskDelay(2);                                          // rdbg: wait 2
    xTaskNotifyIndexed(receiver_task, 1, STOP, eSetBits);   // rdbg: notify receiver 1 STOP bits
    vTaskDelete(NULL);                                      // rdbg: end
}

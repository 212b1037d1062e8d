/* The mend of queue_set.c: the monitor looks at the byte, and leaves it to the server. Ten tasks have more
 * states than `never` can go through in seconds: it is said of orders of so many surprises and moves. */
/* rdbg:
 * cores 4
 * queue line0 length 1 item 1
 * queue line1 length 1 item 1
 * queue line2 length 1 item 1
 * queue line3 length 1 item 1
 * queue line4 length 1 item 1
 * queue line5 length 1 item 1
 * queue line6 length 1 item 1
 * queue line7 length 1 item 1
 * set lines length 8 members line0 line1 line2 line3 line4 line5 line6 line7
 */
// rdbg: task server priority 3
static void server(void *unused)
{
    for (;;) {                                                                      // rdbg: loop
        QueueSetMemberHandle_t ready = xQueueSelectFromSet(lines, portMAX_DELAY);   // rdbg: select lines max
        uint8_t byte;

        /* rdbg(xQueueReceive):
         * if r0 = 1
         *     recv line0 max
         *     continue
         * end
         * if r0 = 2
         *     recv line1 max
         *     continue
         * end
         * if r0 = 3
         *     recv line2 max
         *     continue
         * end
         * if r0 = 4
         *     recv line3 max
         *     continue
         * end
         * if r0 = 5
         *     recv line4 max
         *     continue
         * end
         * if r0 = 6
         *     recv line5 max
         *     continue
         * end
         * if r0 = 7
         *     recv line6 max
         *     continue
         * end
         * if r0 = 8
         *     recv line7 max
         *     continue
         * end
         */
        xQueueReceive(ready, &byte, portMAX_DELAY);
        serve(ready, byte);
    }                                                                               // rdbg: end
}

// rdbg: task monitor priority 2
static void monitor(void *unused)
{
    for (;;) {                                              // rdbg: loop
        uint8_t byte;

        vTaskDelay(2);                                      // rdbg: wait 2
        if (xQueuePeek(line[0], &byte, 0) == pdPASS) {      // rdbg: peek line0 0
            note_alarm(byte);
        }
    }                                                       // rdbg: end
}

/* rdbg:
 * task reader0 priority 1
 *     loop
 *         send line0 max
 *     end
 * task reader1 priority 1
 *     loop
 *         send line1 max
 *     end
 * task reader2 priority 1
 *     loop
 *         send line2 max
 *     end
 * task reader3 priority 1
 *     loop
 *         send line3 max
 *     end
 * task reader4 priority 1
 *     loop
 *         send line4 max
 *     end
 * task reader5 priority 1
 *     loop
 *         send line5 max
 *     end
 * task reader6 priority 1
 *     loop
 *         send line6 max
 *     end
 * task reader7 priority 1
 *     loop
 *         send line7 max
 *     end
 */

/* A server takes from eight lines by a queue set. When it is asked to, a monitor empties one of them by
 * itself. Ten tasks run on four cores. */
#include "FreeRTOS.h"
#include "queue.h"
#include "task.h"
#include "line.h"

#define LINES 8

static QueueHandle_t line[LINES];
static QueueSetHandle_t lines;

/* rdbg:
 * cores 4
 * queue line0 length 1 item 1
 * queue line1 length 1 item 1
 * queue line2 length 1 item 1
 * queue line3 length 1 item 1
 * queue line4 length 1 item 1
 * queue line5 length 1 item 1
 * queue line6 length 1 item 1
 * queue line7 length 1 item 1
 * set lines length 8 members line0 line1 line2 line3 line4 line5 line6 line7
 */

// rdbg: task server priority 3
static void server(void *unused)
{
    for (;;) {                                                                      // rdbg: loop
        QueueSetMemberHandle_t ready = xQueueSelectFromSet(lines, portMAX_DELAY);   // rdbg: select lines max
        uint8_t byte;

        /* rdbg(xQueueReceive):
         * if r0 = 1
         *     recv line0 max
         *     continue
         * end
         * if r0 = 2
         *     recv line1 max
         *     continue
         * end
         * if r0 = 3
         *     recv line2 max
         *     continue
         * end
         * if r0 = 4
         *     recv line3 max
         *     continue
         * end
         * if r0 = 5
         *     recv line4 max
         *     continue
         * end
         * if r0 = 6
         *     recv line5 max
         *     continue
         * end
         * if r0 = 7
         *     recv line6 max
         *     continue
         * end
         * if r0 = 8
         *     recv line7 max
         *     continue
         * end
         */
        xQueueReceive(ready, &byte, portMAX_DELAY);
        serve(ready, byte);
    }                                                                               // rdbg: end
}

// rdbg: task monitor priority 2
static void monitor(void *unused)
{
    for (;;) {                                              // rdbg: loop
        uint8_t byte;

        vTaskDelay(2);                                      // rdbg: wait 2
        if (xQueueReceive(line[0], &byte, 0) == pdPASS) {   // rdbg: recv line0 0
            note_alarm(byte);
        }
    }                                                       // rdbg: end
}

static void reader(void *number)
{
    const size_t me = (size_t)number;

    for (;;) {
        uint8_t byte = line_read(me);   /* waits for the line, which always has one */
        /* rdbg(xQueueSend):
         * task reader0 priority 1
         *     loop
         *         send line0 max
         *     end
         * task reader1 priority 1
         *     loop
         *         send line1 max
         *     end
         * task reader2 priority 1
         *     loop
         *         send line2 max
         *     end
         * task reader3 priority 1
         *     loop
         *         send line3 max
         *     end
         * task reader4 priority 1
         *     loop
         *         send line4 max
         *     end
         * task reader5 priority 1
         *     loop
         *         send line5 max
         *     end
         * task reader6 priority 1
         *     loop
         *         send line6 max
         *     end
         * task reader7 priority 1
         *     loop
         *         send line7 max
         *     end
         */
        xQueueSend(line[me], &byte, portMAX_DELAY);
    }
}

void lines_start(void)
{
    lines = xQueueCreateSet(LINES);
    for (size_t at = 0; at < LINES; at++) {
        line[at] = xQueueCreate(1, sizeof(uint8_t));
        xQueueAddToSet(line[at], lines);
    }
    xTaskCreate(server, "server", 256, NULL, 3, NULL);
    xTaskCreate(monitor, "monitor", 256, NULL, 2, NULL);
    for (size_t at = 0; at < LINES; at++) {
        xTaskCreate(reader, "reader", 256, (void *)at, 1, NULL);
    }
}

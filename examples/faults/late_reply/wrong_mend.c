/* A mend of late_reply.c that is none: what lies in the queue is thrown away before each question. The late
 * reply that comes behind that is taken all the same. */
#include "FreeRTOS.h"

#define PATIENCE pdMS_TO_TICKS(20)

/* rdbg:
 * cores 2
 * const TYPE 0x54
 * const VERSION 0x56
 * queue requests length 1 item 1
 * queue replies length 1 item 1
 */
// rdbg: task client priority 2
static void client(void *unused)
{
    reply_t reply;

    xQueueReset(replies);                                       // rdbg: qreset replies
    // rdbg: data "T"
    uart_write('T');                                            // rdbg(uart_write): send requests 0
    if (xQueueReceive(replies, &reply, PATIENCE) == pdPASS) {   // rdbg: recv replies 2
        // rdbg: if r0
        set_type(reply.value);                                  // rdbg: unpack r1
    }                                                           // rdbg: end
    xQueueReset(replies);                                       // rdbg: qreset replies
    // rdbg: data "V"
    uart_write('V');                                            // rdbg(uart_write): send requests 0
    if (xQueueReceive(replies, &reply, PATIENCE) == pdPASS) {   // rdbg: recv replies 2
        // rdbg: if r0
        // rdbg: unpack r1
        set_version(reply.value);                               // rdbg: version: add r2 1
    }                                                           // rdbg: end
    vTaskDelete(NULL);                                          // rdbg: end task
}

/* rdbg: task sensor priority 9
 *     loop
 *         recv requests max
 *         wait 1..3
 *         send replies 0
 *     end
 */

/* The mend of late_reply.c: the reply to another question is dropped, and the client goes on waiting for its
 * own. No register is taken from another, so that `left` is PATIENCE each time in the model: the client
 * waits no shorter than in C. */
#include "FreeRTOS.h"

#define PATIENCE pdMS_TO_TICKS(20)

/* rdbg:
 * cores 2
 * const TYPE 0x54
 * const VERSION 0x56
 * queue requests length 1 item 1
 * queue replies length 1 item 1
 */
static BaseType_t ask(char kind, reply_t *reply)
{
    TimeOut_t since;
    TickType_t left = PATIENCE;

    uart_write(kind);
    vTaskSetTimeOutState(&since);
    do {
        if (xQueueReceive(replies, reply, left) == pdPASS && reply->kind == kind) {
            return pdPASS;
        }
    } while (xTaskCheckForTimeOut(&since, &left) == pdFALSE);
    return pdFAIL;
}

// rdbg: task client priority 2
static void client(void *unused)
{
    reply_t reply;

    // rdbg: data "T"
    // rdbg(uart_write): send requests 0
    // rdbg(ask): type: recv replies 2
    // rdbg: if r0
    // rdbg: unpack r1
    // rdbg: if r1 != TYPE goto type
    if (ask('T', &reply) == pdPASS) {
        set_type(reply.value);
    }                               // rdbg: end
    // rdbg: data "V"
    // rdbg(uart_write): send requests 0
    // rdbg(ask): again: recv replies 2
    // rdbg: if r0
    // rdbg: unpack r1
    // rdbg: if r1 != VERSION goto again
    if (ask('V', &reply) == pdPASS) {
        set_version(reply.value);   // rdbg: version: add r2 1
    }                               // rdbg: end
    vTaskDelete(NULL);              // rdbg: end task
}

/* rdbg: task sensor priority 9
 *     loop
 *         recv requests max
 *         wait 1..3
 *         send replies 0
 *     end
 */

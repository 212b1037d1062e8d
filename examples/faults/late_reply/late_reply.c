/* A sensor behind a UART is asked for its type and then for its version. It answers each question with
 * the question's letter and a number; the interrupt puts that into `replies`. Where no reply comes in
 * time, the next question is asked. */
#include "FreeRTOS.h"
#include "queue.h"
#include "task.h"
#include "uart.h"

#define PATIENCE pdMS_TO_TICKS(20)      /* 2 ticks of 10 ms */

typedef struct {
    char kind;                  /* which question it is the reply to: 'T' or 'V' */
    int16_t value;
} reply_t;

static QueueHandle_t replies;

/* `requests` is the line to the sensor: uart_write. Of a reply the kind alone matters here. */
/* rdbg:
 * cores 2
 * const TYPE 0x54
 * const VERSION 0x56
 * queue requests length 1 item 1
 * queue replies length 1 item 1
 */

void USART2_IRQHandler(void)
{
    static uint8_t line[3];
    static size_t have;
    BaseType_t woken = pdFALSE;

    line[have++] = uart_read();
    if (have == sizeof line) {
        reply_t reply = { (char)line[0], (int16_t)(line[1] | line[2] << 8) };
        have = 0;
        xQueueSendFromISR(replies, &reply, &woken);
    }
    portYIELD_FROM_ISR(woken);
}

// rdbg: task client priority 2
static void client(void *unused)
{
    reply_t reply;

    // rdbg: data "T"
    uart_write('T');                                            // rdbg(uart_write): send requests 0
    if (xQueueReceive(replies, &reply, PATIENCE) == pdPASS) {   // rdbg: recv replies 2
        // rdbg: if r0
        set_type(reply.value);                                  // rdbg: unpack r1
    }                                                           // rdbg: end
    // rdbg: data "V"
    uart_write('V');                                            // rdbg(uart_write): send requests 0
    if (xQueueReceive(replies, &reply, PATIENCE) == pdPASS) {   // rdbg: recv replies 2
        // rdbg: if r0
        // rdbg: unpack r1
        set_version(reply.value);                               // rdbg: version: add r2 1
    }                                                           // rdbg: end
    vTaskDelete(NULL);                                          // rdbg: end task
}

/* The sensor and USART2_IRQHandler. What an interrupt sends is fixed, and here it hangs on what was
 * asked: so a task of the highest priority with a core of its own plays it. It takes up to 3 ticks,
 * where the client waits for 2. */
/* rdbg: task sensor priority 9
 *     loop
 *         recv requests max
 *         wait 1..3
 *         send replies 0
 *     end
 */

void client_start(void)
{
    replies = xQueueCreate(1, sizeof(reply_t));
    xTaskCreate(client, "client", 256, NULL, 2, NULL);
}

/* An interrupt puts what it captures into a queue, and gives a notification. A task takes all
 * notifications at once, and then empties the queue. A review feared for the sample that comes between
 * the last receive, which finds nothing, and the next take. There is no fault here: it is given behind
 * the send, and a take that clears the count is followed by a receive for as long as there is one. */
#include "FreeRTOS.h"
#include "queue.h"
#include "task.h"
#include "capture.h"

static QueueHandle_t samples;
static TaskHandle_t logger_task;

/* rdbg:
 * cores 1
 * queue samples length 4 item 4
 */

/* Eight times, since each time counts: an interrupt of any number would count for ever. */
// rdbg: interrupt capture times 8: send samples 01020304; notify logger 0 0 inc
void TIM2_IRQHandler(void)
{
    BaseType_t woken = pdFALSE;
    uint32_t sample = capture_read();

    xQueueSendFromISR(samples, &sample, &woken);
    vTaskNotifyGiveFromISR(logger_task, &woken);
    portYIELD_FROM_ISR(woken);
}

// rdbg: task logger priority 1
static void logger(void *unused)
{
    uint32_t sample;

    for (;;) {                                                  // rdbg: loop
        ulTaskNotifyTake(pdTRUE, portMAX_DELAY);                // rdbg: take 0 clear portMAX_DELAY
        // rdbg: loop
        while (xQueueReceive(samples, &sample, 0) == pdPASS) {  // rdbg: recv samples 0
            // rdbg: if !r0 break
            log_sample(sample);                                 // rdbg: add r1 1
        }                                                       // rdbg: end
    }                                                           // rdbg: end
}

void logger_start(void)
{
    samples = xQueueCreate(4, sizeof(uint32_t));
    xTaskCreate(logger, "logger", 256, NULL, 1, &logger_task);
    capture_on();
}

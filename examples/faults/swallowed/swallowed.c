/* A receiver reads what a radio's interrupt writes, until the main task tells it to stop. */
#include "FreeRTOS.h"
#include "stream_buffer.h"
#include "task.h"
#include "radio.h"

#define STOP (1UL << 0)

static StreamBufferHandle_t rx;
static TaskHandle_t receiver_task;

/* The interrupt can't write to a stream buffer in the model: a task of the highest priority with a core
 * of its own does. Two bytes come, and then the line is silent. */
/* rdbg:
 * cores 3
 * const STOP 1 << 0
 * stream rx size 8 trigger 1
 * task radio priority 9
 *     wait 1
 *     data 55
 *     swrite rx 0
 *     wait 1
 *     swrite rx 0
 *     end
 */

void RADIO_IRQHandler(void)
{
    BaseType_t woken = pdFALSE;
    uint8_t byte = radio_read();

    xStreamBufferSendFromISR(rx, &byte, 1, &woken);
    portYIELD_FROM_ISR(woken);
}

// rdbg: task receiver priority 2
static void receiver(void *unused)
{
    uint8_t bytes[8];
    uint32_t told;

    for (;;) {                                                  // rdbg: loop
        // rdbg: sread rx 8 portMAX_DELAY
        size_t count = xStreamBufferReceive(rx, bytes, sizeof bytes, portMAX_DELAY);
        if (count > 0) {
            take_in(bytes, count);
        }
        if (xTaskNotifyWait(0, STOP, &told, 0) == pdTRUE) {     // rdbg: nwait 0 0 STOP 0
            break;                                              // rdbg: if r0 break
        }
    }                                                           // rdbg: end
    radio_off();
    vTaskDelete(NULL);                                          // rdbg: end task
}

// rdbg: task control priority 2
static void control(void *unused)
{
    vTaskDelay(2);                                  // rdbg: wait 2
    xTaskNotify(receiver_task, STOP, eSetBits);     // rdbg: notify receiver 0 STOP bits
    vTaskDelete(NULL);                              // rdbg: end
}

void radio_start(void)
{
    rx = xStreamBufferCreate(8, 1);
    xTaskCreate(receiver, "receiver", 256, NULL, 2, &receiver_task);
    xTaskCreate(control, "control", 256, NULL, 2, NULL);
    radio_on();
}

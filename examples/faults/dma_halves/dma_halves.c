/* A DMA fills a buffer round and round. Its interrupt comes when either half is full, and tells the
 * filter which one. The filter has until that half is filled anew. */
#include "FreeRTOS.h"
#include "task.h"
#include "board.h"

#define SAMPLES 256
#define FIRST (1UL << 0)
#define SECOND (1UL << 1)

static int16_t samples[2][SAMPLES];
static TaskHandle_t dsp_task;

/* A half is full every 10 ticks, each half every 20. Since interrupts can be off for as long
 * (flash_erase), the second half's may come right behind the first one's, though never before it.
 * Entry 1 isn't in the C: it counts the halves that are full and not filtered, so that a goal can speak
 * of them. */
/* rdbg:
 * cores 1
 * notes 3
 * const FIRST 1 << 0
 * const SECOND 1 << 1
 * interrupt ping apart 20 times 3: notify dsp 0 1 set; notify dsp 1 0 inc
 * interrupt pong after ping apart 20 times 3: notify dsp 0 2 set; notify dsp 1 0 inc
 */

void DMA1_Stream0_IRQHandler(void)
{
    BaseType_t woken = pdFALSE;

    if (dma_flag(HALF_TRANSFER)) {
        dma_clear(HALF_TRANSFER);
        xTaskNotifyFromISR(dsp_task, FIRST, eSetValueWithOverwrite, &woken);
    }
    if (dma_flag(TRANSFER_COMPLETE)) {
        dma_clear(TRANSFER_COMPLETE);
        xTaskNotifyFromISR(dsp_task, SECOND, eSetValueWithOverwrite, &woken);
    }
    portYIELD_FROM_ISR(woken);
}

// rdbg: task dsp priority 3
static void dsp(void *unused)
{
    uint32_t half;

    for (;;) {                                                  // rdbg: loop
        xTaskNotifyWait(0, UINT32_MAX, &half, portMAX_DELAY);   // rdbg: nwait 0 0 0xffffffff max
        if (half & FIRST) {                                     // rdbg: if r1 & FIRST
            // rdbg(filter): wait 3
            // rdbg(filter): take 1 dec 0
            filter(samples[0]);             /* 1 to 3 ticks; a half takes 10 */
        } else {                                                // rdbg: else
            // rdbg(filter): wait 3
            // rdbg(filter): take 1 dec 0
            filter(samples[1]);
        }                                                       // rdbg: end
    }                                                           // rdbg: end
}

/* Erases a page: interrupts are off for longer than a half takes. Both flags are up then, and the
 * handler, once it may run, tells of both halves in a row. */
static void store(void *unused)
{
    for (;;) {
        ulTaskNotifyTake(pdTRUE, portMAX_DELAY);
        taskENTER_CRITICAL();
        flash_erase(next_page());
        taskEXIT_CRITICAL();
    }
}

void audio_start(void)
{
    xTaskCreate(store, "store", 256, NULL, 1, NULL);
    xTaskCreate(dsp, "dsp", 512, NULL, 3, &dsp_task);
    dma_start(samples, sizeof samples);
}

/* A mend of dma_halves.c that is none: bits, so that no value is written over, and still `else`. Where both
 * bits have come the second half is passed over, since all bits are cleared on exit. */
#define FIRST (1UL << 0)
#define SECOND (1UL << 1)

/* rdbg:
 * cores 1
 * notes 3
 * const FIRST 1 << 0
 * const SECOND 1 << 1
 * interrupt ping apart 20 times 3: notify dsp 0 1 bits; notify dsp 1 0 inc
 * interrupt pong after ping apart 20 times any: notify dsp 0 2 bits; notify dsp 1 0 inc
 */
void DMA1_Stream0_IRQHandler(void)
{
    BaseType_t woken = pdFALSE;

    if (dma_flag(HALF_TRANSFER)) {
        dma_clear(HALF_TRANSFER);
        xTaskNotifyFromISR(dsp_task, FIRST, eSetBits, &woken);
    }
    if (dma_flag(TRANSFER_COMPLETE)) {
        dma_clear(TRANSFER_COMPLETE);
        xTaskNotifyFromISR(dsp_task, SECOND, eSetBits, &woken);
    }
    portYIELD_FROM_ISR(woken);
}

// rdbg: task dsp priority 3
static void dsp(void *unused)
{
    uint32_t half;

    for (;;) {                                                  // rdbg: loop
        xTaskNotifyWait(0, UINT32_MAX, &half, portMAX_DELAY);   // rdbg: nwait 0 0 0xffffffff max
        if (half & FIRST) {                                     // rdbg: if r1 & FIRST
            // rdbg(filter): wait 3
            // rdbg(filter): take 1 dec 0
            filter(samples[0]);
        } else {                                                // rdbg: else
            // rdbg(filter): wait 3
            // rdbg(filter): take 1 dec 0
            filter(samples[1]);
        }                                                       // rdbg: end
    }                                                           // rdbg: end
}

/* What the review asked for in place of drain.c, for fear of a receive that finds nothing: one receive for
 * each take. A take that clears a count of two then leaves a sample behind. */
/* rdbg:
 * cores 1
 * queue samples length 4 item 4
 * interrupt capture times 8: send samples 01020304; notify logger 0 0 inc
 */
// rdbg: task logger priority 1
static void logger(void *unused)
{
    uint32_t sample;

    for (;;) {                                                  // rdbg: loop
        ulTaskNotifyTake(pdTRUE, portMAX_DELAY);                // rdbg: take 0 clear portMAX_DELAY
        if (xQueueReceive(samples, &sample, 0) == pdPASS) {     // rdbg: recv samples 0
            // rdbg: if r0
            log_sample(sample);                                 // rdbg: add r1 1
        }                                                       // rdbg: end
    }                                                           // rdbg: end
}

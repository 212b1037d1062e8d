/* A host sends frames of four bytes; between two frames the line is silent for a while. The parser was
 * to get a frame at a time: whoever wrote it took the block time of a read for the silence that ends it,
 * as of a UART's idle line. It is how long the read waits for the first byte. */
#include "FreeRTOS.h"
#include "stream_buffer.h"
#include "task.h"
#include "frame.h"

#define LENGTH 4
#define SILENCE 3               /* ticks; within a frame a byte comes at each */

static StreamBufferHandle_t rx;

/* rdbg:
 * cores 2
 * const LENGTH 4
 * const SILENCE 3
 * stream rx size 16 trigger 1
 */

// rdbg: task parser priority 2
static void parser(void *unused)
{
    uint8_t frame[LENGTH];

    for (;;) {                                                              // rdbg: loop
        size_t count = xStreamBufferReceive(rx, frame, LENGTH, SILENCE);    // rdbg: sread rx LENGTH SILENCE
        if (count > 0) {                                                    // rdbg: if r0
            if (count < LENGTH) {                                           // rdbg: if r0 != LENGTH
                discard(frame, count);          /* a broken frame */        // rdbg: discard: add r1 1
            } else {                                                        // rdbg: else
                accept(frame);                                              // rdbg: add r2 1
            }                                                               // rdbg: end
        }                                                                   // rdbg: end
    }                                                                       // rdbg: end
}

void USART1_IRQHandler(void)
{
    BaseType_t woken = pdFALSE;
    uint8_t byte = uart_read();

    xStreamBufferSendFromISR(rx, &byte, 1, &woken);
    portYIELD_FROM_ISR(woken);
}

/* The interrupt can't write to a stream buffer in the model: a task of the highest priority with a core
 * of its own does, byte by byte, until the host has its reply, and sends on. */
/* rdbg: task uart priority 9
 *     data 55
 *     loop
 *         wait 1
 *         swrite rx 0
 *         wait 1
 *         swrite rx 0
 *         wait 1
 *         swrite rx 0
 *         wait 1
 *         swrite rx 0
 *         wait 10
 *     end
 */
void parser_start(void)
{
    rx = xStreamBufferCreate(16, 1);
    xTaskCreate(parser, "parser", 256, NULL, 2, NULL);
}

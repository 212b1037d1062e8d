/* A mend of block_time.c that is none: a trigger level of four. It says when a task that waits is woken. A
 * byte that lies there when the read begins is taken at once, whatever the level is. */
#define LENGTH 4
#define SILENCE 3

/* rdbg:
 * cores 2
 * const LENGTH 4
 * const SILENCE 3
 * stream rx size 16 trigger LENGTH
 */
void parser_start(void)
{
    rx = xStreamBufferCreate(16, LENGTH);
    xTaskCreate(parser, "parser", 256, NULL, 2, NULL);
}

// rdbg: task parser priority 2
static void parser(void *unused)
{
    uint8_t frame[LENGTH];

    for (;;) {                                                              // rdbg: loop
        size_t count = xStreamBufferReceive(rx, frame, LENGTH, SILENCE);    // rdbg: sread rx LENGTH SILENCE
        if (count > 0) {                                                    // rdbg: if r0
            if (count < LENGTH) {                                           // rdbg: if r0 != LENGTH
                discard(frame, count);                                      // rdbg: discard: add r1 1
            } else {                                                        // rdbg: else
                accept(frame);                                              // rdbg: add r2 1
            }                                                               // rdbg: end
        }                                                                   // rdbg: end
    }                                                                       // rdbg: end
}

/* rdbg: task uart priority 9
 *     data 55
 *     loop
 *         wait 1
 *         swrite rx 0
 *         wait 1
 *         swrite rx 0
 *         wait 1
 *         swrite rx 0
 *         wait 1
 *         swrite rx 0
 *         wait 10
 *     end
 */

/* The mend of block_time.c: a byte at a time, each with the silence as its own time, until a frame is there
 * or the line is silent. */
#define LENGTH 4
#define SILENCE 3

/* rdbg:
 * cores 2
 * const LENGTH 4
 * const SILENCE 3
 * stream rx size 16 trigger 1
 */
// rdbg: task parser priority 2
static void parser(void *unused)
{
    uint8_t frame[LENGTH];

    for (;;) {                                                                  // rdbg: loop
        size_t count = 0;                                                       // rdbg: set r3 0
        // rdbg: while r3 != LENGTH
        // rdbg: sread rx 1 SILENCE
        // rdbg: if !r0 break
        while (count < LENGTH && xStreamBufferReceive(rx, &frame[count], 1, SILENCE) == 1) {
            count++;                                                            // rdbg: add r3 1
        }                                                                       // rdbg: end
        if (count > 0) {                                                        // rdbg: if r3
            if (count < LENGTH) {                                               // rdbg: if r3 != LENGTH
                discard(frame, count);                                          // rdbg: discard: add r1 1
            } else {                                                            // rdbg: else
                accept(frame);                                                  // rdbg: add r2 1
            }                                                                   // rdbg: end
        }                                                                       // rdbg: end
    }                                                                           // rdbg: end
}

/* rdbg: task uart priority 9
 *     data 55
 *     loop
 *         wait 1
 *         swrite rx 0
 *         wait 1
 *         swrite rx 0
 *         wait 1
 *         swrite rx 0
 *         wait 1
 *         swrite rx 0
 *         wait 10
 *     end
 */

"""Names of FreeRTOS and C, and what a script uses in their place."""
import re
from typing import Dict, Optional

from rdbg.instructions import FORMS, GIVEN
from rdbg.wording import by_word

# Calls that an instruction stands for with some of its operands given, or in place of another.
WRITTEN: Dict[str, str] = {
    **{call.split("(")[0]: re.sub("[A-Z]+=", "", text) for call, text in GIVEN.items()},
    "ulTaskNotifyTake": "take 0 clear T or take 0 dec T",
    "vTaskNotifyGive": "notify K 0 0 inc",
    "vTaskNotifyGiveIndexed": "notify K I 0 inc",
    "vTaskDelay": "recv never T, where never is a queue that nobody fills",
    "xSemaphoreTake": "recv Q T on a queue whose items stand for the count",
    "xSemaphoreGive": "send Q 0 on a queue whose items stand for the count",
    "uxSemaphoreGetCount": "count Q on a queue whose items stand for the count",
    "xQueueCreate": 'a queue under the key "queues", which exists from boot',
    "xQueueCreateSet": 'a set under the key "sets", which exists from boot',
    "xStreamBufferCreate": 'a stream buffer under the key "streams", which exists from boot',
    "xMessageBufferCreate": 'a message buffer under the key "messages", which exists from boot',
    "xEventGroupCreate": 'an event group under the key "groups", which exists from boot',
    "xTaskCreate": 'a task under the key "tasks", which exists from boot',
}
# What no instruction stands for, by a pattern of its name, and why.
MISSING: Dict[str, str] = {
    "xSemaphoreCreate.*|vSemaphoreCreate.*": "use a queue for a semaphore or a mutex",
    ".Semaphore(Take|Give)Recursive": "there are no recursive mutexes",
    "[vx]TaskDelayUntil": "recv never T delays from the tick of the call",
    ".*Semaphore.*|.*Mutex.*": "a queue can model some uses of a semaphore",
    "[vx]Task(Suspend|Resume).*": "tasks cannot be suspended",
    ".*TaskPriority(Set|Get)": "task priorities are fixed",
    "[uvx]*Timer.*": "use a task that delays in place of a software timer",
    "(vPort|taskENTER_|taskEXIT_|portENTER_|portEXIT_).*": "each call is one move and needs no critical section",
    ".*YIELD.*": "the scheduler runs at each move, and time slices end at a tick",
    "vTaskStartScheduler": "all tasks exist from boot",
    "xTaskGetTickCount": "no instruction reads the tick count",
}
# Words of C and of assemblers, and the instruction that a script has for them.
WORDS = by_word(
    {
        "jump L": "goto jmp br break continue else",
        "jumpz R L": "jz beq if do",
        "jump L and jumpz R L": "for while switch",
        "move R R": "mov",
        "add R 1": "inc",
        "add R 4294967295": "dec",
        "add R N, where N is 2^32 minus the amount": "sub",
        "recv never T, where never is a queue that nobody fills": "delay sleep",
        "recv Q T": "receive",
        "over Q": "overwrite",
        "end": "halt exit return",
        "jumpz R L, which tests a register for 0": "cmp",
        "jumpz R L to skip a jump L": "bne jnz",
        "send Q 0 on a queue that models a semaphore, or notify K I 0 inc": "give",
        "gwait G V WISH CLR T, nwait I V V T or take I clear T": "wait",
    }
)
# Those that are written in another way in lines, and calls that are.
CALLS_IN_LINES: Dict[str, str] = {
    "vtaskdelay": "wait T",
    "xsemaphoretake": "take NAME T",
    "xsemaphoregive": "give NAME",
    "uxsemaphoregetcount": "count NAME",
}
IN_LINES = by_word(
    {
        "add R -1": "dec",
        "add R -N": "sub",
        "loop, or set R N and while R with add R -1 inside": "for",
        "loop with if TEST break inside": "do until",
        "if R = N goto L, one line for each N": "switch",
        "if R = N goto L": "cmp",
        "if R goto L": "bne jnz",
        "else, then an if on the next line with its own end": "elif elseif",
        "end": "endif endloop endwhile done fi",
        "wait T": "delay sleep",
    }
)
BY_NAME: Dict[str, str] = {
    **{name.lower(): it.text for it in FORMS for name in it.freertos},
    **{name.lower(): text for name, text in WRITTEN.items()},
}
# Calls from an interrupt, by their names without FromISR, and the command that stands for each.
FROM_ISR = by_word(
    {
        "isr send Q HEX": "xqueuesend xqueuesendtoback",
        "isr notify K 0 N ACTION": "xtasknotify",
        "isr notify K I N ACTION": "xtasknotifyindexed",
        "isr notify K 0 0 inc": "vtasknotifygive",
        "isr notify K I 0 inc": "vtasknotifygiveindexed",
    }
)
# What is said of the others.
INTERRUPT = "; model the interrupt as a task with a core of its own, see docs/guides/from-c.md"


def called(word: str) -> str:
    """The name at the beginning of a word: `xQueueReceive` of `xQueueReceive(jobs,`."""
    found = re.match(r"[A-Za-z_][A-Za-z0-9_]*", word)
    return found.group() if found else word


def sentence(word: str, in_lines: bool = False) -> Optional[str]:
    """Returns the message about a name of FreeRTOS or C in place of an instruction, with the
    instruction or command to use: `'xQueueReceive' is not an instruction (use recv Q T)`. Returns
    None for other words."""
    name = called(word)
    plain = re.sub(r"(?i)FromISR$", "", name)
    end = "" if plain == name else INTERRUPT
    not_one = f"'{name}' is not an instruction"
    if end and plain.lower() in FROM_ISR:
        command = f"the command {FROM_ISR[plain.lower()]} in profile 2"
        return f"{not_one} (use {command}, see docs/guides/from-c.md)"
    by_name = {**BY_NAME, **(CALLS_IN_LINES if in_lines else {})}
    if plain.lower() in by_name:
        return f"{not_one} (use {by_name[plain.lower()]}{end})"
    words = {**WORDS, **(IN_LINES if in_lines else {})}
    if name.lower() in words:
        return f"{not_one} (use {words[name.lower()]})"
    missing = (it for pattern, it in MISSING.items() if re.fullmatch(f"(?i){pattern}", plain))
    why = next(missing, None)
    return f"'{name}' is not modelled ({why})" if why else None

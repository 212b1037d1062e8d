"""The instructions of scripts: one table of their forms, and one reader over it.

A form is written as in docs/reference/calls.md: its word, then the symbols of its operands. What an operand
can be stands in `rdbg.operands`."""
import itertools
from typing import Dict, NamedTuple, Tuple

from rdbg.operands import KIND_OF
from rdbg.wording import rows


class InstructionForm(NamedTuple):
    """A form of instructions: how it is written, the calls of FreeRTOS that it stands for, each
    with the operands that its arguments are, up to the last one, and `-` for others, what it does,
    what its answer in r0 is, and what each operand is called where its kind says too little
    (`nouns`, one for each operand)."""

    text: str
    calls: Tuple[str, ...]
    does: str
    answer: str
    nouns: Tuple[str, ...]

    @property
    def word(self) -> str:
        """The instruction's own word."""
        return self.text.split(" ")[0]

    @property
    def freertos(self) -> Tuple[str, ...]:
        """The names of the calls."""
        return tuple(it.split("(")[0] for it in self.calls)

    @property
    def symbols(self) -> Tuple[str, ...]:
        """The kinds of its operands, by their symbols."""
        return tuple(self.text.split(" ")[1:])

    def texts(self) -> Tuple[str, ...]:
        """The form as the documents write it: `take I clear T` and `take I dec T`."""
        choices = (part.split("|") for part in self.text.split(" "))
        return tuple(map(" ".join, itertools.product(*choices)))


def form(text: str, calls: str, does: str, answer: str, nouns: str = "") -> InstructionForm:
    """A form; `calls` are separated by spaces, `nouns` by commas."""
    symbols = text.split(" ")[1:]
    given = nouns.split(", ") if nouns else [KIND_OF[symbol].noun for symbol in symbols]
    assert len(given) == len(symbols), text
    return InstructionForm(text, tuple(calls.split()), does, answer, tuple(given))


STAYS = "r0 stays"
OWN = "r0 stays, where it isn't the register itself"
SENT = "1, or 0 where the queue was full until the time was up"
RECEIVED = "1, or 0 where nothing came until the time was up"
TOLD = "1; 0 where setif finds an entry that has received"

FORMS: Tuple[InstructionForm, ...] = tuple(
    form(*row)
    for row in rows(
        f"""
set R N | | the register becomes the number | {OWN}
add R N | | the register grows by the number, modulo 2^32 | {OWN}
move R R | | the first register becomes the second's value | {OWN}
  | register that changes, register that is read
data HEX | | the task's data becomes these bytes | {STAYS}
pack R | | the data becomes the register's four bytes, lowest first | {STAYS}
unpack R | | the register becomes the data's first four bytes | {OWN}
jump L | | the script goes on at this instruction | {STAYS}
jumpz R L | | the script goes on there if the register is 0 | {STAYS}
end | vTaskDelete | the task has ended | {STAYS}
send Q T | xQueueSend(Q,-,T) xQueueSendToBack(Q,-,T) | sends the data, to the back | {SENT}
front Q T | xQueueSendToFront(Q,-,T) | sends the data, to the front | {SENT}
recv Q T | xQueueReceive(Q,-,T) | takes the first item, as the data | {RECEIVED}
peek Q T | xQueuePeek(Q,-,T) | reads the first item, as the data, and leaves it | {RECEIVED}
over Q | xQueueOverwrite(Q) | puts the data in place of the one item | 1
qreset Q | xQueueReset(Q) | takes all items out | 1
count Q | uxQueueMessagesWaiting(Q) | counts the items | how many items there are
spaces Q | uxQueueSpacesAvailable(Q) | counts the free places | how many are free
setadd Q S | xQueueAddToSet(Q,S) | makes the queue a member
  | 1, or 0 where it is one already, or has items
setdel Q S | xQueueRemoveFromSet(Q,S) | ends that it is a member
  | 1, or 0 where it isn't one, or has items
select S T | xQueueSelectFromSet(S,T) | takes the oldest handle
  | the queue's number in the file and 1, or 0 for none
swrite B T | xStreamBufferSend(B,-,-,T) | writes the data | how many bytes were written
sread B ROOM T | xStreamBufferReceive(B,-,ROOM,T) | reads so many bytes at the most, as the data
  | how many bytes were read
sreset B | xStreamBufferReset(B) | drops all bytes | 1, or 0 where somebody waits
strig B V | xStreamBufferSetTriggerLevel(B,V) | sets the trigger level
  | 1, or 0 where it is above the size | stream buffer, trigger level
scount B | xStreamBufferBytesAvailable(B) | counts the bytes | how many there are
sspaces B | xStreamBufferSpacesAvailable(B) | counts the room | how many bytes fit
mwrite M T | xMessageBufferSend(M,-,-,T) | writes the data as a message | its length, or 0
mread M ROOM T | xMessageBufferReceive(M,-,ROOM,T)
  | reads a message of so many bytes at the most, as the data
  | its length, or 0 where there is none or it is longer
mreset M | xMessageBufferReset(M) | drops all messages | 1, or 0 where somebody waits
mspaces M | xMessageBufferSpacesAvailable(M) | counts the room
  | how many bytes are free, four a message for its length among them
mnext M | xMessageBufferNextLengthBytes(M) | looks at the message in front
  | its length, or 0 for none
notify K I V ACTION | xTaskNotifyIndexed(K,I,V,ACTION) | notifies an entry of the task | {TOLD}
  | task, index of a notification entry, value that is sent, action
query K I V ACTION | xTaskNotifyAndQueryIndexed(K,I,V,ACTION)
  | notifies an entry of the task; r1 becomes its value before | {TOLD}
  | task, index of a notification entry, value that is sent, action
take I clear|dec T | ulTaskNotifyTakeIndexed(I,clear|dec,T)
  | waits until the entry's value isn't 0, then clears it or takes one away
  | the value before, or 0
nwait I V V T | xTaskNotifyWaitIndexed(I,V,V,-,T)
  | waits until the entry has received; r1 becomes its value
  | 1, or 0 where nothing came until the time was up
  | index of a notification entry, bits to clear on entry, bits to clear on exit, block time
nclear K I | xTaskNotifyStateClearIndexed(K,I) | makes an entry idle that has received
  | 1, or 0 where it had not
vclear K I V | ulTaskNotifyValueClearIndexed(K,I,V) | clears bits of an entry's value
  | the value before | task, index of a notification entry, bits to clear
gset G V | xEventGroupSetBits(G,V) | sets bits | the bits afterwards | event group, bits to set
gclear G V | xEventGroupClearBits(G,V) | clears bits | the bits before | event group, bits to clear
gget G | xEventGroupGetBits(G) | looks at the bits | the bits
gwait G V WISH CLR T | xEventGroupWaitBits(G,V,CLR,WISH,T)
  | waits for any or all of these bits, and keeps or clears them once they came
  | the bits, also where the time was up
  | event group, bits to wait for, wish, word for clearing, block time
gsync G V V T | xEventGroupSync(G,V,V,T) | sets bits, then waits for all of others, and clears these
  | the bits, also where the time was up | event group, bits to set, bits to wait for, block time
"""
    )
)
FORM_OF: Dict[str, InstructionForm] = {it.word: it for it in FORMS}
# Calls that an instruction stands for with some of its operands given.
GIVEN: Dict[str, str] = {
    "xTaskNotify(K,V,ACTION)": "notify K I=0 V ACTION",
    "xTaskNotifyGive(K)": "notify K I=0 V=0 ACTION=inc",
    "xTaskNotifyGiveIndexed(K,I)": "notify K I V=0 ACTION=inc",
    "xTaskNotifyAndQuery(K,V,ACTION)": "query K I=0 V ACTION",
    "ulTaskNotifyTake(clear|dec,T)": "take I=0 clear|dec T",
    "xTaskNotifyWait(V,V,-,T)": "nwait I=0 V V T",
    "xTaskNotifyStateClear(K)": "nclear K I=0",
    "ulTaskNotifyValueClear(K,V)": "vclear K I=0 V",
}
# Instructions that write r1, too.
WRITES_R1 = ("query", "nwait")
# Those with which a script can end, since it never goes on behind them.
FINAL = ("end", "jump")
# The form of the instruction with a word, or none.
form_of = FORM_OF.get

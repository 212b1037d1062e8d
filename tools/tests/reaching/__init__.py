"""What the search through orders is held against: an enumeration of all places that any order leads
to, by the lines of `rdbg run` alone, with a clock of its own.

It knows nothing of rdreach. `states` has what the views show of a place, `machine` which places a
move leads to, `clock` what may come at one, `enumeration` all places, with how few moves and
surprises lead there, `unread` what nobody reads, `goals` what is looked for, `applications` and
`questions` what is asked at random, and `judge` what rdreach says, and what is wrong with it."""

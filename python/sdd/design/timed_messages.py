"""The kinds of messages of a timed run. A message is a tuple: its kind, its class, its time, and what belongs to the kind.

READ: the attempt, its conditions, its uses. WRITE: the plan, its changes. REJECT: the class and the time of the write.
FETCH: the attempt, a use and a column. REDUCE: these, and the values that stay. VALUES: the values.
"""
READ, WRITE, NULL, READY, SHIP, ROWS, REJECT, ASK, FETCH, VALUES, REDUCE, REDUCED, HOLD, HELD, RELEASE, DONE, ACK = range(17)

"""What the rules mean that a catalogue or a workload may break, and what usually helps."""

OF_CATALOGUE = {
    "TooLong": ("the file has more than 1,048,576 bytes", "leave out what isn't used"),
    "NotToml": ("the file isn't UTF-8, or isn't TOML", "a header of an array has two brackets, [[class]]; a text stands between quotes, and a list in brackets"),
    "UnknownField": ("a table has a field that it can't have", "look for a misspelled field"),
    "MissingField": ("a field that has to be there is absent", "add it"),
    "WrongKind": ("a field has another kind than it may have, a number is out of range, or a name isn't spelled as one",
                  "a name has 1 to 32 letters a to z and A to Z, digits and _, begins with a letter, and is none of from, where, and, set; "
                  "the kind of a column is \"int\" or \"text\""),
    "DuplicateName": ("a name stands twice where it may stand once", "rename one of the two"),
    "UnknownName": ("a name or a number is of nothing that is there", "compare it with the names above it, and module numbers with tms and dms"),
    "BadKey": ("the key's column has texts", "a key is of the kind \"int\": take a number for each text, and keep the text in another column"),
    "NoCopy": ("the fragment has no copy", "name the data modules that keep it, as copies = [1]"),
    "RangeGap": ("some key is in no fragment of the relation, or `to` is less than `from`",
                 "the first fragment has no `from`, the last one no `to`, and each begins 1 after the end of the one before"),
    "RangeOverlap": ("a key is in two fragments of the relation", "let each begin 1 after the end of the one before"),
    "ReadsWhereNoCopy": ("a class reads a fragment at a data module that has no copy of it", "read it where a copy is, or add a copy there"),
    "TooFew": ("there is no module", "tms and dms are 1 or more"),
    "TooMany": ("there are more than the limit", "docs/FORMATS.md, \"Faults of a catalogue\", has the limits"),
}
OF_WORKLOAD = {
    "TooLong": ("the file has more than 67,108,864 bytes", "leave out what the run doesn't need"),
    "NotUtf8": ("the line has bytes that aren't UTF-8", "save the file as UTF-8"),
    "NoEnd": ("the line isn't ended by a newline, or the file ends without the line `end`", "the last line is `end`, and a newline stands after it"),
    "BadLine": ("the line has none of the forms, or may not stand at this place", "docs/FORMATS.md, \"The workload\", has all forms"),
    "BadNumber": ("a number is misspelled or out of range, or a text stands where a number belongs",
                  "no plus sign, no zeros in front, no -0; texts stand between \" and \"; places and ticks are 1 to 1048576"),
    "UnknownName": ("the name is of nothing that is there", "compare it with the catalogue; a transaction is submitted after its `txn`"),
    "BadEvent": ("the site or the link isn't there, or it is of the wrong kind, or the event may not stand here", "links join U and a T, U and a D, or a T and a D; "
                 "transactions and ticks are of a T, `reads` of a D, `down` and `up` of a T or a D"),
    "WrongKind": ("a value has another kind than its column, or the number of values isn't that of the columns",
                  "give a value for each column in the catalogue's order: texts between quotes, numbers without"),
    "KeyChanged": ("an assignment changes the key", "delete the row, and put one with the other key"),
    "DuplicateTxn": ("a transaction before has the name", "rename one of the two"),
    "SubmittedTwice": ("the transaction is submitted before", "submit each once; copy the transaction under another name"),
    "BadClass": ("another class has this name already, or the class has this fragment already, or the module has no copy of the fragment",
                 "give the class a new name, also where it takes the place of an earlier one; read at a module that has a copy"),
    "TooMany": ("there are more than the limit", "docs/FORMATS.md, \"Limits\", has the limits"),
}
FORMS = {
    "row": "row REL V ..", "txn": "txn NAME Tn", "put": "put REL V ..", "query": "query REF .. from REL .. where COND and COND",
    "update": "update REL set REF = V REF += N where COND", "delete": "delete REL where COND", "done": "done", "list": "list",
    "class": "class NAME Tn", "reads": "reads FRAG Dn", "writes": "writes FRAG", "submit": "submit NAME", "deliver": "deliver A B K",
    "lose": "lose A B K", "repeat": "repeat A B K", "resend": "resend A B", "tick": "tick Tn N", "down": "down Sn", "up": "up Sn",
    "settle": "settle", "redeclare": "redeclare", "end": "end", "control": "control B W", "step": "step I", "stop": "stop I",
}
WITHOUT_FILE = {
    "limit": "the run would have more than 4,294,967,295 events, or messages on one link; fewer or smaller settles, or fewer transactions, help",
    "read fault": "a file couldn't be opened or read; look at its name, and whether you may read it",
    "write fault": "standard output took only a part of the text: its disk is full, or the program after a pipe ended",
    "no memory": "memory ran out; a smaller workload helps, or a machine with more",
}
# What `sdd robust` prints, and what helps.
HELPS = ("let the pivot change what it reads, if only by += 0; keep in one row what has to be seen together; or run the transactions "
         "of both kinds one after the other (docs/DESIGN.md, \"On an ordinary database\")")
SNAPSHOTS = {
    "snapshot isolation: enough": "no read has P3, so each history of these classes under snapshot isolation is serializable, "
                                  "where of each class one transaction runs at a time",
    "snapshot isolation: not shown": "a read has P3: its class changes something by which the change that it misses may be seen. "
                                     "`sdd robust CAT WORK` asks it of the very transactions; else: " + HELPS,
    "snapshot isolation: robust": "each run of these transactions under snapshot isolation, any number of each, is like a serial one",
    "snapshot isolation: not robust": "the run that follows has no serial order: the first one misses a change, and somebody sees that "
                                      "without its own. What helps: " + HELPS,
    "snapshot isolation: unknown": "no run of up to four transactions shows that it goes wrong, and the columns that they read and change "
                                   "don't show that it can't. The line that follows says where it might. What helps: " + HELPS,
}
PIVOT = "under snapshot isolation the pivot may miss a change that others see without the pivot's own. What helps: " + HELPS

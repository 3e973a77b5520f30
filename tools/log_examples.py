"""The workloads whose logs are written by write_log_examples.py: a name, the module of crates/sdd_log_examples/specs in
which it stands, what it shows, its catalogue and the workload; where its data modules are made of different
rows, also the rows of each, in the place of the workload's."""

ITEM = """[[relation]]
name = "item"
columns = [{name = "id", kind = "int"}, {name = "val", kind = "int"}]
key = "id"
"""


def of_items(tms, dms, fragments, classes):
    """A catalogue of one relation `item`."""
    text = "tms = %d\ndms = %d\n" % (tms, dms) + ITEM
    for name, least, greatest, copies in fragments:
        text += '[[fragment]]\nname = "%s"\nrelation = "item"\n' % name
        text += "" if least is None else "from = %d\n" % least
        text += "" if greatest is None else "to = %d\n" % greatest
        text += "copies = %s\n" % copies
    for name, tm, reads, writes in classes:
        text += '[[class]]\nname = "%s"\ntm = %d\n' % (name, tm)
        text += "reads = [%s]\n" % ", ".join('{fragment = "%s", at = %d}' % r for r in reads)
        text += "writes = [%s]\n" % ", ".join('"%s"' % w for w in writes)
    return text


def two_fragments(a, b):
    return [("a", None, 9, [a]), ("b", 10, None, [b])]


ONE_CLASS = """tms = 1
dms = 1
[[relation]]
name = "acct"
columns = [{name = "id", kind = "int"}, {name = "bal", kind = "int"}]
key = "id"
[[fragment]]
name = "all"
relation = "acct"
copies = [1]
[[class]]
name = "own"
tm = 1
reads = [{fragment = "all", at = 1}]
writes = ["all"]
"""
WRITER_AND_READER = of_items(2, 1, two_fragments(1, 1), [("wr", 1, [], ["a"]), ("rd", 2, [("a", 1)], [])])
READER_OF_TWO = of_items(2, 2, two_fragments(1, 2), [("wr", 1, [], ["a", "b"]), ("rd", 2, [("a", 1), ("b", 2)], [])])
EACH_READS_THE_OTHER = of_items(2, 1, two_fragments(1, 1), [("p", 1, [("a", 1)], ["b"]), ("q", 2, [("b", 1)], ["a"])])
TWO_WRITERS = of_items(3, 1, [("a", None, None, [1])], [("rd", 1, [("a", 1)], []), ("j", 2, [], ["a"]), ("k", 3, [], ["a"])])
TWO_COPIES = of_items(2, 2, [("a", None, None, [1, 2])], [("j", 1, [], ["a"]), ("k", 2, [], ["a"])])
WRITER_OF_TWO = of_items(2, 1, two_fragments(1, 1), [("p", 1, [("a", 1)], ["b"]), ("q", 2, [("b", 1)], ["a", "b"])])
TWO_OF_TWO = of_items(3, 1, two_fragments(1, 1), [("rd", 1, [("a", 1), ("b", 1)], []), ("j", 2, [], ["a"]), ("k", 3, [], ["a", "b"])])
TWO_READERS = of_items(2, 3, [("a", None, None, [1, 2, 3])], [("rd", 1, [("a", 1)], []), ("re", 2, [("a", 3)], [])])
THREE_RELATIONS = (
    "tms = 1\ndms = 3\n"
    + "".join(
        '[[relation]]\nname = "%s"\ncolumns = [{name = "id", kind = "int"}, {name = "%s", kind = "int"}]\nkey = "id"\n' % r
        for r in (("r", "a"), ("s", "b"), ("t", "c"))
    )
    + "".join('[[fragment]]\nname = "%s"\nrelation = "%s"\ncopies = [%d]\n' % (n, n, d) for n, d in (("r", 1), ("s", 2), ("t", 3)))
    + '[[class]]\nname = "jn"\ntm = 1\nreads = [{fragment = "r", at = 1}, {fragment = "s", at = 2}, {fragment = "t", at = 3}]\n'
)
READS_ANOTHER = of_items(3, 1, two_fragments(1, 1), [("rd", 1, [("a", 1)], []), ("j", 2, [("b", 1)], ["a"]), ("k", 3, [], ["a"])])
TWO_OF_ONE = of_items(1, 1, two_fragments(1, 1), [("v", 1, [], ["b"]), ("w", 1, [], ["a"])])
WRITER_OF_COPIES = of_items(1, 2, [("a", None, None, [1, 2])], [("j", 1, [], ["a"])])
WRITER_AND_ITS_READER = of_items(1, 2, [("a", None, None, [1, 2])], [("j", 1, [], ["a"]), ("rd", 1, [("a", 1)], [])])
DELETES_AND_PUTS = of_items(
    3, 2, [("a", None, None, [1, 2])], [("own", 1, [("a", 1)], ["a"]), ("k", 2, [], ["a"]), ("rd", 3, [("a", 2)], [])]
)
ONE_WRITER = of_items(1, 1, [("a", None, None, [1])], [("own", 1, [], ["a"])])
ONE_OF_TWO = of_items(2, 1, [("a", None, None, [1])], [("own", 1, [], ["a"])])
ONE_OF_THREE = of_items(3, 1, [("a", None, None, [1])], [("own", 1, [], ["a"])])
TWO_PARTS = (
    "tms = 1\ndms = 3\n"
    + "".join(
        '[[relation]]\nname = "%s"\ncolumns = [{name = "id", kind = "int"}, {name = "a", kind = "int"}]\nkey = "id"\n' % r for r in "rs"
    )
    + '[[fragment]]\nname = "r"\nrelation = "r"\ncopies = [1]\n[[fragment]]\nname = "s1"\nrelation = "s"\nto = 9\ncopies = [2]\n'
    '[[fragment]]\nname = "s2"\nrelation = "s"\nfrom = 10\ncopies = [3]\n[[class]]\nname = "jn"\ntm = 1\n'
    'reads = [{fragment = "r", at = 1}, {fragment = "s1", at = 2}, {fragment = "s2", at = 3}]\n'
)

WAITS_FOR_TWO = """txn x T1
query 1.val from item%s
done
txn z T3
put item %d 5
done
tick T1 2
submit x
tick T3 3
submit z
deliver T1 D1 1
deliver T3 D1 1
deliver D1 T2 1
deliver T2 D1 2
end
"""
PUT = "txn p T1\nput acct 5 10\ndone\n"
HELD_FOR_DOWN = PUT + "submit p\ndown D1\ndeliver T1 D1 1\ndeliver D1 T1 1\n"

LOGS = [
    ("put_and_query", "Links", "a put and a query of one class: a settle carries all out", ONE_CLASS,
     PUT + "txn q T1\nquery 1.id 1.bal from acct\ndone\nsubmit p\nsubmit q\nsettle\nend\n"),
    ("lost_and_repeated", "Links", "a packet is lost, another one repeated and delivered early; both are resent", ONE_CLASS,
     PUT + "txn q T1\nput acct 5 20\ndone\nsubmit p\nsubmit q\nlose T1 D1 1\nrepeat T1 D1 1\ndeliver T1 D1 1\nresend T1 D1\n"
     "deliver T1 D1 2\ndeliver T1 D1 1\ndeliver T1 D1 1\ndeliver T1 D1 1\nend\n"),
    ("two_copies", "Links", "two puts of one item come to its two copies in different orders", TWO_COPIES,
     "txn y T1\nput item 1 5\ndone\ntxn z T2\nput item 1 6\ndone\nsubmit y\nsubmit z\ndeliver T1 D1 1\ndeliver T2 D1 1\n"
     "deliver T2 D2 1\ndeliver T1 D2 1\nend\n"),
    ("reads_before", "Protocols", "by P1 a query is answered before the put that is committed comes to its module", WRITER_AND_READER,
     "txn x T1\nput item 1 7\ndone\ntxn y T2\nquery 1.val from item where 1.id <= 9\ndone\nsubmit x\ntick T2 5\nsubmit y\n"
     "deliver T2 D1 1\ndeliver D1 T2 2\ndeliver T2 D1 2\ndeliver D1 T2 3\ndeliver T1 D1 1\nend\n"),
    ("one_time_at_two", "Protocols", "a query asks two modules up to one time, and waits at both", READER_OF_TWO,
     "row item 1 0\nrow item 11 0\ntxn x T1\nput item 1 7\nput item 11 7\ndone\ntxn y T2\nquery 1.id 1.val from item\ndone\n"
     "submit x\ntick T2 3\nsubmit y\ndeliver T1 D1 1\ndeliver T2 D1 1\ndeliver T2 D2 1\nsettle\nend\n"),
    ("up_to_its_own_time", "Protocols", "by P3 a query waits up to its own timestamp", EACH_READS_THE_OTHER,
     "txn x T1\nquery 1.val from item where 1.id <= 9\nput item 11 1\ndone\ntxn y T2\nquery 1.val from item where 1.id >= 10\n"
     "put item 1 1\ndone\nsubmit x\nsubmit y\ndeliver T2 D1 1\ndeliver D1 T1 1\ndeliver T1 D1 1\ndeliver D1 T1 2\ndeliver T1 D1 3\n"
     "deliver D1 T1 3\ndeliver T1 D1 4\ndeliver T1 D1 4\ndeliver D1 T2 2\ndeliver T2 D1 2\ndeliver D1 T2 3\nend\n"),
    ("rejected", "Waits", "a query comes after a later put, is rejected, and starts again", EACH_READS_THE_OTHER,
     "txn x T1\nquery 1.val from item where 1.id <= 9\ndone\ntxn y T2\nput item 1 1\ndone\nsubmit x\nsubmit y\ndeliver T2 D1 1\n"
     "deliver T1 D1 1\ndeliver D1 T1 2\ndeliver T1 D1 2\nsettle\nend\n"),
    ("waits_for_two", "Waits", "a query waits for two classes; a put of one of them is held until it is answered", TWO_WRITERS,
     WAITS_FOR_TWO % ("", 1)),
    ("earlier_and_later", "Waits", "of two puts a waiting query lets the one before its time pass", TWO_WRITERS,
     "txn y T2\nput item 1 5\ndone\ntxn z T3\nput item 1 6\ndone\ntxn x T1\nquery 1.val from item\ndone\nsubmit y\nsubmit z\n"
     "tick T1 1\nsubmit x\ndeliver T3 D1 1\ndeliver T1 D1 1\ndeliver T2 D1 1\nend\n"),
    ("undeclared", "Undeclared", "an undeclared query lets the transaction modules hold, and waits for every class", TWO_COPIES,
     "txn y T1\nput item 1 5\ndone\ntxn u T1\nquery 1.val from item\ndone\nsubmit y\nsubmit u\ndeliver U T1 1\ndeliver U T2 1\n"
     "deliver T1 U 2\ndeliver T2 U 2\ndeliver U D1 1\ndeliver T1 D1 1\nend\n"),
    ("overflow", "Queries", "a sum leaves the range of a whole number: the update changes nothing", ONE_CLASS,
     "row acct 1 9223372036854775807\ntxn o T1\nupdate acct set 1.bal += 1\ndone\nsubmit o\nsettle\nend\n"),
    ("two_steps", "Queries", "a query over three modules: two reducer steps, and then its rows", THREE_RELATIONS,
     "".join("row r %d %d\n" % (k, k) for k in (1, 2, 3, 4)) + "row s 1 1\nrow s 2 2\nrow t 1 0\n"
     "txn g T1\nquery 1.id 2.id 3.id from r s t where 1.a = 2.id and 2.b = 3.id\ndone\nsubmit g\nsettle\nend\n"),
    ("reads_nothing", "Queries", "a query that no key can meet reads nothing, and commits at once", ONE_CLASS,
     "txn e T1\nquery 1.id from acct where 1.id < 1 and 1.id > 5\ndone\nsubmit e\nend\n"),
    ("not_rejected", "Fragments", "a later put of a fragment that isn't asked for doesn't reject", WRITER_OF_TWO,
     "txn x T1\nquery 1.val from item where 1.id <= 9\ndone\ntxn y T2\nput item 11 1\ndone\nsubmit x\nsubmit y\ndeliver T2 D1 1\n"
     "deliver T1 D1 1\ndeliver D1 T1 2\ndeliver T1 D1 2\ndeliver D1 T1 3\nend\n"),
    ("not_held", "Fragments", "a put of a fragment that isn't asked for isn't held", TWO_OF_TWO, WAITS_FOR_TWO % (" where 1.id <= 9", 11)),
    ("second_class_list", "Classes", "a further class list is put in force", ONE_CLASS,
     PUT + "txn u T1\nquery 1.id from acct\ndone\nlist\nclass audit T1\nreads all D1\ndone\nsubmit p\nredeclare\nsubmit u\nsettle\nend\n"),
    ("down_and_up", "Downs", "a data module is down while a put comes, and applies it once it is up", ONE_CLASS, HELD_FOR_DOWN + "up D1\nend\n"),
    ("stays_down", "Downs", "while it is down it applies nothing", ONE_CLASS, HELD_FOR_DOWN + "end\n"),
    ("different_rows", "Apart", "data modules are made of different rows: each reply is of the copies that were read", TWO_READERS,
     "txn x T1\nquery 1.val from item\ndone\ntxn y T2\nquery 1.val from item\ndone\nsubmit x\nsettle\nsubmit y\nsettle\nend\n",
     ("row item 1 5\n", "", "row item 1 6\n")),
    ("down_twice", "Downs", "an `up` where it is up and a `down` where it is down find nothing to do", ONE_CLASS, "up D1\ndown D1\ndown D1\nend\n"),
    ("begun_once_up", "HomesDown", "a transaction module is down while a HOLD comes and a transaction is submitted: once it is up it begins that one, "
     "and then takes the HOLD", ONE_OF_TWO, "txn y T1\nput item 1 5\ndone\ntxn u T2\nquery 1.val from item\ndone\ndown T1\nsubmit u\n"
     "deliver U T1 1\ntick T1 2\nsubmit y\nup T1\nend\n"),
    ("rows_kept", "HomesDown", "a transaction module is down while the rows of its attempt come: it commits once it is up, and begins the next one", ONE_CLASS,
     "txn q T1\nquery 1.id from acct\ndone\n" + PUT + "submit q\ndeliver T1 D1 1\ndeliver D1 T1 2\ndeliver T1 D1 2\ndown T1\ndeliver D1 T1 3\n"
     "submit p\nup T1\nend\n"),
    ("home_stays_down", "HomesDown", "while it is down it begins nothing; a second `down`, and an `up` where it is up, find nothing to do", ONE_CLASS,
     PUT + "up T1\ndown T1\ndown T1\nsubmit p\ntick T1 1\nend\n"),
    ("rejected_by_two", "Rejections", "a query comes after two later puts of each of two classes: the Reject names the greatest put of the lowest class",
     TWO_WRITERS, "txn x T1\nquery 1.val from item\ndone\n"
     + "".join("txn %s %s\nput item %d 5\ndone\n" % t for t in (("y1", "T2", 1), ("y2", "T2", 2), ("z1", "T3", 3), ("z2", "T3", 4)))
     + "submit x\nsubmit y1\nsubmit y2\nsubmit z1\nsubmit z2\ndeliver T2 D1 1\ndeliver T2 D1 1\ndeliver T3 D1 1\ndeliver T3 D1 1\n"
     "deliver T1 D1 1\ndeliver D1 T1 2\nend\n"),
    ("passed_by_a_read", "Passed", "a class has passed a time by a query that was answered: the Wait lists the other class alone", READS_ANOTHER,
     "txn r T2\nquery 1.val from item where 1.id >= 10\ndone\ntxn x T1\nquery 1.val from item where 1.id <= 9\ndone\nsubmit r\n"
     "deliver T2 D1 1\nsubmit x\ndeliver T1 D1 1\ndeliver D1 T3 1\ndeliver T3 D1 2\nend\n"),
    ("asks_two", "Passed", "a query that waits for two classes asks both", TWO_WRITERS,
     "txn x T1\nquery 1.val from item\ndone\nsubmit x\ndeliver T1 D1 1\ndeliver D1 T2 1\ndeliver T2 D1 2\ndeliver D1 T3 1\ndeliver T3 D1 2\nend\n"),
    ("asked_while_active", "Passed", "a class that is asked for an earlier time than its attempt's answers with the attempt's", EACH_READS_THE_OTHER,
     "txn x T1\nquery 1.val from item where 1.id <= 9\ndone\ntxn y T2\nquery 1.val from item where 1.id >= 10\ndone\nsubmit x\nsubmit y\n"
     "deliver T1 D1 1\ndeliver D1 T2 1\ndeliver T2 D1 1\ndeliver D1 T1 2\ndeliver T1 D1 2\ndeliver D1 T1 2\ndeliver D1 T1 3\n"
     "deliver T1 D1 4\ndeliver T2 D1 2\nend\n"),
    ("null_before_start", "Nulls", "a class that is asked while its attempt runs answers before its next attempt starts", EACH_READS_THE_OTHER,
     "txn x T1\nquery 1.val from item where 1.id <= 9\nput item 11 1\ndone\ntxn y T2\nquery 1.val from item where 1.id >= 10\ndone\n"
     "txn x2 T1\nput item 12 1\ndone\nsubmit x\nsubmit x2\nsubmit y\ndeliver T2 D1 1\ndeliver D1 T1 1\ndeliver T1 D1 1\n"
     "deliver D1 T1 2\ndeliver T1 D1 2\ndeliver D1 T1 3\nsettle\nend\n"),
    ("from_two_senders", "Hands", "a data module that is up again is handed the messages of the lower site first", TWO_COPIES,
     "txn y T1\nput item 1 5\ndone\ntxn z T2\nput item 1 6\ndone\nsubmit y\nsubmit z\ndown D1\ndeliver T2 D1 1\ndeliver T1 D1 1\nup D1\nend\n"),
    ("two_at_once", "Hands", "two puts come at once: the first is applied before the second is handed over; an acknowledgement carries the greatest "
     "number up to which all came", TWO_OF_ONE,
     "txn p T1\nput item 1 5\ndone\ntxn q T1\nput item 11 6\ndone\nsubmit p\nsubmit q\ndeliver T1 D1 2\ndeliver D1 T1 1\nlose T1 D1 1\n"
     "resend T1 D1\ndeliver T1 D1 1\ndeliver D1 T1 1\nresend T1 D1\nend\n"),
    ("deleted_and_put", "Dates", "a delete comes to a copy before the earlier put of the row, which stays deleted", DELETES_AND_PUTS,
     "txn y T2\nput item 1 5\ndone\ntxn d T1\ndelete item where 1.id = 1\ndone\ntxn x T3\nquery 1.val from item\ndone\nsubmit y\n"
     "deliver T2 D1 1\ntick T1 2\ndown D2\nsubmit d\nsettle\nup D2\ntick T3 9\nsubmit x\nsettle\nend\n"),
    ("reduced_at_two", "Reduced", "a reducer step to two data modules counts its values twice", TWO_PARTS,
     "row r 1 2\n" + "".join("row s %d 0\n" % k for k in (1, 2, 10))
     + "txn g T1\nquery 1.id 2.a from r s where 1.a = 2.id\ndone\nsubmit g\nsettle\nend\n"),
    ("released", "Released", "an undeclared update waits until a query is committed that was under way, and lets go of the transaction module "
     "once both data modules are done, where a put waits", WRITER_AND_ITS_READER,
     "txn u T1\nupdate item set 1.val += 1\ndone\ntxn x T1\nquery 1.val from item\ndone\ntxn y T1\nput item 1 5\ndone\nsubmit x\nsubmit u\n"
     "deliver U T1 1\ndeliver T1 U 2\ndeliver T1 D1 1\ndeliver D1 T1 2\ndeliver T1 D1 2\ndeliver D1 T1 3\ndeliver T1 U 2\nsubmit y\n"
     "deliver U D1 1\ndeliver D1 T1 3\ndeliver T1 D1 4\ndeliver D1 T1 3\ndeliver T1 D1 5\ndeliver U D2 1\ndeliver D2 T1 1\n"
     "deliver D2 T1 1\ndeliver T1 D2 2\ndeliver T1 D2 3\ndeliver D1 U 2\ndeliver D2 U 2\ndeliver U D1 2\ndeliver U D2 2\ndeliver D1 U 3\n"
     "deliver D2 U 3\ndeliver U D1 3\ndeliver U D2 3\ndeliver D1 U 4\ndeliver U T1 2\ndeliver D2 U 4\ndeliver U T1 2\nend\n"),
    ("two_undeclared", "TwoUndeclared", "two undeclared queries, one after the other, and then a put", WRITER_OF_COPIES,
     "txn u T1\nquery 1.val from item\ndone\ntxn v T1\nquery 1.id from item\ndone\ntxn y T1\nput item 1 5\ndone\nsubmit u\nsubmit v\n"
     "settle\nsubmit y\nend\n"),
    ("released_without_classes", "NoClasses", "a module that runs no class is let go: its clock goes on from the timestamp, as the next HELD shows", ONE_OF_TWO,
     "txn u T1\nquery 1.val from item\ndone\ntxn v T1\nquery 1.id from item\ndone\ntick T1 9\nsubmit u\nsettle\ntick T2 1\nsubmit v\n"
     "deliver U T1 1\ndeliver U T2 1\ndeliver T1 U 2\ndeliver T2 U 2\nend\n"),
    ("conditions_of_a_list", "Lists", "a query asks the classes of the list that is in force, from its greatest clock on", ONE_OF_THREE,
     "txn u T1\nquery 1.val from item\ndone\ntxn x T1\nquery 1.id from item\ndone\nlist\nclass rd T1\nreads a D1\nclass j T2\nwrites a\n"
     "class k T3\nwrites a\ndone\ntick T2 5\nredeclare\nsubmit x\ndeliver T1 D1 1\nend\n"),
    ("undeclared_before_a_list", "Lists", "an undeclared query waits for the classes of all lists", ONE_WRITER,
     "txn u T1\nquery 1.val from item\ndone\nlist\nclass rd T1\nreads a D1\ndone\nsubmit u\ndeliver U T1 1\ndeliver T1 U 2\ndeliver U D1 1\nend\n"),
]

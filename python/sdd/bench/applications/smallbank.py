"""SmallBank: customers with a savings and a checking account, and six kinds of transactions.

Customers below 1,000 are of the northern branch, whose tellers work at T1, the others of the southern, T2.
Every tenth payment or amalgamation is between the branches.
"""
from sdd.bench.applications.base import Catalogue, Workload, add, look
from sdd.bench.drawing import Random

CUT, CUSTOMERS = 1000, 10     # where the south begins, and how many customers a branch has
MIX = [(15, "balance"), (15, "deposit"), (15, "savings"), (15, "amalgamate"), (25, "payment"), (15, "check")]


def tables(catalogue):
    catalogue.relation("account", "id name$")
    catalogue.relation("savings", "id bal")
    catalogue.relation("checking", "id bal")


def cut_tables(catalogue):
    """Each branch has its fragments at its data module."""
    tables(catalogue)
    catalogue.fragment("names", "account", [1, 2])
    catalogue.halves("savings", CUT, ("savings_n", [1]), ("savings_s", [2]))
    catalogue.halves("checking", CUT, ("checking_n", [1]), ("checking_s", [2]))


def first():
    """A class for each kind of transaction at each branch, a fragment for each relation."""
    made = Catalogue(2, 2)
    tables(made)
    made.fragment("names", "account", [1, 2])
    made.fragment("savings", "savings", [1])
    made.fragment("checking", "checking", [2])
    for tm, branch in ((1, "n"), (2, "s")):
        made.add_class("balance_" + branch, tm, "names savings checking")
        made.add_class("deposit_" + branch, tm, "checking", "checking")
        made.add_class("savings_" + branch, tm, "savings", "savings")
        made.add_class("check_" + branch, tm, "savings checking", "checking")
        made.add_class("move_" + branch, tm, "savings checking", "savings checking", "amalgamations and payments")
    return made


def tellers():
    """As `first`; at each branch one class for all that changes something."""
    made = Catalogue(2, 2)
    tables(made)
    made.fragment("names", "account", [1, 2])
    made.fragment("savings", "savings", [1])
    made.fragment("checking", "checking", [2])
    for tm, branch in ((1, "n"), (2, "s")):
        made.add_class("balance_" + branch, tm, "names savings checking")
        made.add_class("teller_" + branch, tm, "savings checking", "savings checking")
    return made


def branches():
    """Each branch has its fragments at its data module, and a class for all that its tellers change."""
    made = Catalogue(3, 2)
    cut_tables(made)
    add_tellers(made)
    whole = "savings_n checking_n savings_s checking_s"
    made.add_class("between", 3, whole, whole, "payments and amalgamations between the branches")
    return made


def together():
    """As `branches`; all that changes something is one class, at T1."""
    made = Catalogue(2, 2)
    cut_tables(made)
    for tm, branch in ((1, "n"), (2, "s")):
        made.add_class("balance_" + branch, tm, "names@%d savings_%s checking_%s" % (tm, branch, branch))
    whole = "savings_n checking_n savings_s checking_s"
    made.add_class("teller", 1, whole, whole)
    return made


def steps():
    """As `branches`; what goes between the branches is done in two steps, each by the tellers of one branch."""
    made = Catalogue(2, 2)
    cut_tables(made)
    add_tellers(made)
    return made


def add_tellers(made):
    for tm, branch in ((1, "n"), (2, "s")):
        both = "savings_%s checking_%s" % (branch, branch)
        made.add_class("balance_" + branch, tm, "names@%d %s" % (tm, both))
        made.add_class("teller_" + branch, tm, both, both)


def apart(modules=2, copies=((1,), (2,))):
    """As `steps`; and both accounts of a customer are columns of one row."""
    made = Catalogue(modules, 2)
    made.relation("account", "id name$")
    made.relation("balance", "id savings checking")
    made.fragment("names", "account", [1, 2])
    made.halves("balance", CUT, ("north", list(copies[0])), ("south", list(copies[1])))
    for tm, branch, fragment in ((1, "n", "north"), (2, "s", "south")):
        here = "%s@%d" % (fragment, tm)
        made.add_class("balance_" + branch, tm, "names@%d %s" % (tm, here))
        made.add_class("teller_" + branch, tm, here, fragment)
    return made


def audit():
    """As `apart`; and every twentieth transaction is an audit of all balances at T3, for which there is no class."""
    return apart(3)


def audit_class():
    """As `audit`, with a class for it."""
    made = apart(3)
    made.add_class("audit", 3, "north south")
    return made


def audit_copy():
    """As `audit_class`; D1 has a copy of the south, so that an audit reads at one module."""
    made = apart(3, ((1,), (1, 2)))
    made.add_class("audit", 3, "north@1 south@1")
    return made


DESIGNS = {"first": first, "tellers": tellers, "branches": branches, "together": together, "steps": steps, "apart": apart,
           "audit": audit, "audit_class": audit_class, "audit_copy": audit_copy}
USUAL = "apart"


class Accounts:
    """The statements on accounts, in two relations or in one."""

    def __init__(self, joined):
        self.joined = joined

    def add(self, account, number, customer):
        return add("balance", account, number, customer) if self.joined else add(account, "bal", number, customer)

    def take_both(self, number, customer):
        """Takes as much from both accounts. One row is changed by one statement: each sees the rows from before the transaction."""
        if self.joined:
            return ["update balance set 1.savings += %d 1.checking += %d where 1.id = %d" % (-number, -number, customer)]
        return [add("savings", "bal", -number, customer), add("checking", "bal", -number, customer)]

    def look(self, customer):
        if self.joined:
            return [look("balance", "savings checking", customer)]
        return [look("savings", "bal", customer), look("checking", "bal", customer)]


def home(customer):
    return 1 if customer < CUT else 2


def steps_of(kind, accounts, a, b, amount):
    """The statements of a transaction on customer A, and on customer B where there are two."""
    if kind == "balance":
        return [look("account", "name", a)] + accounts.look(a), []
    if kind == "deposit":
        return [accounts.add("checking", amount, a)], []
    if kind == "savings":
        return [accounts.add("savings", amount, a)], []
    if kind == "check":
        return accounts.look(a) + [accounts.add("checking", -amount, a)], []
    if kind == "payment":
        return [accounts.add("checking", -amount, a)], [accounts.add("checking", amount, b)]
    return accounts.take_both(amount, a), [accounts.add("checking", 2 * amount, b)]


def make(n, seed, design):
    catalogue, random = DESIGNS[design](), Random(seed)
    accounts, work = Accounts(design.startswith(("apart", "audit"))), Workload(catalogue, seed)
    customers = [k for low in (1, CUT) for k in range(low, low + CUSTOMERS)]
    for k in customers:
        work.row("account", k, "c%d" % k)
        if accounts.joined:
            work.row("balance", k, 1000, 500)
    for relation, sum_ in () if accounts.joined else (("savings", 1000), ("checking", 500)):
        for k in customers:
            work.row(relation, k, sum_)
    for number in range(n):
        if design.startswith("audit") and number % 20 == 10:
            work.transaction("audit", 3, ["query 1.id 1.savings 1.checking from balance"])
        kind, a, step, amount = random.weighted(MIX), random.choice(customers), random.draw(CUSTOMERS - 1), 1 + random.draw(50)
        base = 1 if a < CUT else CUT
        b = base + (a - base + 1 + step) % CUSTOMERS
        if random.draw(10) == 0:
            b = CUT + step if a < CUT else 1 + step
        mine, other = steps_of(kind, accounts, a, b, amount)
        place(work, design, kind, (a, mine), (b, other))
    return catalogue.lines, work.lines()


def place(work, design, kind, mine, other):
    """A transaction goes to the branch of its customers; one of both branches to T3, or in two steps."""
    (a, first_steps), (b, more) = mine, other
    if design == "together":
        work.transaction(kind, home(a) if kind == "balance" else 1, first_steps + more)
        return
    if not more or home(a) == home(b) or design in ("first", "tellers"):
        work.transaction(kind, home(a), first_steps + more)
    elif design != "branches":
        work.transaction(kind, home(a), first_steps)
        work.transaction("credit", home(b), more)
    else:
        work.transaction(kind, 3, first_steps + more)

"""The five transactions of TPC-C, small: two warehouses with two districts each, five customers a district, ten items.

Keys: district = warehouse * 100 + number, customer = district * 1000 + number, stock = warehouse * 1000 + item,
order = district * 10000 + number, order line = order * 10 + number. The client counts the orders of a district. A delivery takes
the oldest open order that it can see: of those that were there before, since no client knows which others are there by then.
"""
from sdd.bench.applications.base import Catalogue, Workload, add, look, put
from sdd.bench.drawing import Random

WAREHOUSES, DISTRICTS, CUSTOMERS, ITEMS, LINES = 2, 2, 5, 10, 3
LEAST_ORDERS, FOR_EACH_ORDER = 3, 20    # a district begins with an open order for each so many transactions, more than are delivered
MIX = [(45, "neworder"), (43, "payment"), (4, "status"), (4, "delivery"), (4, "level")]
PARTED = {                  # of each relation that is cut by warehouse the first key of the second one
    "warehouse": 2, "district": 200, "customer": 200000, "history": 1000000, "stock": 2000, "orders": 2000000, "neworder": 2000000,
    "orderline": 20000000, "taking": 200, "balance": 200000, "credit": 2000000,
}
COLUMNS = {
    "warehouse": "id tax ytd", "district": "id next ytd", "customer": "id name$ bal paid", "history": "id customer amount",
    "item": "id price", "stock": "id qty ytd", "orders": "id customer carrier", "neworder": "id lines",
    "orderline": "id stock qty amount delivered",
}
BY_OWNER = dict(COLUMNS, warehouse="id tax", district="id next", customer="id name$", taking="id ytd", balance="id bal paid",
                credit="id customer amount")


def tables(made, columns, whole=()):
    """Each relation but the whole ones and the items is cut by warehouse."""
    for name, shown in columns.items():
        made.relation(name, shown)
    made.fragment("items", "item", list(range(1, WAREHOUSES + 1)))
    for name in columns:
        if name in whole:
            made.fragment(name + "s", name, [1])
        elif name in PARTED:
            made.halves(name, PARTED[name], (name + "_1", [1]), (name + "_2", [2]))


def of(w, names):
    """The fragments of a warehouse."""
    return " ".join("%s_%d" % (x, w) for x in names.split())


def first():
    """A class for each kind of transaction at each warehouse."""
    made = Catalogue(2, 2)
    tables(made, COLUMNS)
    for w in (1, 2):
        stock = "stock_1 stock_2"
        made.add_class("neworder_%d" % w, w, "items@%d %s %s" % (w, of(w, "warehouse district customer"), stock),
                       "%s %s" % (of(w, "district orders neworder orderline"), stock))
        changed = of(w, "warehouse district") + " customer_1 customer_2"
        made.add_class("payment_%d" % w, w, changed, changed + " history_%d" % w)
        made.add_class("status_%d" % w, w, of(w, "customer orders orderline"))
        changed = of(w, "neworder orders orderline customer")
        made.add_class("delivery_%d" % w, w, changed, changed)
        made.add_class("level_%d" % w, w, of(w, "district orderline stock"))
    return made


LOCAL = "warehouse district customer stock orders neworder orderline"


def writers():
    """A class for all that changes one warehouse, and one at T3 for what concerns both."""
    made = Catalogue(3, 2)
    tables(made, COLUMNS)
    for w in (1, 2):
        made.add_class("status_%d" % w, w, of(w, "customer orders orderline"))
        made.add_class("level_%d" % w, w, of(w, "district orderline stock"))
        made.add_class("work_%d" % w, w, "items@%d %s" % (w, of(w, LOCAL)), of(w, LOCAL + " history"))
    both = of(1, LOCAL) + " " + of(2, LOCAL)
    made.add_class("remote", 3, "items " + both, both + " history_1 history_2")
    return made


ORDERING = "district stock orders neworder orderline"


def by_owner(modules, readers):
    """What payments change are other relations than what orders change; each has one class."""
    made = Catalogue(modules, 2)
    tables(made, BY_OWNER)
    both = lambda names: of(1, names) + " " + of(2, names)  # noqa: E731
    for w in (1, 2):
        made.add_class("status_%d" % w, readers, of(w, "customer orders orderline balance credit"))
        made.add_class("level_%d" % w, readers, of(w, "district orderline stock"))
    made.add_class("ordering", 1, "items " + both("warehouse customer " + ORDERING), both(ORDERING + " credit"))
    made.add_class("paying", 2, both("warehouse customer taking balance"), both("taking balance history"))
    return made


def owners():
    """Readers have a module of their own."""
    return by_owner(3, 3)


def beside():
    """As `owners`; readers are at the module of those who change what they read."""
    return by_owner(2, 1)


def queued():
    """As `owners`; who looks at orders is of the class that changes them, and balances are one fragment."""
    made = Catalogue(2, 2)
    tables(made, BY_OWNER, ["balance"])
    both = lambda names: of(1, names) + " " + of(2, names)  # noqa: E731
    made.add_class("ordering", 1, "items balances " + both("warehouse customer credit " + ORDERING), both(ORDERING + " credit"))
    made.add_class("paying", 2, "balances " + both("warehouse customer taking"), "balances " + both("taking history"))
    return made


DESIGNS = {"first": first, "writers": writers, "owners": owners, "queued": queued, "beside": beside}
USUAL = "beside"


class Shop:
    """Draws transactions, and knows what the clients know: the orders of each district."""

    def __init__(self, n, seed, design):
        self.first_orders = max(LEAST_ORDERS, n // FOR_EACH_ORDER)
        self.random, self.design, self.split = Random(seed), design, design in ("owners", "queued", "beside")
        self.catalogue = DESIGNS[design]()
        self.work = Workload(self.catalogue, seed)
        self.orders, self.open, self.payments = {}, {}, 0      # of each district all orders, and those before the run that are to be delivered

    def add_rows(self):
        rows = {name: [] for name in (BY_OWNER if self.split else COLUMNS)}
        rows["item"] = [(i, 5 + i) for i in range(1, ITEMS + 1)]
        for w in range(1, WAREHOUSES + 1):
            rows["warehouse"].append((w, 7) if self.split else (w, 7, 0))
            rows["stock"] += [(w * 1000 + i, 50 + i, 0) for i in range(1, ITEMS + 1)]
            for d in range(w * 100 + 1, w * 100 + DISTRICTS + 1):
                rows["district"].append((d, self.first_orders + 1) if self.split else (d, self.first_orders + 1, 0))
                if self.split:
                    rows["taking"].append((d, 0))
                self.add_customers(rows, d)
        for name, found in rows.items():
            for row in found:
                self.work.row(name, *row)

    def add_customers(self, rows, d):
        for c in range(d * 1000 + 1, d * 1000 + CUSTOMERS + 1):
            rows["customer"].append((c, "c%d" % c) if self.split else (c, "c%d" % c, -10, 10))
            if self.split:
                rows["balance"].append((c, -10, 10))
        self.orders[d], self.open[d] = [], []
        for n in range(1, self.first_orders + 1):
            order, customer, item = d * 10000 + n, d * 1000 + 1 + (n - 1) % CUSTOMERS, 1 + (n - 1) % ITEMS
            self.orders[d].append((order, customer, 30))
            self.open[d].append((order, customer, 30))
            rows["orders"].append((order, customer, 0))
            rows["neworder"].append((order, 1))
            rows["orderline"].append((order * 10 + 1, d // 100 * 1000 + item, 3, 30, 0))

    def district(self):
        return (1 + self.random.draw(WAREHOUSES)) * 100 + 1 + self.random.draw(DISTRICTS)

    def place(self, kind, home, remote):
        """The module to which a transaction is given."""
        if not self.split:
            return 3 if remote and self.design == "writers" else home
        if kind == "payment":
            return 2
        return 3 if self.design == "owners" and kind in ("status", "level") else 1

    def neworder(self):
        d = self.district()
        home, c = d // 100, d * 1000 + 1 + self.random.draw(CUSTOMERS)
        order, total, remote = d * 10000 + len(self.orders[d]) + 1, 0, False
        steps = [look("warehouse", "tax", home), look("district", "next", d), look("customer", "name", c), add("district", "next", 1, d)]
        for k in range(1, LINES + 1):
            item, qty = 1 + self.random.draw(ITEMS), 1 + self.random.draw(5)
            far = self.random.draw(100) < 3
            stock = (3 - home if far else home) * 1000 + item
            remote, total = remote or far, total + qty * (5 + item)
            steps += [look("item", "price", item), look("stock", "qty", stock),
                      "update stock set 1.qty += %d 1.ytd += %d where 1.id = %d" % (-qty, qty, stock),
                      put("orderline", order * 10 + k, stock, qty, qty * (5 + item), 0)]
        self.orders[d].append((order, c, total))
        return steps + [put("orders", order, c, 0), put("neworder", order, LINES)], home, remote

    def payment(self):
        d, far, amount = self.district(), self.random.draw(100) < 15, 1 + self.random.draw(50)
        home = d // 100
        where = (3 - home) * 100 + 1 + self.random.draw(DISTRICTS) if far else d
        c = where * 1000 + 1 + self.random.draw(CUSTOMERS)
        self.payments += 1
        history = put("history", home * 500000 + self.payments, c, amount)
        if self.split:
            return [look("warehouse", "tax", home), look("customer", "name", c), add("taking", "ytd", amount, d),
                    "update balance set 1.bal += %d 1.paid += %d where 1.id = %d" % (-amount, amount, c), history], home, far
        return [add("warehouse", "ytd", amount, home), add("district", "ytd", amount, d),
                "update customer set 1.bal += %d 1.paid += %d where 1.id = %d" % (-amount, amount, c), history], home, far

    def status(self):
        d = self.district()
        order, c, _ = self.random.choice(self.orders[d])
        steps = [look("customer", "name" if self.split else "name bal", c)]
        if self.split:
            steps += [look("balance", "bal", c), "query 1.amount from credit where 1.id >= %d and 1.id <= %d and 1.customer = %d" % (
                d * 10000, d * 10000 + 9999, c)]
        return steps + [look("orders", "id carrier", order), "query 1.stock 1.qty 1.amount 1.delivered from orderline where 1.id >= %d and 1.id <= %d" % (
            order * 10, order * 10 + 9)], d // 100, False

    def delivery(self):
        """Of each district of a warehouse the oldest order that was there before and isn't delivered."""
        home, carrier, steps = 1 + self.random.draw(WAREHOUSES), 1 + self.random.draw(9), []
        for d in range(home * 100 + 1, home * 100 + DISTRICTS + 1):
            if self.open[d]:
                order, c, total = self.open[d].pop(0)
                steps += ["delete neworder where 1.id = %d" % order, "update orders set 1.carrier = %d where 1.id = %d" % (carrier, order),
                          "update orderline set 1.delivered = 1 where 1.id >= %d and 1.id <= %d" % (order * 10, order * 10 + 9),
                          put("credit", order, c, total) if self.split else add("customer", "bal", total, c)]
        return steps, home, False

    def level(self):
        """The stock of the last orders' items that is below a level."""
        d = self.district()
        home, last = d // 100, d * 10000 + len(self.orders[d])
        return [look("district", "next", d),
                "query 2.id 2.qty from orderline stock where 1.id >= %d and 1.id <= %d and 1.stock = 2.id and 2.id >= %d and 2.id <= %d and 2.qty < 50" % (
                    (last - 3) * 10, last * 10 + 9, home * 1000, home * 1000 + 999)], home, False


def make(n, seed, design):
    shop = Shop(n, seed, design)
    shop.add_rows()
    for _ in range(n):
        kind = shop.random.weighted(MIX)
        steps, home, remote = getattr(shop, kind)()
        shop.work.transaction(kind, shop.place(kind, home, remote), steps)
    return shop.catalogue.lines, shop.work.lines()

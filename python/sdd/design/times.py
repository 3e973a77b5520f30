"""How far apart sites are, how long each handles a message, and how often transactions come, in milliseconds.

    asked = read_times(path, near=[..], link=20)        # a Distances: of a file, and of words that go before it
    times = asked.for_catalogue(cat)                    # a Times: by the numbers of sites, for runs (timed.py)

The file is TOML, and each part of it may be left out:

    link = 20                   # between two sites of which nothing below speaks
    jitter = 10                 # each message takes up to so many percent more
    loss = 0                    # of 100 packets so many are lost
    resend = 200                # what isn't acknowledged after so long is sent again
    [places]
    north = ["T1", "D1"]        # sites that stand together
    south = ["T2", "D2"]
    [distances]
    within = 0.2                # between two sites of one place
    north-south = 12            # between the sites of two places, both ways
    T1-D2 = 15                  # between two sites
    [service]
    D = 0.1                     # how long every data module handles each message, one after the other
    T1 = 0.05
    [arrivals]
    every = 10                  # between two submissions, on the average; or rate = 100, in a second
"""
import re
import tomllib
from typing import NamedTuple

from sdd.model.files import BadInput, text_of

LINK, JITTER, EVERY, WITHIN, LOSS = 20.0, 10.0, 10.0, 0.2, 0.0
RESEND = 200.0              # the least that TCP waits for, as Linux has it
SITE = re.compile(r"U|[TD]([1-9]|1[0-6])")
NAME = re.compile(r"[A-Za-z]\w*")
PARTS = {"link", "jitter", "loss", "resend", "places", "distances", "service", "arrivals"}
MOST = 1e6
MOST_LOSS = 50.0            # percent; with more a run takes for ever


class Times(NamedTuple):
    """By the numbers of sites: U is 0, then the transaction modules, then the data modules."""
    size: int
    base: list              # of a message from a to b, at a * size + b
    jitter: float           # percent
    service: list           # of each site; None where all are 0
    loss: float             # percent of the packets
    patience: list          # how long a to b waits for an acknowledgement, at a * size + b


class Distances(NamedTuple):
    link: float
    jitter: float
    places: dict            # site -> place
    within: float
    apart: dict             # frozenset of two places or of two sites -> milliseconds
    service: dict           # site, or T or D -> milliseconds
    every: float
    loss: float
    resend: float

    def between(self, a, b):
        here, there = self.places.get(a), self.places.get(b)
        if frozenset((a, b)) in self.apart:
            return self.apart[frozenset((a, b))]
        if here is not None and here == there:
            return self.within
        return self.apart.get(frozenset((here, there)), self.link) if here and there else self.link

    def for_catalogue(self, cat):
        sites = ["U"] + ["T%d" % (k + 1) for k in range(cat.tms)] + ["D%d" % (k + 1) for k in range(cat.dms)]
        service = [self.service.get(x, self.service.get(x[0], 0.0)) for x in sites]
        base = [self.between(a, b) for a in sites for b in sites]
        patience = [max(self.resend, 4 * x * (1 + self.jitter / 100)) for x in base]       # twice the way there and back
        return Times(len(sites), base, self.jitter, service if any(service) else None, self.loss, patience)

    def words(self):
        """What the times are, in one line."""
        pairs = {"%s" % "-".join(sorted(pair)): ms for pair, ms in self.apart.items()}
        near = ["within a place %g" % self.within] if self.places else []
        near += ["%s %g" % x for x in list(pairs.items())[:8]] + [".."] * (len(pairs) > 8)
        service = ["%s handles a message in %g" % x for x in self.service.items()]
        lost = ["%g%% of the packets are lost, and sent again after %g" % (self.loss, self.resend)] if self.loss else []
        return "; ".join(["a link takes %g ms" % self.link + "".join(", " + x for x in near), "up to %g%% more" % self.jitter,
                          *lost, *service, "a transaction each %g ms" % self.every])


def amount(value, where, least=0.0, most=MOST):
    try:
        number = float(value)
    except (TypeError, ValueError):
        raise BadInput("%s: %s is no number" % (where, value)) from None
    if not least <= number <= most or isinstance(value, bool):
        raise BadInput("%s: %s isn't between %g and %g" % (where, value, least, most))
    return number


def pair_of(word, where, places):
    """Two sites, or two places of the file, with a - between."""
    ends = word.split("-")
    known = [bool(SITE.fullmatch(x)) or x in places for x in ends]
    if len(ends) != 2 or not all(known):
        raise BadInput("%s: %s names no two sites (as T1-D2) nor two places of the file" % (where, word))
    return frozenset(ends)


def table(parts, name, path):
    found = parts.get(name, {})
    if not isinstance(found, dict):
        raise BadInput("%s: %s is no table" % (path, name))
    return found


def places_of(parts, path):
    """Site -> place."""
    made = {}
    for place, sites in table(parts, "places", path).items():
        if not NAME.fullmatch(place) or SITE.fullmatch(place) or place == "within" or not isinstance(sites, list):
            raise BadInput("%s: places: %s is no name with a list of sites" % (path, place))
        for site in sites:
            if not isinstance(site, str) or not SITE.fullmatch(site):
                raise BadInput("%s: places: %s: %s is no site; sites are U, T1 to T16, D1 to D16" % (path, place, site))
            if site in made:
                raise BadInput("%s: places: %s stands in %s and in %s" % (path, site, made[site], place))
            made[site] = place
    return made


def read_times(path=None, link=None, near=(), service=(), jitter=None, every=None, loss=None, resend=None):
    """The distances of a file, where there is one; words of the command line count before it."""
    where = path or "the words"
    try:
        parts = tomllib.loads(text_of(path)) if path else {}
    except tomllib.TOMLDecodeError as fault:
        raise BadInput("%s: not TOML: %s" % (path, fault)) from None
    unknown = set(parts) - PARTS
    if unknown:
        raise BadInput("%s: it has no part %s; the parts are %s" % (path, min(unknown), ", ".join(sorted(PARTS))))
    places = places_of(parts, path)
    distances = dict(table(parts, "distances", path))
    within = amount(distances.pop("within", WITHIN), "%s: within" % where)
    apart = {pair_of(x, "%s: distances" % path, set(places.values())): amount(ms, "%s: %s" % (path, x)) for x, ms in distances.items()}
    apart |= {pair_of(x, "--near", ()): amount(ms, "--near %s" % x) for x, ms in near}
    served = dict(table(parts, "service", path)) | dict(service)
    for site, ms in served.items():
        if site not in ("T", "D") and not SITE.fullmatch(site):
            raise BadInput("%s: service: %s is no site, nor T or D for all of these" % (where, site))
        served[site] = amount(ms, "%s: service of %s" % (where, site))
    first = lambda given, name, usual: parts.get(name, usual) if given is None else given  # noqa: E731
    return Distances(amount(first(link, "link", LINK), "link"), amount(first(jitter, "jitter", JITTER), "jitter"),
                     places, within, apart, served, every_of(table(parts, "arrivals", path), every, path),
                     amount(first(loss, "loss", LOSS), "loss", most=MOST_LOSS), amount(first(resend, "resend", RESEND), "resend", least=1.0))


def every_of(arrivals, every, path):
    """The milliseconds between two submissions."""
    unknown = set(arrivals) - {"every", "rate"}
    if unknown or len(arrivals) > 1:
        raise BadInput("%s: arrivals has `every` or `rate`, one of them" % path)
    if every is not None:
        return amount(every, "every")
    if "rate" in arrivals:
        return 1000 / amount(arrivals["rate"], "%s: rate" % path, least=0.001)
    return amount(arrivals.get("every", EVERY), "%s: every" % path)


def demand_sites(near, service, cats):
    """Refuses a site of the command line that none of the catalogues has; a file may have more sites than one design needs."""
    have = {"U"} | {"T%d" % (k + 1) for cat in cats for k in range(cat.tms)} | {"D%d" % (k + 1) for cat in cats for k in range(cat.dms)}
    named = [x for pair, _ in near for x in pair.split("-")] + [x for x, _ in service if x not in ("T", "D")]
    strange = sorted(set(named) - have)
    if strange:
        raise BadInput("the times speak of %s, which no catalogue has" % strange[0])


def near_of(word):
    """A word as T1-D1=0.2."""
    pair, sign, ms = word.partition("=")
    if not sign:
        raise ValueError
    return pair, ms


def service_of(word):
    """A word as D1=0.3."""
    return near_of(word)


def number_of(word):
    number = float(word)
    if not 0 <= number <= MOST:
        raise ValueError
    return number


near_of.__name__ = "pair of sites with its milliseconds, as T1-D1=0.2"      # what argparse calls it where it refuses a word
service_of.__name__ = "site with its milliseconds, as D1=0.3"
number_of.__name__ = "number"

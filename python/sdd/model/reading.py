"""Catalogues and workloads, read from files by their paths.

    cat = catalogue_at("examples/bridge/catalogue.toml")
    work = workload_at("examples/bridge/workload", cat)
"""
from sdd.model.catalogue import Catalogue, read_catalogue
from sdd.model.files import BadInput, bytes_of
from sdd.model.words import Fault
from sdd.model.workload import Workload, read_workload


class RefusedFile(BadInput):
    """A catalogue or a workload that breaks a rule: its fault, its path, and what was read there."""

    def __init__(self, path: str, data: bytes, fault: Fault) -> None:
        super().__init__("%s: %s" % (path, fault.line.partition(": ")[2]))
        self.path, self.data, self.fault = path, data, fault


def catalogue_at(path: str) -> Catalogue:
    data = bytes_of(path)
    try:
        return read_catalogue(data)
    except Fault as fault:
        raise RefusedFile(path, data, fault) from None


def workload_at(path: str, cat: Catalogue) -> Workload:
    data = bytes_of(path)
    try:
        return read_workload(cat, data)
    except Fault as fault:
        raise RefusedFile(path, data, fault) from None

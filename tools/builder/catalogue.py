"""The catalogue: every message of the program, section by section, as MESSAGES.md shows them."""

from . import catalogue_runs as runs
from . import catalogue_sysusers as sysusers
from . import catalogue_tmpfiles as tmpfiles
from .catalogue_form import Catalogue

CATALOGUE = Catalogue((
    runs.INPUT, runs.CONFIGURATION, runs.REFUSED, sysusers.ACCOUNTS, runs.REPORTS,
    tmpfiles.FIELDS, tmpfiles.TYPES, sysusers.FAULTS,
))

"""Tries what strangers can do to a server, one thing after another; see tests/peers."""

from tests.strangers.holders import holders
from tests.strangers.passers import garbage, half_closes, refused_and_not_closed, refused_bodies, resets
from tests.strangers.pauses import no_descriptors, stopped

holders()
resets()
half_closes()
garbage()
refused_bodies()
refused_and_not_closed()
no_descriptors()
stopped()

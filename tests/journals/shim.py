"""The shared object under which the system's calls on a journal fail: failing_calls.c."""

from tests.script import shared_object

SHIM = shared_object("tests/journals/failing_calls.c")

"""Kills sessions, and then compactions, over real journals; see tests/crashes."""

from tests.compactions.kills import kill_compactions
from tests.script import tell
from tests.sessions.kills import SEED, kill_sessions

tell(f"the seed is {SEED}")
kill_sessions()
kill_compactions()

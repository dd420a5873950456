"""Plays random courses and random campaigns beside the plain walk; see tests/courses."""

import os

from tests.plain.courses import play_courses
from tests.plain.reports import play_campaigns
from tests.script import WORDS, fail

COUNT, CASES = int(WORDS[0]), os.path.realpath(WORDS[1] or "crates/campaign_cases/out/campaign_cases")
if not os.access(CASES, os.X_OK):
    fail("campaign_cases isn't built (rt run in its folder builds it)")
play_courses(CASES, COUNT)
play_campaigns(COUNT)

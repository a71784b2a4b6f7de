"""What conformance/campaign is made of: numbered cases, random programs, emulators, tasks, and tables."""

import shlex
from typing import List


class CampaignFault(Exception):
    """Why a campaign, or an emulator, can't begin or go on, as a sentence."""


class Unusable(CampaignFault):
    """Why no case can be run on an emulator, which isn't about a case: a task ends at once."""


def words_of(command: str) -> List[str]:
    """The words of an emulator's command, as a shell cuts them."""
    try:
        words = shlex.split(command)
    except ValueError as fault:
        raise CampaignFault(f"{command} is no command: {fault}") from None
    if not words:
        raise CampaignFault(f"EMULATOR is {command!r}, and names nothing")
    return words

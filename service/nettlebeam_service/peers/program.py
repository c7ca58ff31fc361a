"""`nettlebeam-peer NAME [WORD ..]`: what the site NAME may ask here, through the socket, as the site's own account.

A forced command of ssh names the peer, and the words come in SSH_ORIGINAL_COMMAND. Nothing but `take`, `ship`,
`grant ID ..` and `script ID` is asked, and always for the peer that is named: a packet that it brings must be its own.
"""
from __future__ import annotations

import os
import sys

from ..common.ask import Unasked, ask, find_socket
from ..site.packets import LONGEST_PACKET

TYPE_CHECKING = False
if TYPE_CHECKING:
    from typing import List

def requests(peer: str, words: List[str]) -> List[List[str]]:
    """The words for the service, one request behind the other; none where the peer may not ask these."""
    if words == ["take"]:
        return [["take", peer]]
    if words == ["ship"]:
        return [["ship", peer]]
    if len(words) == 2 and words[0] == "script":
        return [["script", words[1], peer]]
    if len(words) >= 2 and words[0] == "grant":
        return [["grant", word, peer] for word in words[1:]]
    return []


def main(arguments: List[str]) -> int:
    """The program. A refusal is an answer, with status 0; a fault is none."""
    path = find_socket()
    if not arguments or path is None:
        print("usage: nettlebeam-peer NAME [WORD ..], with NETTLEBEAM_SOCKET where there are several sites", file=sys.stderr)
        return 2
    asked = requests(arguments[0], arguments[1:] or os.environ.get("SSH_ORIGINAL_COMMAND", "").split())
    if not asked:
        print("nettlebeam-peer: ask take, ship, grant ID .. or script ID", file=sys.stderr)
        return 2
    body = sys.stdin.buffer.read(LONGEST_PACKET + 1) if asked[0][0] == "take" else None
    for words in asked:
        try:
            told = ask(path, words, body=body)
        except Unasked as fault:
            print(f"nettlebeam-peer: {fault}", file=sys.stderr)
            return 3
        if told.words:
            print(f"nettlebeam-peer: {told.words}", file=sys.stderr)
        if told.status and not told.answer:
            return told.status
        sys.stdout.buffer.write(told.answer)
    sys.stdout.buffer.flush()
    return 0

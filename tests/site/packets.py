"""Scenes of texts of packets at a site by itself: each is read, or refused by the name of its fault."""
from __future__ import annotations

import json
from typing import Any, Sequence, Tuple

THREE = ["argonne:8", "lemont:4", "batavia:2", "fermi:1"]
ZEROS = "[0,0,0,0,0,0,0,0,0,0,0,0,0,0,0,0]"
EMPTY = '{"format":1,"jobs":[],"need":%s,"reached":%s,"reservations":[],"sender":0}' % (ZEROS, ZEROS)
REACHED = '"reached":[1,0,0,0,0,0,0,0,0,0,0,0,0,0,0,0]'
JOB = ('{"deleted":false,"grant":null,"holds":[],"id":[1,0],"limit":[3600,[1,0]],"name":["STDIN",[1,0]],"nodes":[1,[1,0]],'
       '"owner":["ann",[1,0]],"priority":[0,[1,0]],"progress":null,"sites":[[0,[1,0]],[1,[1,0]]],'
       '"touched":[1,0,0,0,0,0,0,0,0,0,0,0,0,0,0,0]}')
SITES = "[[0,9,[[1,3],[5,5]]]]"
RETIRED = ('{"format":3,"jobs":[],"need":%s,"reached":[9,0,0,0,0,0,0,0,0,0,0,0,0,0,0,0],"reservations":[],"retired":%s,"sender":0}'
           % (ZEROS, SITES))
UNREAD = "unread 1\n"
Case = Tuple[str, str]


def put(text: str, *pairs: str) -> str:
    """The text in which the first of each old part is the new one."""
    for old, new in zip(pairs[::2], pairs[1::2]):
        assert old in text, old
        text = text.replace(old, new, 1)
    return text


ONE_JOB = put(EMPTY, '"jobs":[]', f'"jobs":[{JOB}]', f'"reached":{ZEROS}', REACHED)
IN_TWO = put(ONE_JOB, '"format":1', '"format":2', '"deleted"', '"account":["",[1,0]],"deleted"')
RESERVED = put(EMPTY, '"reservations":[]', '"reservations":[{"id":[1,0],"window":[[0,50,60,8],[1,0]]}]', f'"reached":{ZEROS}', REACHED, '"format":1', '"format":2')
GRANT = 'null,"holds"'


def beside(two: str, sites: str) -> str:
    """The text of format 2, in format 3 with this retired, where 9 operations of site 0 are reached."""
    return put(two, '"format":2', '"format":3', '"reached":[1,', '"reached":[9,', '"sender"', f'"retired":{sites},"sender"')


def sent_by(sender: str) -> str:
    """The empty packet with this in place of its sender."""
    return put(EMPTY, '"sender":0', f'"sender":{sender}')


def apart(many: int) -> str:
    """A packet that tells of so many ranges of one counter each, none of which touches the next."""
    ranges = [[2 * place + 1, 2 * place + 1] for place in range(many)]
    return put(RETIRED, '"reached":[9,', '"reached":[3000,', SITES, json.dumps([[0, 3000, ranges]], separators=(",", ":")))


# Each text, and the canonical one that is told to another site.
READ: list[Case] = [
    (ONE_JOB, IN_TWO),
    (IN_TWO, IN_TWO),
    (IN_TWO.replace(",", ", "), IN_TWO),
    (put(ONE_JOB, GRANT, '[[1,0],1],"holds"'), put(IN_TWO, GRANT, '["open",1,[1,0],1],"holds"')),
    (put(IN_TWO, GRANT, '["returned",1,[1,0]],"holds"'), put(IN_TWO, GRANT, '["returned",1,[1,0]],"holds"')),
    (put(IN_TWO, "ann", "\\u0061nn"), IN_TWO),
    (RESERVED, RESERVED),
    (put(RESERVED, "[0,50,60,8]", "null"), put(RESERVED, "[0,50,60,8]", "null")),
    (RETIRED, RETIRED),
    (put(RETIRED, "[5,5]]]]", "[5,8]]],[3,1000000000,[[1,999999999]]]]", "[9,0,0,0,", "[9,0,0,1000000000,"),) * 2,
    (apart(1000),) * 2,
    (beside(IN_TWO, "[[0,9,[[2,3],[5,5]]]]"),) * 2,
    (beside(RESERVED, "[[0,9,[[2,3],[5,5]]]]"),) * 2,
    (put(beside(IN_TWO, "[[3,9,[[1,3]]]]"), '"reached":[9,0,0,0,', '"reached":[9,0,0,9,'),) * 2,
]
FAULTS: list[Case] = [
    (put(EMPTY, old, new), answer)
    for old, new, answer in (
        ('"format":1', '"format":7', "unread 2 7\n"), ('"format":1', '"format":3', "unread 2 3\n"), ('"format":1', '"format":4', "unread 2 4\n"), ('"format":1', '"format":-1', "unread 3 whole 0\n"),
        ('"sender":0', '"sender":0,"x":0', "unread 3 whole 0\n"), ('"sender":0', '"sender":16', "unread 4 sender 0\n"),
        ('"sender":0', '"sender":1.0', "unread 3 sender 0\n"), ('"sender":0', '"sender":0,"sender":16', "unread 4 sender 0\n"),
        ('"reached":[0,', '"reached":[', "unread 3 reached 0\n"), ('"reached":[0,0', '"reached":[0,-1', "unread 4 reached 1\n"),
        ('"need":[0', '"need":[1', "unread 4 need 0\n"), ('"jobs":[]', '"jobs":0', "unread 3 jobs 0\n"), ('"jobs":[]', '"jobs":[0]', "unread 3 jobs 0\n"),
        ('"reservations":[]', '"reservations":[0]', "unread 3 reservations 0\n"),
        ('"jobs":[]', f'"jobs":[{JOB},{JOB}]', "unread 4 jobs 0\n"),
    )
] + [
    (put(ONE_JOB, *pairs), answer)
    for pairs, answer in (
        (('"format":1', '"format":2'), "unread 3 jobs 0\n"), (('"touched":[1', '"touched":[0'), "unread 4 jobs 0\n"),
        ((f"[{JOB}]", f"[{JOB},{JOB}]"), "unread 4 jobs 1\n"),
        (('"nodes":[1,', '"nodes":[0,', '"jobs":[', '"jobs":[{},'), "unread 3 jobs 0\n"),
        (('"nodes":[1,', '"nodes":[0,', ']}],"need"', ']},{}],"need"'), "unread 4 jobs 0\n"),
        (('"nodes":[1,', '"nodes":[0,', '"deleted":false', '"deleted":0'), "unread 3 jobs 0\n"),
        (("ann", "\u00e4nn"), "unread 4 jobs 0\n"),
    )
] + [
    (put(IN_TWO, GRANT, '["open",0,[1,0],1],"holds"'), "unread 4 jobs 0\n"),
    (put(RESERVED, "[0,50,60,8]", "[0,60,60,8]"), "unread 4 reservations 0\n"), (put(RESERVED, "[0,50,60,8]", "[0,50,60]"), "unread 3 reservations 0\n"),
    (put(RESERVED, '"id":[1,0]', '"id":[2,0]'), "unread 4 reservations 0\n"), (put(RESERVED, "[1,0]]}", "[2,0]]}"), "unread 4 reservations 0\n"),
    (beside(IN_TWO, SITES), "unread 4 retired 0\n"), (beside(RESERVED, SITES), "unread 4 retired 0\n"), (apart(1001), "unread 4 retired 0\n"),
    (put(RETIRED, '"format":3', '"format":2'), "unread 3 whole 0\n"), (put(RETIRED, '"format":3', '"format":1'), "unread 3 whole 0\n"),
    (put(RETIRED, f'"retired":{SITES},', ""), "unread 2 3\n"), (put(RETIRED, '"format":3', '"format":4'), "unread 2 4\n"),
    # a megabyte of brackets, nesting beyond 127, and numbers beyond 64 bits, in no form and beyond all floats
    ((1 << 20) * "[", UNREAD), ((1 << 17) * '{"jobs":', UNREAD), (sent_by(126 * "[" + 126 * "]"), "unread 3 sender 0\n"), (sent_by(127 * "[" + 127 * "]"), UNREAD),
    (sent_by("18446744073709551615"), "unread 4 sender 0\n"), (sent_by("18446744073709551616"), "unread 3 sender 0\n"),
    (sent_by("-9223372036854775808"), "unread 4 sender 0\n"), (sent_by("-9223372036854775809"), "unread 3 sender 0\n"),
    (sent_by("-0"), "unread 3 sender 0\n"), (sent_by("1e0"), "unread 3 sender 0\n"), (sent_by("01"), UNREAD),
    (sent_by(300 * "9"), "unread 3 sender 0\n"), (sent_by(10_000 * "9"), UNREAD), (sent_by(f"0.{10_000 * '0'}1"), "unread 3 sender 0\n"),
]
# What is retired out of its range, and in no form.
OUT_OF_RANGE = (
    "[[0,9,[[1,3],[4,5]]]] [[0,9,[[1,3],[3,5]]]] [[0,9,[[5,5],[1,3]]]] [[0,9,[[3,1]]]] [[0,9,[]]] [[0,9,[[0,3]]]] [[0,9,[[1,3],[5,9]]]] "
    "[[0,9,[[10,10]]]] [[0,9,[[-1,3]]]] [[0,10,[[1,3]]]] [[0,0,[[1,3]]]] [[1,9,[[1,3]]]] [[16,9,[[1,3]]]] [] [[16,9,[[1,3]]],0]"
).split()
IN_NO_FORM = (
    '0 {} [0] [[0,9]] [[0,9,[[1,3]],0]] [[0,9,0]] [[0,9,[1,3]]] [[0,9,[[1]]]] [[0,9,[[1,3,5]]]] [[0,1.0,[[1,3]]]] [[0,9,[[1,"3"]]]] '
    "[[16,9,[[1]]]] [[0,9,[[0,3],[5]]]]"
).split()
FAULTS += [(put(RETIRED, SITES, it), "unread 4 retired 0\n") for it in OUT_OF_RANGE] + [(put(RETIRED, SITES, it), "unread 3 retired 0\n") for it in IN_NO_FORM]
FAULTS += [
    (put(RETIRED, SITES, "[[0,9,[[1,3]]],[0,9,[[5,5]]]]"), "unread 4 retired 1\n"),
    (put(RETIRED, SITES, "[[1,9,[[1,3]]],[0,9,[[5,5]]]]", "[9,0,", "[9,9,"), "unread 4 retired 1\n"),
    (put(RETIRED, SITES, "[[0,9,[[1,3]]],[1,9]]"), "unread 3 retired 1\n"),
]


def taken(sites: Any, name: str, lines: Sequence[bytes]) -> list[str]:
    """What a new lemont answers to these texts, taken one after another."""
    sites.run("init", name, "lemont", *THREE)
    status, output, _ = sites.run("serve", name, text=b"".join(b"take " + line + b"\n" for line in lines))
    return str(output).removesuffix("\n\n").split("\n\n") if status == 0 else [f"status {status}"]


def packets(tally: Any, sites: Any) -> None:
    """Worked packets in each format, and faults of each kind and at each place."""
    for number, (text, wanted) in enumerate(READ):
        name = f"read-{number}"
        sites.run("init", name, "lemont", *THREE)
        tally.same(f"{name} is taken", sites.at(name, ["take"], text.encode()), "taken\n")
        tally.same(f"{name} is told", sites.at(name, ["ship", "batavia"]), put(wanted, '"sender":0', '"sender":1') + "\n")
    told = taken(sites, "faults", [text.encode() for text, _ in FAULTS])
    for (text, answer), found in zip(FAULTS, told):
        tally.same(f"fault of {text[:300]}", f"{found}\n", answer)
    tally.same("the answers", len(told), len(FAULTS))


def changed_packets(tally: Any, sites: Any) -> None:
    """Each proper prefix of a packet is no JSON, and each byte that is changed is answered."""
    text = ONE_JOB.encode()
    prefixes = [EMPTY.encode()[:length] for length in range(len(EMPTY))] + [text[:length] for length in range(len(text))]
    # behind `take` there has to be a text
    tally.same("prefixes", set(taken(sites, "prefixes", [it for it in prefixes if it])), {UNREAD.strip()})
    texts = [text[:at] + bytes([byte]) + text[at + 1 :] for at in range(len(text)) for byte in b'"\\,:[]{}+-.019eEanx \x7f\xc3\xff' if byte != text[at]]
    tally.same("changed bytes", len(taken(sites, "changed", texts)), len(texts))


SCENES = {"packets": packets, "changed_packets": changed_packets}

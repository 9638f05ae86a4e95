"""Runs of `broker` and `serve-node` whose peers are stated: scenarios of `session_runs.py`, of each whose it is and its words.

`calls` says what nodes, or provers, send, and `brokers` what the brokers do to which a node connects, in hex; the one to which the words of
a peer's bytes and of its link belong is `peer`, where brokers count behind those who call. Provers of a `service` are honest.
"""
from typing import Dict, List, Sequence, Tuple

from common import FILE_ID, frame, sha256
from exchanges import TRIES, Block, Out, Want

# Whose run it is, and its words.
Row = Tuple[str, Dict[str, object]]

NODE = 3
SMALL = {"files": "1,1,10", "units": 100}
ADDER = {"circuit": "adder64.txt", "bits": "10", "units": 64}  # sessions of seven units
MOST_INPUTS = 2 * 4096 * 32 - 1  # of which a session takes 4,096 units with 64 correlations

SERVE_NODE = "serve-node here there x.verifier and.txt 1 --node 3 --sessions 1"


def hexed(scripts: Sequence[bytes]) -> str:
    return ",".join(script.hex() or "-" for script in scripts)


def row(end: str, given: Dict[str, object]) -> Row:
    return end, {name.replace("_", "-"): value for name, value in given.items()}


def run(words: str, **given: object) -> Row:
    return row("run", {"words": words.replace(" ", ","), **given})


def brokered(wants: Sequence[bytes], asks: int = 0, more: str = "", **given: object) -> Row:
    """A broker that these nodes call."""
    words = f"broker here x.verifier --asks {asks or len(wants)}{more}"
    return run(words, calls=hexed(wants), **{**SMALL, **given})


def noded(peers: int, brokers: Sequence[bytes], sessions: int = 0, **given: object) -> Row:
    """A node that so many provers call, with these brokers."""
    words = {"node": NODE, "sessions": sessions or peers or 1, "peers": peers, "brokers": hexed(brokers)}
    return row("service", {**words, "units": 64, **given})


def want(number: int = 1, count: int = 1, node: int = NODE) -> bytes:
    return Want(node, number, count).frame()


def block(number: int, start: int, count: int = 16, node: int = NODE) -> bytes:
    return Block(node, number, start, count).frame()


def out(number: int = 1, at: int = 0) -> bytes:
    return Out(NODE, number, at).frame()


FIRST = block(1, 0)

# ---- brokers


def answers() -> List[Row]:
    """Wants of one node and of several, again and anew, and the last units."""
    lists = [[want()], [want(), want(), want()], [want(count=count) for count in (3, 1, 16, 17, 4096)]]
    lists.append([want(number) for number in (1, 2, 1, 2**64 - 1, 0, 0)])
    lists.append([want(7, 1, node) for node in (0, 1023, 0, 5, 1023, 5)])
    lists.append([want(number, count) for number, count in ((1, 16), (2, 17), (3, 33), (4, 1), (3, 33))])
    lists.append([want(1, 96), want(2), want(1, 96), want(1, 1, 4), want(2, 4096)])
    lists.append([want(), want(2, 96), want(3), want()])
    lists.append([want(1, 4), want(1, 4), want(2, 4), want(1, 4), want(1, 5, 1), want(1, 5, 1)])
    rows = [brokered(wants, show="disk") for wants in lists]
    rows += [brokered([want(), want(2), want(3)], units=units, show="disk") for units in (1, 15, 16, 17, 32, 33)]
    based = [(40, 16), (40, 32), (40, 40), (48, 16), (64, 48)]
    rows += [brokered([want(), want(2)], units=units, ceilings=ceilings, show="disk") for units, ceilings in based]
    rows += [brokered([want(), want(2)], asks=5), brokered([want(), want(2), want(3)], asks=2), brokered([], asks=3), brokered([want()], asks=65536)]
    rows += [brokered([want(), want(), want(2)], more=" --follow"), brokered([want(), b"", b"\1", want(2, 96)], more=" --follow --timeout 1")]
    rows += [brokered([want(count=4096), want(2, 100), want(1, 4096)], units=4200, show="disk"), brokered([want(count=4096), want(2, 96)], units=4200)]
    rows.append(brokered([want(number, 1 + number % 40, number % 7) for number in range(1, 251)], units=9000, show="disk"))
    rows.append(brokered([want(number // 3, 16, number % 3) for number in range(160)], units=4800, show="disk"))
    full = {"ceilings": 65536, "units": 65600, "show": "disk"}
    rows += [brokered([want(), want(), want(2)], **full), brokered([want(), want(2)], **full, heads="1,2")]
    return rows + [brokered([want(), want(), want(2), want(3)], **full, disk_fails=8205)]


def bad_wants() -> List[Row]:
    """Nodes that end, change a byte, send another frame or more bytes."""
    wrong = [want(node=node) for node in (1023, 1024, 65536, 2**24, 2**32 - 1)]
    wrong += [want(count=count) for count in (0, 4096, 4097, 65536, 65537, 2**24 + 1, 2**32 - 1)]
    wrong += [FIRST, out(), frame(1, bytes(97)), want() + b"\0", want() + want(2)]
    rows = [brokered([data, want(9)]) for data in wrong] + [brokered(wrong, show="disk")]
    rows += [brokered([want()], cut="0..22"), brokered([want(), want()], peer=1, cut="0..21", pieces=1)]
    rows += [brokered([want()], change=f"0..21:{mask}") for mask in (1, 8, 16, 128)]
    return rows + [brokered([want(count=4096)], change="5..21:1", units=4200), brokered([want()], pieces=2, change="0..21:4")]


def refused_links() -> List[Row]:
    """Links whose calls fail or find no memory: a block whose send was refused is kept for its node, and an exchange more shows it."""
    wants = [want(), want(), want(2), want(2)]
    rows = []
    for peer in range(3):
        rows += [brokered(wants, peer=peer, fail="1..4", show="disk"), brokered(wants, peer=peer, lack="1..4", show="disk")]
    rows += [brokered([want(), want(1, 1, 4), want()], fail="1..3"), brokered([want(), want(2, 97), want(2)], peer=1, fail="1..4")]
    rows += [brokered([want(), want(2), want()], peer=1, lack="2..3"), brokered([want(), want(2)], pieces=7, fail="1..6")]
    return rows + [brokered([want(), want(2)], pieces=7, lack="1..6")]


def failing_brokers() -> List[Row]:
    """Runs in which a call of the disk, the door, the shelf or the output fails or finds no memory, and crashes."""
    wants = [want(), want(), want(2), want(2)]
    rows = [brokered(wants, disk_fails=number, show="disk") for number in range(1, 19)]
    for how in ("fails", "lacks"):
        rows += [brokered(wants[:2], asks=3, **{f"door_{how}": number}) for number in range(1, 6)]
        rows += [brokered(wants, **{f"{name}_{how}": number}) for name, number in (("shelf", 1), ("shelf", 2), ("sink", 1), ("sink", 2))]
        rows += [brokered(wants, **{f"sink_{how}": 1}, show="disk") for wants in ([want(1, 101)], [b"\1"])]
        rows.append(brokered([want()], shelf_fails=1, **{f"sink_{how}": 1}))
    rows += [brokered([*wants, b"\1", want(3, 97)], disk_fails=number) for number in (9, 13)]
    rows += [brokered([want(), want(2, 97)], door_fails=4), brokered([want(), b""], peer=0, fail="2..3", door_fails=4)]
    rows += [brokered([want(), want(2)], peer=1, lack="1..3", disk_fails=9), brokered([want(), want(2, 97)], peer=0, fail="2..3")]
    for number in range(9, 14):
        rows += [brokered(wants[1:], disk_fails=number, crash=left, show="disk") for left in ("old", "new", "90")]
    return rows + [brokered([want()], crash="old", show="disk"), brokered([want(), want(2)], ceilings=16, crash="new", show="disk")]


BROKER = "broker here x.verifier --asks 1"


def stopped_brokers() -> List[Row]:
    """Brokers that do not start, and words that ask for none."""
    rows = [run(f"broker here {file} --asks 1") for file in ("x.prover", "and.txt", "missing")]
    rows += [run(BROKER, **SMALL, damage=damage) for damage in ("0:0", "8:2", "9:3", "24:0", "40:1", "136:255")]
    rows += [run(BROKER, areas="one"), run(BROKER, areas="moved", calls=hexed([want()]), units=16, show="disk")]
    rows += [run(BROKER, heads=heads) for heads in ("0,0", "1,2")] + [run(BROKER, journal_size=size) for size in (0, 64, 191)]
    rows += [run(BROKER, journal_set=place) for place in ("8:2", "16:2", "24:2", "32:0", "95:0")]
    words = ["broker", "broker here", "broker here x.verifier", "broker here x.verifier --asks", "broker here x.verifier more --asks 1"]
    words += [f"broker here x.verifier --asks {asks}" for asks in ("0", "65537", "x", "-1", "4294967297", "18446744073709551617")]
    more = ["--asks 1", "--timeout 0", "--timeout 86401", "--timeout", "--sessions 1", "--workers 1", "--node 3", "--follow --follow", "--follow 1"]
    words += [f"{BROKER} {each}" for each in more]
    words += ["brokers here x.verifier --asks 1", "broker -here x.verifier --asks 1", "broker here x.verifier 1"]
    same = ["broker --asks 1 here x.verifier", "broker here --asks=0001 x.verifier", "broker --asks 1 -- here x.verifier"]
    same.append("broker here x.verifier --timeout 086400 --asks 65536")
    return rows + [run(each) for each in words + same]


# ---- nodes


def served_nodes() -> List[Row]:
    """Nodes with honest brokers: one block for several sessions, another where too few units are left, and what is left is burnt."""
    rows = [noded(peers, [FIRST], show="disk") for peers in (1, 2, 16)] + [noded(0, [], 2), noded(2, [FIRST], 3), noded(3, [FIRST], 2)]
    rows += [noded(17, [FIRST, block(2, 16)], show="disk"), noded(2, [FIRST], follow=1), noded(2, [FIRST], bits="0"), noded(2, [FIRST], outputs=0)]
    rows += [noded(2, [block(1, 16)], start=16, claims="0..16", follow=1, show="disk")]
    rows += [noded(2, [FIRST], files="1,1,10", show="disk"), noded(9, [FIRST, block(2, 16)], files="1,1,10")]
    rows += [noded(2, [FIRST], **ADDER, show="disk"), noded(1, [block(1, 5, 7)], **ADDER, start=5), noded(3, [FIRST, block(2, 14)], **ADDER, show="disk")]
    rows += [noded(1, [block(1, 0, 1)]), noded(3, [block(number, number - 1, 1) for number in (1, 2, 3)], show="disk"), noded(2, [FIRST], slots=4096)]
    rows += [noded(1, [FIRST], heads=heads, show="disk") for heads in ("1,2", "2,1", "0,1")] + [noded(1, [FIRST], areas="moved", show="disk")]
    # What an honest prover says of the first units is no proof over others.
    rows += [noded(2, [block(1, 32), FIRST]), noded(3, [block(1, 7, 1), block(2, 1, 1), block(3, 5, 1)], show="disk")]
    chain = {"circuit": "chain.txt", "bits": "10", "units": 400}  # sessions of 59 units
    rows += [noded(2, [block(1, 0, 128)], **chain), noded(2, [block(1, 0, 64), block(2, 64, 64)], **chain)]
    return rows


def many_sessions() -> List[Row]:
    """Hundreds of sessions from many blocks, and a session of 4,096 units."""
    blocks = [block(number, 16 * number - 16) for number in range(1, 14)]
    rows = [noded(200, blocks, units=256, show="disk"), noded(100, [data for data in blocks for _ in range(3)], units=128, show="disk")]
    # The greatest session of direct units: its prover greets, and ends.
    name, text = "most_inputs.txt", f"0 {MOST_INPUTS} 1 {MOST_INPUTS} 1 1\n".encode()
    hello = frame(1, FILE_ID + sha256(text) + sha256(b"1") + b"\1")
    words = SERVE_NODE.replace("and.txt", name)
    given = {"circuit": name, "files": "1,6,10", "units": 4200, "calls": hexed([hello]), "show": "disk"}
    for brokers in ([block(1, 0, 4096)], [block(1, 0, 4095), block(2, 4095, 105), block(3, 4095, 1), block(4, 100, 4096)]):
        rows.append(run(words, **given, brokers=hexed(brokers)))
    return rows


def spent_tries() -> List[Row]:
    """Tries that bring no block, up to the most of them."""
    none, other, late = out(), block(1, 0, node=4), block(2, 0)
    rows = [noded(1, [data] * TRIES) for data in (none, other, late, block(0, 0), block(1, 0, 0), b"", b"\1", FIRST[:9], frame(1, bytes(97)))]
    rows += [noded(1, [none] * (TRIES - 1) + [FIRST], show="disk"), noded(2, [none] * TRIES + [FIRST], show="disk"), noded(2, [none] * 2 * TRIES)]
    past = [block(number, 63, 2) for number in range(1, 2 * TRIES + 2)]
    rows += [noded(1, past[:TRIES], show="disk"), noded(2, past[:TRIES] + [block(TRIES + 1, 0)], show="disk"), noded(2, past)]
    taken = [block(number, 0, 17) for number in range(1, TRIES + 1)]
    rows += [noded(1, taken, claims="16..17"), noded(1, [*taken[:5], block(6, 17)], start=17, claims="16..17", show="disk")]
    few = [block(number, number - 1, 1) for number in range(1, TRIES + 1)]
    rows += [noded(1, few, **ADDER, show="disk"), noded(1, [*few[:9], block(10, 9, 7)], **ADDER, start=9, show="disk")]
    mixed = [none, other, late, b"", b"\2", FIRST[:28], block(1, 0, 0), block(1, 60), block(2, 64, 1), block(3, 2**64 - 1), block(4, 0, 2**32 - 1)]
    rows += [noded(1, [*mixed, block(5, 0)], show="disk"), noded(2, [*mixed, block(5, 0, 1), block(6, 1, 1)], show="disk")]
    return rows + [noded(3, [none] * TRIES + [FIRST], follow=1), noded(2, [block(1, 0, 1), *[none] * TRIES])]


def late_replies() -> List[Row]:
    """Replies that were sent before: of this node, taken or not, and of its number in an earlier life."""
    rows = [noded(17, [FIRST, *[FIRST] * 3, block(2, 16)], show="disk"), noded(1, [FIRST, block(2, 16)], start=16, claims="0..16", show="disk")]
    rows.append(noded(2, [block(1, 0, 1), block(2, 0, 1), block(2, 1, 1), block(3, 1, 1)]))
    rows.append(noded(1, [FIRST, block(2, 8), block(3, 15), block(4, 16)], start=16, claims="0..16"))
    return rows + [noded(17, [FIRST, block(2, 0), block(2, 16), block(3, 16)], show="disk")]


def broker_links() -> List[Row]:
    """Links to the broker that end, change a byte, fail or find no memory; and a broker to which no link leads."""
    rows = []
    for reply in (FIRST, out()):
        for first in (0, 1):
            brokers = [out()] * first + [reply, FIRST]
            rows += [noded(1, brokers, peer=1 + first, **{how: "1..5"}, show="disk") for how in ("fail", "lack")]
        rows += [noded(1, [reply, FIRST], peer=1, cut="0..30"), noded(1, [reply, FIRST], peer=1, pieces=1, cut="0..26")]
        rows += [noded(1, [reply, FIRST], peer=1, change=f"0..{len(reply)}:{mask}") for mask in (1, 128)]
    rows += [noded(2, [FIRST, FIRST], peer=2, **{how: "1..4"}, show="disk") for how in ("fail", "lack")]
    rows += [noded(2, [block(1, 0, 1), block(2, 1, 1), block(2, 1, 1)], peer=3, **{how: "1..4"}) for how in ("fail", "lack")]
    rows += [noded(1, []), noded(3, [block(1, 0, 1)]), noded(3, [FIRST]), noded(2, [out()] * 3)]
    for how in ("fails", "lacks"):
        rows += [noded(2, [block(1, 0, 1), block(2, 1, 1)], 3, **{f"door_{how}": number}, show="disk") for number in range(1, 8)]
        rows += [noded(1, [out(), out(), FIRST], **{f"door_{how}": number}) for number in range(3, 7)]
    return rows


def prover_links() -> List[Row]:
    """Provers that end, change a byte, or whose links fail, of a node."""
    rows = [noded(2, [FIRST], peer=peer, cut=cut) for peer in (0, 1) for cut in ("0..2", "101..104", "164..166")]
    rows += [noded(2, [FIRST], peer=peer, change="101..103:1") for peer in (0, 1)]
    rows += [noded(2, [FIRST], peer=peer, **{how: "1..11"}, show="disk") for peer in (0, 1) for how in ("fail", "lack")]
    rows += [noded(2, [out()] * TRIES + [FIRST], peer=0, **{how: "3..5"}) for how in ("fail", "lack")]
    return rows + [noded(1, [], **{how: "3..5"}) for how in ("fail", "lack")] + [noded(1, [FIRST], keep=0, more=frame(1, bytes(97)).hex())]


def failing_nodes() -> List[Row]:
    """Nodes of which a call of the disk, the shelf or the output fails or finds no memory; full journals, and crashes."""
    twice = [block(1, 0, 1), block(2, 1, 1), block(3, 2, 1)]
    rows = [noded(3, twice, disk_fails=number, show="disk") for number in range(1, 20)]
    full = {"slots": 2, "claims": "40..41+50..51", "show": "disk"}
    rows.append(noded(1, [FIRST, block(2, 41)], start=41, **full))
    apart = [FIRST] + [block(number, number) for number in range(2, 65)]
    rows.append(noded(1, apart, **{**full, "claims": "5..6+70..72", "units": 128}))
    rows += [noded(1, [block(1, 41)], start=41, **full, disk_fails=number) for number in range(12, 22)]
    for how in ("fails", "lacks"):
        rows += [noded(1, [FIRST], **{f"shelf_{how}": number}) for number in (1, 2, 3)]
        rows += [noded(1, brokers, **{f"sink_{how}": 1}) for brokers in ([FIRST], [])]
    rows += [noded(2, [FIRST, block(2, 16)], disk_fails=9, sink_fails=1), noded(2, [FIRST, block(2, 16)], disk_fails=9, door_fails=5)]
    for number in range(9, 14):
        rows += [noded(1, [block(1, 0, 1), block(2, 1, 1)], disk_fails=number, crash=left, show="disk") for left in ("old", "new", "90")]
    # A node that is started again gets the late block of its first number, and then another.
    rows += [noded(1, [FIRST, block(2, 16)], crash="old", show="disk"), noded(1, [FIRST, FIRST, block(2, 16)], crash="old", show="disk")]
    return rows


def stopped_nodes() -> List[Row]:
    """Nodes that do not start, and words that ask for none; and what `status` says of a node's journal."""
    swaps = [("x.verifier", "x.prover"), ("x.verifier", "missing"), ("and.txt", "missing"), (" 1 ", " 10 "), (" 1 ", " 2 ")]
    swaps += [("3", "1023"), ("3", "0"), ("3", "0003"), ("3", "1024"), ("3", "x"), ("3", "-1"), ("--node 3 ", ""), ("there ", "")]
    swaps += [(" --sessions 1", ""), ("--sessions 1", "--sessions 0"), ("--sessions 1", "--sessions 65537")]
    words = [SERVE_NODE.replace(*swap) for swap in swaps]
    more = ["--timeout 1", "--timeout 0", "--section 1", "--workers 1", "--logs l", "--public 1", "--asks 1", "more", "--node 3", "--node=3"]
    words += [f"{SERVE_NODE} {each}" for each in more]
    words += ["serve-node", "serve-nodes" + SERVE_NODE[10:], SERVE_NODE.replace(" 1 ", " @log "), SERVE_NODE.replace(" 1 ", " @missing ")]
    rows = [run(each, log="310a") for each in words]
    rows += [run(SERVE_NODE, damage=damage) for damage in ("0:0", "8:2", "9:3", "40:1", "136:255")]
    rows += [run(SERVE_NODE, journal_set=place) for place in ("8:3", "8:0", "16:2", "24:0", "32:0", "63:0", "95:0")]
    rows += [run(SERVE_NODE, journal_size=size) for size in (0, 64, 191)] + [run(SERVE_NODE, areas="one"), run(SERVE_NODE, heads="0,0")]
    rows += [run(SERVE_NODE, units=32, claims=claims) for claims in ("0..16+8..24", "0..40")]
    rows += [run(SERVE_NODE.replace("and.txt", circuit), circuit=circuit) for circuit in ("too_many_inputs.txt", "long_chain.txt")]
    rows += [run(SERVE_NODE, door_fails=1), run(SERVE_NODE, door_lacks=1), run(SERVE_NODE, disk_fails=1, door_fails=1), run(SERVE_NODE, door_fails=2)]
    status = "status x.verifier --node 3"
    rows += [run(status, units=40, claims="0..3+7..9"), run(f"{status} and.txt", units=40, claims="0..16")]
    rows += [run(status.replace("verifier", "prover"), units=40), run(status, units=40, disk_fails=4)]
    rows += [run(status, units=40, claims="0..4", journal_set="8:3"), run(status, slots=4096)]
    return rows + [run(each) for each in (status + " --node 3", status.replace("3", "1024"))]


def rows() -> List[Row]:
    """All of them."""
    parts = [answers(), bad_wants(), refused_links(), failing_brokers(), stopped_brokers()]
    parts += [served_nodes(), many_sessions(), spent_tries(), late_replies(), broker_links(), prover_links(), failing_nodes(), stopped_nodes()]
    return [each for part in parts for each in part]

#!/usr/bin/env python3
"""The command lines that `crates/session_runs` runs over real files and what they must write, computed apart from the program.

`session_runs.py` has them in the input of that program, each behind `zk `, and what they write in its output, with `status N` behind
it. `stored_runs.py --write` writes the dealt file that they take to `data` there, and copies the circuits of `examples`. Without it the
script compares these with what stands there; it prints what differs, and ends with 1 where anything does.

Outputs come from what each circuit is for: sums, comparisons, the vectors of AES in FIPS 197 (2001). Faults stand here
as they follow from the rules in `bristol.py`. That module must find the same of each; from it come the numbers of
inputs and gates. A rehearsal has a product for each input wire and for each XOR and AND, a section for each product, a
correlation for each product and each section, and units of 64 correlations, or in kind extended of 8 trees with 1,024 leaves
each, but one unit at least. Nobody calls at the door and nobody listens, so a verifier that serves prints nothing, or why it does
not listen, and a prover why it is not connected.
"""
import pathlib
import sys
from typing import Dict, List, NamedTuple, Optional, Tuple

import arithmetic
import polynomial
import bristol
import common
import dealt_files

# The id of files that are dealt from 32 bytes 7.
FILE_ID = common.FILE_ID.hex()

# A verifier's file that has no journal.
ALONE = "alone.verifier"

TOP = pathlib.Path(__file__).resolve().parent.parent
DATA = TOP / "crates" / "session_runs" / "data"
EXAMPLES = TOP / "examples"

ONES = 2**64 - 1

SUMS = [
    (0, 0),
    (ONES, ONES),
    (ONES, 1),
    (1, ONES),
    (0x374BA069D849FE70, 0x1572AB84B8829382),
    (0x42E35D5E58703871, 0x3F273BD7D74BCFDB),
    (0x4B4A98BEAA16DDB3, 0x84A39E4A79F3B243),
    (0xCEAE008DC5846781, 0xA425A984DE5F84A9),
    (0x05DCD5181247660A, 0xD6CC1D688B6FE17E),
    (0x29A23B69A0F35AFD, 0x515E08FA2E35685E),
    (0x2228EE8D68FF4CAD, 0x83AB71980827C352),
    (0x2473C2A2E504C468, 0x9429C529E2449311),
]

COMPARISONS = [
    (0, 0),
    (ONES, ONES),
    (ONES, 1),
    (1, ONES),
    (18, 18),
    (17, 18),
    (35, 18),
    (0x115480DCC1097517, 0x115480DCC1097517),
    (0x115480DCC1097516, 0x115480DCC1097517),
    (0x115480DCC1097517, 0x915480DCC1097517),
    (0x115480DDC1097517, 0x115480DCC1097517),
    (0x60914125E96A1B18, 0xDF426FC2AC2B7B05),
]

# Key, block and encrypted block.
AES_B = ("2b7e151628aed2a6abf7158809cf4f3c", "3243f6a8885a308d313198a2e0370734", "3925841d02dc09fbdc118597196a0b32")
AES_C_1 = ("000102030405060708090a0b0c0d0e0f", "00112233445566778899aabbccddeeff", "69c4e0d86a7b0430d8cdb78070b4c55a")

# A file for each fault, the bits it is tried at, the fault, and its token or wire. `bad_number.txt` has a wire out of
# range before it, `extra_text.txt` an output that is not set.
FAULTS = [
    ("short_text.txt", "11", "ShortText", 2),
    ("bad_number.txt", "11", "BadNumber", 11),
    ("too_large.txt", "1", "TooLarge", 1),
    ("too_many_gates.txt", "1", "TooLarge", 0),
    ("bad_gate.txt", "11", "BadGate", 12),
    ("bad_constant.txt", "none", "BadConstant", 7),
    ("wire_range.txt", "111", "WireRange", 4),
    ("read_before_set.txt", "1", "ReadBeforeSet", 8),
    ("set_twice.txt", "11", "SetTwice", 10),
    ("output_unset.txt", "1", "OutputUnset", 1),
    ("extra_text.txt", "1", "ExtraText", 6),
]

# Words of no command.
WRONG_WORDS = [
    "eval and.txt",
    "eval and.txt 12",
    "eval and.txt 1 1",
    "eval and.txt 11 --section 1",
    "rehearse and.txt 11 --section 0",
    "rehearse and.txt 11 --section 1 --section 1",
    "rehearse --section 1 11",
    "reherse and.txt 11 --section 1",
    "",
    "rehearse",
    "rehearse and.txt 11 --section",
    "rehearse and.txt --section 1",
    "rehearse and.txt 11 11 --section 1",
    "rehearse and.txt 11 --section 1048577",
    "rehearse and.txt 11 --section 36893488147419103233",
    "rehearse and.txt 11 --section x",
    "rehearse and.txt 11 --section ",
    "rehearse and.txt 11 --section -1",
    "rehearse and.txt 11 --sections 1",
    "rehearse and.txt 12 --section 1",
    "rehearse and.txt  --section 1",
    "rehearse - 11 --section 1",
    "--section 1 rehearse and.txt 11",
    "Rehearse and.txt 11 --section 1",
    "rehearse and.txt 11 --section 1 --units 1",
    "eval and.txt 11 11",
    "eval and.txt 1x",
    "rehearse and.txt 11 --extended --extended",
    "rehearse and.txt 11 --extended 1",
    "rehearse and.txt 11 --extended --section",
    "rehearse and.txt 11 --extended=1",
    "--extended rehearse and.txt 11",
    "eval and.txt 11 --extended",
    "serve here z.verifier and.txt 1 --sessions 1 --extended",
    "deal x --units 1 --extended",
    "deal",
    "deal x",
    "deal x y --units 1",
    "deal x --units",
    "deal x --units 0",
    "deal x --units 1048576",
    "deal x --units 4294967296",
    "deal x --units 4294967297",
    "deal x --units 1099511627776",
    "deal x --units 1099511627777",
    "deal x --units 18446744073709551617",
    "deal x --units 1 --units 1",
    "deal x --units 1 --trees 1",
    "deal x --units 1 --trees 1 --height 1",
    "deal x --units 1 --height 1 --base 10",
    "deal x --trees 1 --height 1 --base 10",
    "deal x --units 1 --trees 0 --height 1 --base 10",
    "deal x --units 1 --trees 1025 --height 1 --base 10",
    "deal x --units 1 --trees 1 --height 0 --base 10",
    "deal x --units 1 --trees 1 --height 17 --base 10",
    "deal x --units 1 --trees 1 --height 1 --base 9",
    "deal x --units 1 --trees 1 --height 1 --base 65537",
    "deal x --units 65535 --trees 1 --height 16 --base 65536",
    "deal x --units 1 --section 1",
    "prove x",
    "prove here z.prover and.txt 11",
    "prove here z.prover and.txt 11 1 1",
    "prove here z.prover and.txt 12 1",
    "prove here z.prover and.txt 11 2",
    "prove here z.prover and.txt  1",
    "prove here z.prover and.txt 11 1 --section 1",
    "prove here z.prover and.txt 11 1 --extended",
    "prove -here z.prover and.txt 11 1",
    "proves here z.prover and.txt 11 1",
    "serve x",
    "serve here z.verifier and.txt 1",
    "serve here z.verifier and.txt 1 --sessions 0",
    "serve here z.verifier and.txt 1 --sessions 65537",
    "serve here z.verifier and.txt 1 --sessions 4294967297",
    "serve here z.verifier and.txt 1 --sessions 18446744073709551617",
    "serve here z.verifier and.txt 1 --sessions x",
    "serve here z.verifier and.txt 1 --sessions",
    "serve here z.verifier and.txt 1 --sessions 1 --sessions 1",
    "serve here z.verifier and.txt 1 --sessions 1 --section 0",
    "serve here z.verifier and.txt 1 --workers 1",
    "serve here z.verifier and.txt 1 --sessions 1 --workers 0",
    "serve here z.verifier and.txt 1 --sessions 1 --workers 1025",
    "serve here z.verifier and.txt 1 --sessions 1 --workers 4294967297",
    "serve here z.verifier and.txt 1 --sessions 1 --workers",
    "serve here z.verifier and.txt 1 --sessions 1 --workers 1 --workers 1",
    "serve here z.verifier and.txt 1 --sessions 1 --timeout 0",
    "serve here z.verifier and.txt 1 --sessions 1 --timeout 86401",
    "serve here z.verifier and.txt 1 --sessions 1 --timeout",
    "serve here z.verifier and.txt 1 --sessions 1 --timeout 1 --timeout 1",
    "prove here z.prover and.txt 11 1 --timeout 0",
    "prove here z.prover and.txt 11 1 --timeout 1 --timeout 1",
    "audit and.txt 1 z.prover z.verifier l.0 --timeout 1",
    "serve here z.verifier and.txt 1 --sessions 1 --logs",
    "serve here z.verifier and.txt 1 --sessions 1 --logs -l",
    "serve here z.verifier and.txt 1 --sessions 1 --logs --section 1",
    "serve here z.verifier and.txt 1 --sessions 1 --logs l --logs l",
    "serve here z.verifier and.txt 1 --logs l",
    "serve here z.verifier and.txt 1 --sessions 1 --units 1",
    "serve here z.verifier and.txt 2 --sessions 1",
    "serve here z.verifier and.txt --sessions 1",
    "serve here z.verifier and.txt 1 1 --sessions 1",
    "serve z.verifier and.txt 1 --sessions 1",
    "eval and.txt 11 --workers 1",
    "rehearse and.txt 11 --logs l",
    "deal x --units 1 --sessions 1",
    "audit x",
    "migrate z.prover",
    "migrate both z.prover",
    "migrate prover z.prover z.prover",
    "serve here z.verifier and.txt 1 --sessions 1 --follow 1",
    "serve here z.verifier and.txt 1 --sessions 1 --follow --follow",
    "prove here z.prover and.txt 11 1 --follow",
    "audit and.txt 1 z.prover z.verifier l.0 --follow",
    "status",
    "status z.prover and.txt 1",
    "status z.prover and.txt --section 1",
    "status -z.prover",
    "status z.verifier --node",
    "status z.verifier --node 1024",
    "status z.verifier --node x",
    "status z.verifier --node 3 --node 3",
    "eval and.txt 11 --node 3",
    "node",
    "node z.verifier",
    "node z.verifier 1024",
    "node z.verifier 3 3",
    "node z.verifier 3 --node 3",
]


class Run(NamedTuple):
    """A command line, the lines that it must print, and its status."""

    words: str
    lines: List[str]
    status: int


class Case(NamedTuple):
    """A circuit, and the outputs that are due at these inputs."""

    file: str
    bits: str
    outputs: str


def low_first(number: int) -> str:
    """The 64 bits of a number, the low one first."""
    return f"{number:064b}"[::-1]


def high_first(digits: str) -> str:
    """The bits of hexadecimal digits, the high one of each first."""
    return "".join(f"{int(digit, 16):04b}" for digit in digits)


def gates_case(a: int, b: int) -> Case:
    """The circuit of all five gates: the exclusive or, the AND, the first input inverted, the second, 0 and 1."""
    return Case("gates.txt", f"{a}{b}", f"{a ^ b}{a & b}{1 - a}{b}01")


def aes_case(key: str, block: str, encrypted: str) -> Case:
    return Case("aes128.txt", high_first(key + block), high_first(encrypted))


def small_cases() -> List[Case]:
    """All cases but those of AES."""
    pairs = [(a, b) for a in (0, 1) for b in (0, 1)]
    cases = [Case(file, f"{a}{b}", f"{a & b}") for file in ("and.txt", "and_one_line.txt") for a, b in pairs]
    cases += [gates_case(a, b) for a, b in pairs]
    cases += [Case("constant.txt", "none", "1")] + [Case("no_gates.txt", bit, "none") for bit in "01"]
    cases += [Case("adder64.txt", low_first(a) + low_first(b), low_first((a + b) % 2**64)) for a, b in SUMS]
    return cases + [Case("ge64.txt", low_first(a) + low_first(b), str(int(a >= b))) for a, b in COMPARISONS]


def agree(words: str, line: str, status: int) -> None:
    """`bristol.py` finds the same."""
    name, file, bits = words.split(" ")
    found = bristol.run([name, str(DATA / file), bits])
    assert found == (line, status), f"{words[:100]}: {line}, status {status}, but bristol.py has {found}"


def eval_run(file: str, bits: str, line: str, status: int) -> Run:
    """A run of `eval`, of which `bristol.py` must find the same."""
    words = f"eval {file} {bits}"
    agree(words, line, status)
    return Run(words, [line], status)


def rehearse_words(file: str, bits: str) -> str:
    return f"rehearse {file} {bits} --section 1"


def rehearse_run(case: Case, section: Optional[int] = 1, extended: bool = False, public: int = 0) -> Run:
    """A rehearsal in sections of so many products, or of the greatest length, over files of either kind, with so many public bits."""
    circuit = bristol.read((DATA / case.file).read_bytes())
    assert isinstance(circuit, bristol.Circuit)
    products = circuit.inputs - public + sum(gate.name in ("XOR", "AND") for gate in circuit.gates)
    sections = -(-products // (section or 2**20))
    need = products + sections
    units = max(1, -(-need // (8 * 1024 if extended else 64)))
    counts = f"products {products} sections {sections} correlations {need} units {units}"
    words = f"rehearse {case.file} {case.bits[public:] or 'none'}" + (f" --section {section}" if section else "")
    words += (" --extended" if extended else "") + (f" --public {case.bits[:public]}" if public else "")
    return Run(words, [f"outputs {case.outputs}", counts, "accepted"], 0)


def migrations() -> List[Run]:
    """Migrations over journals that are dealt, which have two areas, and over a file that has none."""
    given: List[Tuple[str, List[str], int]] = [
        ("prover z.prover", ["refused BadHeader 2 8"], 3),
        ("verifier y.verifier", ["refused BadHeader 2 8"], 3),
        ("verifier z.prover", ["refused BadKind 2"], 3),
        ("prover and.txt", ["refused BadMagic 1"], 3),
        ("prover missing", ["failed shelf"], 4),
        (f"verifier {ALONE}", ["journal failed 1"], 5),
    ]
    return [Run(f"migrate {words}", lines, status) for words, lines, status in given]


def statuses() -> List[Run]:
    """What is left of files that are dealt, whose journals are new, and of what is none or has none."""
    direct, wide = [f"id {FILE_ID}", "units 1 direct"], [f"id {FILE_ID}", "units 1 extended 1024 16 65536"]
    unused = ["used 0 left 1"]
    given: List[Tuple[str, List[str], int]] = [
        ("z.prover", direct + unused, 0),
        ("z.verifier", direct + unused, 0),
        ("z.prover and.txt", direct + unused + ["sessions at most 1"], 0),
        ("z.verifier and.txt", direct + unused + ["sessions 1"], 0),
        # A session takes seven units.
        ("z.verifier adder64.txt", direct + unused + ["sessions 0"], 0),
        ("y.verifier aes128.txt", wide + unused + ["sessions 1"], 0),
        ("y.prover aes128.txt", wide + unused + ["sessions at most 1"], 0),
        ("z.verifier short_text.txt", ["refused ShortText 1 2"], 3),
        ("z.verifier missing", ["failed shelf"], 4),
        ("and.txt", ["refused BadMagic 1"], 3),
        ("missing short_text.txt", ["failed shelf"], 4),
        (f"{ALONE}", ["journal failed 1"], 5),
        (f"{ALONE} short_text.txt", ["refused ShortText 1 2"], 3),
    ]
    return [Run(f"status {words}", lines, status) for words, lines, status in given]


def nodes() -> List[Run]:
    """New nodes of a verifier's file, and what they have used: nothing yet."""
    direct, unused = [f"id {FILE_ID}", "units 1 direct"], ["used 0 left 1"]
    given: List[Tuple[str, List[str], int]] = [
        ("status z.verifier --node 3", ["journal failed 1"], 5),
        ("node z.verifier 3", ["node 3"], 0),
        ("node z.verifier 01023", ["node 1023"], 0),
        ("status z.verifier --node 3", direct + unused, 0),
        ("status z.verifier --node=0003 and.txt", direct + unused + ["sessions at most 1"], 0),
        ("status z.verifier adder64.txt --node 1023", direct + unused + ["sessions at most 0"], 0),
        ("status z.verifier --node 4", ["journal failed 1"], 5),
        ("status z.prover --node 3", ["refused BadKind 2"], 3),
        ("status z.verifier short_text.txt --node 3", ["refused ShortText 1 2"], 3),
        ("node z.verifier 3", ["node 3"], 0),
        ("node z.prover 3", ["refused BadKind 2"], 3),
        ("node and.txt 3", ["refused BadMagic 1"], 3),
        ("node missing 3", ["failed shelf"], 4),
    ]
    return [Run(words, lines, status) for words, lines, status in given]


def bits_in_files() -> List[Run]:
    """Bits in files: with a line feed and without, none, and with another byte; and files that are none."""
    one, both = next(case for case in small_cases() if case == Case("and.txt", "11", "1")), "bits_both.txt"
    counted = rehearse_run(one, public=1).lines
    given: List[Tuple[str, List[str], int]] = [
        (f"eval and.txt @{both}", ["1"], 0),
        ("eval constant.txt @bits_none.txt", ["1"], 0),
        ("eval and.txt @bits_none.txt", ["refused bits 2 0"], 3),
        ("eval and.txt @bits_cut.txt", ["refused bits 2 1"], 3),
        ("eval short_text.txt @bits_cut.txt", ["refused ShortText 1 2"], 3),
        ("eval missing.txt @bits_cut.txt", ["failed shelf"], 4),
        ("eval and.txt @missing", ["failed shelf"], 4),
        ("eval missing.txt @missing", ["failed shelf"], 4),
        ("eval and.txt @", ["failed shelf"], 4),
        (f"rehearse and.txt @{both} --section 1", rehearse_run(one).lines, 0),
        ("rehearse and.txt @bits_one.txt --section 1 --public @bits_one.txt", counted, 0),
        ("rehearse and.txt @bits_cut.txt --public 1", ["refused bits 1 1"], 3),
        ("rehearse and.txt @bits_cut.txt --public 111", ["refused public 2 3"], 3),
        ("rehearse and.txt @missing --public @bits_cut.txt", ["refused public 2 1"], 3),
        ("serve here z.verifier and.txt @bits_one.txt --sessions 1", [], 0),
        ("serve here z.verifier and.txt @bits_cut.txt --sessions 1", ["refused outputs 1 1"], 3),
        ("serve here z.verifier and.txt @missing --sessions 1", ["failed shelf"], 4),
        (f"prove here z.prover and.txt @{both} @bits_one.txt", ["failed door"], 4),
        (f"prove here z.prover and.txt @{both} 0", ["unsatisfied 0"], 1),
        (f"prove here z.prover and.txt @{both} @bits_cut.txt", ["refused outputs 1 1"], 3),
        ("prove here z.prover and.txt @bits_cut.txt @missing", ["refused bits 2 1"], 3),
        ("audit and.txt @bits_cut.txt z.prover z.verifier and.txt", ["refused outputs 1 1"], 3),
        ("audit and.txt @bits_one.txt z.prover z.verifier and.txt --public @bits_one.txt", ["refused LogFault 1 0"], 3),
    ]
    return [Run(words, lines, status) for words, lines, status in given]


def other_forms() -> List[Run]:
    """Words that are not valid and are read as such: a value behind `=`, and words behind `--`."""
    case = next(case for case in small_cases() if case == Case("and.txt", "11", "1"))
    forms = ["rehearse and.txt 11 --section=1", "rehearse --section=1 -- and.txt 11", "rehearse --section 1 and.txt -- 11"]
    wrong = ["rehearse and.txt 11 --section=-1", "rehearse and.txt 11 --section=", "rehearse and.txt 11 --section=1 --section 1"]
    wrong += ["rehearse -- -and.txt 11", "rehearse -- and.txt 11 --section 1", "rehearse and.txt 11 --sect=1", "eval -- and.txt 11 --"]
    runs = [rehearse_run(case)._replace(words=words) for words in forms]
    return runs + [Run("eval -- and.txt 11", ["1"], 0)] + [Run(words, [bristol.USAGE], 2) for words in wrong]


def audits() -> List[Run]:
    """Audits over files that are dealt for different sessions, and of what is no log."""
    given: List[Tuple[str, List[str], int]] = [
        ("z.prover y.verifier and.txt", ["refused NotDealt 8 0"], 3),
        ("y.prover z.verifier and.txt", ["refused NotDealt 8 0"], 3),
        ("x.prover z.verifier and.txt", ["refused NotDealt 8 0"], 3),
        ("z.prover z.verifier and.txt", ["refused LogFault 1 0"], 3),
        ("y.prover y.verifier z.prover", ["refused LogFault 1 0"], 3),
        ("z.verifier z.prover and.txt", ["refused BadKind 2"], 3),
        ("z.prover z.prover and.txt", ["refused BadKind 2"], 3),
        ("z.prover missing and.txt", ["failed shelf"], 4),
        # The log is loaded before the files are compared.
        ("z.prover y.verifier missing", ["failed shelf"], 4),
    ]
    return [Run(f"audit and.txt 1 {words}", lines, status) for words, lines, status in given]


def refusals() -> List[Run]:
    """Runs that end with another status than 0."""
    runs = []
    for file, bits, name, place in FAULTS:
        line = f"refused {name} {bristol.NUMBERS[name]} {place}"
        runs += [eval_run(file, bits, line, 3), Run(rehearse_words(file, bits), [line], 3)]
    for file, bits, need, got in [("and.txt", "1", 2, 1), ("and.txt", "none", 2, 0), ("constant.txt", "0", 0, 1)]:
        line = f"refused bits {need} {got}"
        runs += [eval_run(file, bits, line, 3), Run(rehearse_words(file, bits), [line], 3)]
    runs.append(eval_run("missing.txt", "11", "failed shelf", 4))
    runs.append(Run(rehearse_words("missing.txt", "11"), ["failed shelf"], 4))
    return runs + [Run(words, [bristol.USAGE], 2) for words in WRONG_WORDS]


def orders() -> List[Run]:
    """Words that may stand in other places, and other spellings of a number."""
    lines = rehearse_run(small_cases()[0])
    bits = small_cases()[0].bits
    return [
        Run(words.format(bits), lines.lines, 0)
        for words in (
            "rehearse --section 1 and.txt {}",
            "rehearse and.txt --section 1 {}",
            "rehearse and.txt {} --section 01",
            "rehearse and.txt {} --section 0000000000000000000000001",
            "rehearse --extended and.txt --section 1 {}",
            "rehearse and.txt --extended {} --section 1",
        )
    ]


def sections() -> List[Run]:
    """Sections of every kind of length: one product more or less than there are, the ends, and none given."""
    and_case = small_cases()[3]
    adder = next(case for case in small_cases() if case.file == "adder64.txt")
    aes = aes_case(*AES_C_1)
    lengths: List[Tuple[Case, Optional[int]]] = [(and_case, length) for length in (None, 2, 3, 4, 2**20)]
    lengths += [(adder, length) for length in (None, 7, 441, 442, 443)]
    lengths += [(aes, length) for length in (None, 1000, 29832)]
    return [rehearse_run(case, length) for case, length in lengths]


def extensions() -> List[Run]:
    """Rehearsals over files of kind extended: of one unit, of several, and at a refusal."""
    small = [case for case in small_cases() if case.file in ("and.txt", "constant.txt", "no_gates.txt", "gates.txt")]
    adder = next(case for case in small_cases() if case.file == "adder64.txt")
    aes = aes_case(*AES_B)
    runs = [rehearse_run(case, None, True) for case in small]
    runs += [rehearse_run(adder, length, True) for length in (1, None)]
    runs += [rehearse_run(aes, length, True) for length in (1, 1000, None)]
    line = f"refused {FAULTS[0][2]} {bristol.NUMBERS[FAULTS[0][2]]} {FAULTS[0][3]}"
    return runs + [
        Run(rehearse_words(FAULTS[0][0], FAULTS[0][1]) + " --extended", [line], 3),
        Run(rehearse_words("and.txt", "1") + " --extended", ["refused bits 2 1"], 3),
    ]


def public_bits() -> List[Run]:
    """Rehearsals of which some input bits are public: one, half, all; and the key of AES."""
    small = [case for case in small_cases() if case.file in ("and.txt", "gates.txt")]
    adder = next(case for case in small_cases() if case.file == "adder64.txt")
    runs = [rehearse_run(case, None, public=public) for case in small for public in (1, 2)]
    runs += [rehearse_run(adder, 7, public=public) for public in (1, 64, 127, 128)]
    runs += [rehearse_run(aes_case(*given), 1000, extended, 128) for given in (AES_B, AES_C_1) for extended in (False, True)]
    return runs + [Run("rehearse and.txt 1 --public 101", ["refused public 2 3"], 3)]


def dealings() -> List[Run]:
    """Files that are dealt, at the ends of what may be asked for."""
    given = [
        ("deal x --units 1", "1 direct"),
        # The first number of units whose files are of the second version, and the last one before.
        ("deal x --units 65536", "65536 direct"),
        ("deal x --units 65535", "65535 direct"),
        ("deal --units 0001 y --base 10 --trees 1 --height 1", "1 extended"),
        ("deal y --units 1 --trees 1024 --height 16 --base 65536", "1 extended"),
    ]
    return [Run(words, [f"id {FILE_ID}", f"units {units}"], 0) for words, units in given]


def services() -> List[Run]:
    """Services over files of kind direct that are dealt for them, over those of kind extended that `dealings` leaves, and over one that
    has no journal. All of their journals are new."""
    given: List[Tuple[str, List[str], int]] = [
        ("z.verifier and.txt 1", [], 0),
        ("z.verifier no_gates.txt none", [], 0),
        ("z.verifier and.txt 10", ["refused outputs 1 2"], 3),
        ("z.verifier and.txt none", ["refused outputs 1 0"], 3),
        ("z.prover and.txt 1", ["refused BadKind 2"], 3),
        ("y.verifier and.txt 1", [], 0),
        ("y.prover and.txt 1", ["refused BadKind 2"], 3),
        ("and.txt and.txt 1", ["refused BadMagic 1"], 3),
        ("z.verifier short_text.txt 1", ["refused ShortText 1 2"], 3),
        ("missing and.txt 1", ["failed shelf"], 4),
        ("z.verifier missing.txt 1", ["failed shelf"], 4),
        # Outputs are counted before the verifier's file is read.
        ("missing and.txt 10", ["refused outputs 1 2"], 3),
        (f"{ALONE} and.txt 1", ["journal failed 1"], 5),
        (f"{ALONE} and.txt 10", ["refused outputs 1 2"], 3),
    ]
    runs = [Run("deal z --units 1", [f"id {FILE_ID}", "units 1 direct"], 0)]
    runs += [Run(f"serve here {words} --sessions 1", lines, status) for words, lines, status in given]
    orders = [
        "serve --section 1 here z.verifier --sessions 01 and.txt 1",
        "serve here z.verifier and.txt 1 --sessions 2",
        "serve here z.verifier and.txt 1 --timeout 86400 --sessions 2",
        "serve here z.verifier and.txt 1 --sessions 65536 --workers 2",
        "serve here z.verifier and.txt 1 --workers 0008 --sessions 3 --logs l",
        "serve --workers 1 --logs l --sessions 1 --section 1 here y.verifier and.txt 1",
    ]
    return runs + [Run(words, [], 0) for words in orders]


def flipped(bits: str, place: int) -> str:
    """The same bits with another at this place."""
    return bits[:place] + "10"[int(bits[place])] + bits[place + 1 :]


def unsatisfied() -> List[Run]:
    """Proofs of outputs of which one is not what the circuit gives."""
    aes, adder = aes_case(*AES_B), next(case for case in small_cases() if case.file == "adder64.txt")
    given = [(aes, place) for place in (0, 77, 127)] + [(adder, place) for place in (0, 31, 63)]
    return [
        Run(f"prove here missing {case.file} {case.bits} {flipped(case.outputs, place)}", [f"unsatisfied {place}"], 1)
        for case, place in given
    ]


def proofs() -> List[Run]:
    """Proofs over the files of the services, to nobody."""
    aes, connected = aes_case(*AES_C_1), "failed door"
    given: List[Tuple[str, List[str], int]] = [
        ("z.prover and.txt 11 1", [connected], 4),
        ("z.prover and.txt 10 0", [connected], 4),
        ("z.prover and.txt 11 1 --timeout 086400", [connected], 4),
        ("z.prover no_gates.txt 0 none", [connected], 4),
        ("z.prover constant.txt none 1", [connected], 4),
        ("y.prover and.txt 11 1", [connected], 4),
        (f"z.prover aes128.txt {aes.bits} {aes.outputs}", [connected], 4),
        ("z.prover and.txt 10 1", ["unsatisfied 0"], 1),
        ("z.prover and.txt 101 1", ["refused bits 2 3"], 3),
        ("z.prover and.txt none 1", ["refused bits 2 0"], 3),
        ("z.prover and.txt 11 10", ["refused outputs 1 2"], 3),
        ("z.prover and.txt 11 none", ["refused outputs 1 0"], 3),
        ("z.verifier and.txt 11 1", ["refused BadKind 2"], 3),
        ("and.txt and.txt 11 1", ["refused BadMagic 1"], 3),
        ("z.prover short_text.txt 11 1", ["refused ShortText 1 2"], 3),
        ("missing and.txt 11 1", ["failed shelf"], 4),
        ("z.prover missing.txt 11 1", ["failed shelf"], 4),
        # Bits are counted before outputs, and both are before the prover's file is read.
        ("missing and.txt 1 10", ["refused bits 2 1"], 3),
        ("missing and.txt 11 10", ["refused outputs 1 2"], 3),
        ("missing and.txt 10 1", ["unsatisfied 0"], 1),
    ]
    return [Run(f"prove here {words}", lines, status) for words, lines, status in given] + unsatisfied()


def too_large() -> List[Run]:
    """A session of one unit more than there may be: a product for each input, and one section."""
    file = "unit_too_many.txt"
    circuit = bristol.read((DATA / file).read_bytes())
    assert isinstance(circuit, bristol.Circuit)
    need = circuit.inputs + 1
    line = f"too large {need} {-(-need // 64)}"
    return [Run(f"serve here z.verifier {file} 1 --sessions 1", [line], 9)]


# Texts of arithmetic circuits, the first at whose inputs, 3 and no other small one, its assertion is met.
ARITH_TEXTS = {
    "arith_square.txt": b"4 4 1 1 MUL 0 0 1 CONST 2305843009213693942 2 ADD 1 2 3 ASSERT 3\n",
    "arith_no_gates.txt": b"0 2 2 1\n",
    "arith_no_outputs.txt": b"1 3 2 0 ADD 0 1 2\n",
    "arith_empty.txt": b"0 0 0 0\n",
    "arith_input.txt": b"1 2 2 2 ASSERT 1\n",
    "arith_constants.txt": b"3 3 0 3 CONST 2305843009213693950 0 CONST 007 1 ADD 0 1 2\n",
    "arith_wrap.txt": b"2 4 2 2 ADD 0 1 2 MUL 0 1 3\n",
    "arith_two_products.txt": b"2 4 2 1 MUL 0 1 2 MUL 2 2 3\n",
    # Of inputs alone, without outputs: the first takes 4,096 direct units, and the second one more.
    "arith_most_inputs.txt": b"0 262144 262144 0\n",
    "arith_more_inputs.txt": b"0 262145 262145 0\n",
}

# A text for each fault of arithmetic circuits, of which two have an earlier one; and its token or wire.
ARITH_FAULTS = [
    ("arith_short.txt", b"1 3 2 1 MUL 0 1", "ShortText", 7),
    ("arith_bad_number.txt", b"1 3 2 1 MUL 0 x 9", "BadNumber", 6),
    ("arith_too_large.txt", b"16777217 3 2 1", "TooLarge", 0),
    ("arith_sizes.txt", b"0 3 4 5", "WireRange", 2),
    ("arith_bad_gate.txt", b"1 3 2 1 XOR 0 1 2", "BadGate", 4),
    ("arith_bad_constant.txt", b"1 1 0 1 CONST 2305843009213693951 0", "BadConstant", 5),
    ("arith_wire_range.txt", b"1 3 2 1 MUL 9 x 2", "WireRange", 5),
    ("arith_read_before_set.txt", b"1 2 1 1 ASSERT 1", "ReadBeforeSet", 5),
    ("arith_set_twice.txt", b"1 3 2 1 ADD 0 0 1", "SetTwice", 7),
    ("arith_output_unset.txt", b"0 3 1 2", "OutputUnset", 1),
    ("arith_extra_text.txt", b"0 3 1 2 0", "ExtraText", 4),
]

# Files of elements.
VALUES = {
    "three.values": b"3\n",
    "four.values": b"4",
    "two.values": b"2305843009213693950\t\r\n0002",
    "zero.values": b"5 0",
    "empty.values": b" \n",
    "none.values": b"none",
    "beyond.values": b"1 2305843009213693951",
    "nought.values": b"0\n",
    "sum.values": b"4295003495\n",
}


def arith_chain() -> bytes:
    """A circuit of 6,000 gates of each kind in turn over two inputs, whose assertions are of differences that are 0."""
    lines: List[str] = []
    wire = 2
    while len(lines) < 6000:
        last = wire - 1
        gates = [f"MUL {last} {wire // 2} {wire}", f"CONST {2**61 - 2} {wire + 1}", f"MUL {wire} {wire + 1} {wire + 2}"]
        lines += gates + [f"ADD {wire} {wire + 2} {wire + 3}", f"ASSERT {wire + 3}", f"ADD {wire} {wire // 3} {wire + 4}"]
        wire += 5
    return "\n".join([f"{len(lines)} {wire} 2 3", *lines, ""]).encode()


def arith_files() -> Dict[str, bytes]:
    """The files of arithmetic circuits and of elements that runs take, beside the example."""
    faulty = {name: text for name, text, _, _ in ARITH_FAULTS}
    return {**ARITH_TEXTS, **faulty, **VALUES, "arith_chain.txt": arith_chain()}


def arith_texts() -> Dict[str, bytes]:
    """The same with those of the example."""
    return {**arith_files(), **{name: (EXAMPLES / name).read_bytes() for name in ("balances.txt", "balances.values")}}


def rehearse_arith_run(file: str, values: str, section: Optional[int] = None, extended: bool = False) -> Run:
    """A rehearsal of an arithmetic circuit: a correlation for each input, each MUL and each section."""
    texts = arith_texts()
    circuit, inputs = arithmetic.read(texts[file]), arithmetic.elements(texts[values])
    assert isinstance(circuit, arithmetic.Circuit) and isinstance(inputs, list)
    words = f"rehearse-arith {file} {values}" + (f" --section {section}" if section else "") + (" --extended" if extended else "")
    found = arithmetic.evaluate(circuit, inputs)
    if isinstance(found, int):
        return Run(words, [f"unsatisfied {circuit.outputs + found}"], 1)
    sections = -(-circuit.products // (section or 2**20))
    need = circuit.inputs + circuit.products + sections
    units = max(1, -(-need // (8 * 1024 if extended else 64)))
    counts = f"products {circuit.products} sections {sections} correlations {need} units {units}"
    return Run(words, [f"outputs {arithmetic.word_of(found)}", counts, "accepted"], 0)


def arith_refusals() -> List[Run]:
    """Rehearsals of arithmetic circuits that end with status 2, 3 or 4: the circuit's file comes before that of the values."""
    runs = []
    for file, text, name, place in ARITH_FAULTS:
        assert arithmetic.read(text) == bristol.Fault(name, place), file
        runs.append(Run(f"rehearse-arith {file} missing", [f"refused {name} {bristol.NUMBERS[name]} {place}"], 3))
    given: List[Tuple[str, List[str], int]] = [
        ("arith_square.txt none.values", ["refused BadValue 1 0"], 3),
        ("arith_square.txt beyond.values", ["refused BadValue 1 1"], 3),
        ("arith_square.txt empty.values", ["refused Count 2 1 0"], 3),
        ("arith_square.txt two.values", ["refused Count 2 1 2"], 3),
        ("arith_square.txt missing", ["failed shelf"], 4),
        ("missing.txt three.values", ["failed shelf"], 4),
        ("and.txt three.values", ["refused BadGate 4 4"], 3),
        ("arith_square.txt", [bristol.USAGE], 2),
        ("arith_square.txt three.values --section 0", [bristol.USAGE], 2),
        ("arith_square.txt three.values --public 1", [bristol.USAGE], 2),
        ("--gates 10 --number 3", [bristol.USAGE], 2),
    ]
    return runs + [Run(f"rehearse-arith {words}", lines, status) for words, lines, status in given]


def arithmetic_runs() -> List[Run]:
    """Rehearsals of arithmetic circuits."""
    pairs = [("arith_square.txt", "three.values"), ("arith_square.txt", "four.values"), ("arith_no_gates.txt", "two.values")]
    pairs += [("arith_no_outputs.txt", "two.values"), ("arith_empty.txt", "empty.values"), ("arith_input.txt", "zero.values")]
    pairs += [("arith_input.txt", "two.values"), ("arith_constants.txt", "empty.values"), ("arith_wrap.txt", "two.values")]
    runs = [rehearse_arith_run(file, values) for file, values in pairs]
    runs += [rehearse_arith_run("arith_square.txt", "three.values", 1), rehearse_arith_run("arith_wrap.txt", "two.values", None, True)]
    for file, values in [("arith_chain.txt", "two.values"), ("balances.txt", "balances.values")]:
        runs += [rehearse_arith_run(file, values, section, extended) for section in (None, 10) for extended in (False, True)]
    return runs + arith_refusals()


# Texts of constraints: one whose value is 3, or its negative; none; of no values; of a constant alone; of eight factors; of a coefficient 0 that
# raises the degree; and a point on a curve.
POLY_TEXTS = {
    "poly_square.txt": b"1 1 2 1 2 0 0 2305843009213693942 0\n",
    "poly_none.txt": b"0 0\n",
    "poly_free.txt": b"2 0\n",
    "poly_constant.txt": b"0 1 1 0 0\n",
    "poly_one.txt": b"0 1 1 1 0\n",
    "poly_eight.txt": b"2 1 2 1 8 0 0 0 0 0 0 0 0 2305843009213693950 1 1\n",
    "poly_lifted.txt": b"1 1 3 1 2 0 0 2305843009213693942 0 0 5 0 0 0 0 0\n",
    "poly_curve.txt": b"2 1 4 1 2 1 1 2305843009213693950 3 0 0 0 2305843009213693944 1 0 14 0\n",
}

# A text for each fault of constraints, and its token.
POLY_FAULTS = [
    ("poly_short.txt", b"1 1 2 1 2 0 0 5", "ShortText", 8),
    ("poly_bad_number.txt", b"1 1 2 1 2 0 x 5 0", "BadNumber", 6),
    ("poly_too_large.txt", b"1 1 1 2305843009213693951 0", "TooLarge", 3),
    ("poly_many_values.txt", b"65537 0", "TooLarge", 0),
    ("poly_many_constraints.txt", b"0 65537", "TooLarge", 1),
    ("poly_many_terms.txt", b"1 1 4097", "TooLarge", 2),
    ("poly_many_factors.txt", b"1 1 1 1 9 0", "TooLarge", 4),
    ("poly_range.txt", b"1 1 1 1 1 1", "VarRange", 5),
    ("poly_extra.txt", b"1 0 0", "ExtraText", 2),
    ("poly_empty.txt", b"", "ShortText", 0),
]


def poly_chain() -> bytes:
    """Three thousand values, each of which is the square of the one before it."""
    lines = ["3000 2999"] + [f"2 1 2 {i} {i} {2**61 - 2} 1 {i + 1}" for i in range(2999)]
    return "\n".join([*lines, ""]).encode()


def poly_chain_values() -> List[int]:
    values = [2]
    while len(values) < 3000:
        values.append(values[-1] ** 2 % (2**61 - 1))
    return values


def poly_files() -> Dict[str, bytes]:
    """The files of constraints and of values that runs take."""
    faulty = {name: text for name, text, _, _ in POLY_FAULTS}
    chained = "\n".join(map(str, [*poly_chain_values(), ""])).encode()
    curve = {"curve.values": b"1 2753", "eight.values": b"2 256\n"}
    return {**POLY_TEXTS, **faulty, "poly_chain.txt": poly_chain(), "chain.values": chained, **curve}


def poly_texts() -> Dict[str, bytes]:
    """The same with those of the examples."""
    return {**poly_files(), **{name: (EXAMPLES / name).read_bytes() for name in ("square.txt", "square.values")}}


def rehearse_poly_run(file: str, values: str, section: Optional[int] = None, extended: bool = False) -> Run:
    """A rehearsal of constraints: a correlation for each value, and one less than the degree for masks."""
    texts = {**VALUES, **poly_texts()}
    constraints, x = polynomial.read(texts[file]), arithmetic.elements(texts[values])
    assert isinstance(constraints, polynomial.Constraints) and isinstance(x, list)
    words = f"rehearse-poly {file} {values}" + (f" --section {section}" if section else "") + (" --extended" if extended else "")
    unmet = [i for i, value in enumerate(constraints.values(x)) if value]
    if unmet:
        return Run(words, [f"unsatisfied {unmet[0]}"], 1)
    need = constraints.variables + constraints.degree() - 1
    units = max(1, -(-need // (8 * 1024 if extended else 64)))
    count = len(constraints.polynomials)
    counts = f"variables {constraints.variables} constraints {count} degree {constraints.degree()} correlations {need} units {units}"
    return Run(words, [counts, "accepted"], 0)


def poly_rehearsals() -> List[Run]:
    """Rehearsals of constraints: of each shape, of thousands, and those that are refused, the text before the values."""
    pairs = [("poly_square.txt", "three.values"), ("poly_square.txt", "four.values"), ("poly_none.txt", "empty.values")]
    pairs += [("poly_free.txt", "two.values"), ("poly_constant.txt", "empty.values"), ("poly_one.txt", "empty.values")]
    pairs += [("poly_eight.txt", "eight.values"), ("poly_lifted.txt", "three.values"), ("square.txt", "square.values")]
    runs = [rehearse_poly_run(file, values) for file, values in pairs]
    runs += [rehearse_poly_run("poly_square.txt", "three.values", 1), rehearse_poly_run("poly_eight.txt", "eight.values", None, True)]
    runs += [rehearse_poly_run("poly_chain.txt", "chain.values", section, extended) for section in (None, 10) for extended in (False, True)]
    for file, text, name, place in POLY_FAULTS:
        assert polynomial.read(text) == polynomial.Fault(name, place), file
        runs.append(Run(f"rehearse-poly {file} missing", [f"refused {name} {polynomial.NUMBERS[name]} {place}"], 3))
    given: List[Tuple[str, List[str], int]] = [
        ("poly_square.txt none.values", ["refused BadValue 1 0"], 3),
        ("poly_square.txt beyond.values", ["refused BadValue 1 1"], 3),
        ("poly_square.txt empty.values", ["refused Count 2 1 0"], 3),
        ("poly_square.txt two.values", ["refused Count 2 1 2"], 3),
        ("poly_square.txt missing", ["failed shelf"], 4),
        ("missing.txt three.values", ["failed shelf"], 4),
        ("poly_square.txt", [bristol.USAGE], 2),
        ("poly_square.txt three.values --section 0", [bristol.USAGE], 2),
        ("poly_square.txt three.values --public 1", [bristol.USAGE], 2),
        ("--gates 10 --number 3", [bristol.USAGE], 2),
    ]
    return runs + [Run(f"rehearse-poly {words}", lines, status) for words, lines, status in given]


def poly_parties() -> List[Run]:
    """Both ends of sessions about constraints, with nobody at the other one, in the order of their refusals; and words that ask for nothing."""
    given: List[Tuple[str, List[str], int]] = [
        ("serve-poly here z.verifier poly_square.txt --sessions 1", [], 0),
        ("serve-poly here y.verifier poly_chain.txt --section 1 --sessions 1 --logs l", [], 0),
        # Constraints that nobody can meet are served too.
        ("serve-poly here z.verifier poly_one.txt --sessions 1", [], 0),
        ("serve-poly here missing poly_short.txt --sessions 1", ["refused ShortText 1 8"], 3),
        ("serve-poly here z.verifier missing.txt --sessions 1", ["failed shelf"], 4),
        ("serve-poly here missing poly_square.txt --sessions 1", ["failed shelf"], 4),
        ("serve-poly here z.prover poly_square.txt --sessions 1", ["refused BadKind 2"], 3),
        (f"serve-poly here {ALONE} poly_square.txt --sessions 1", ["journal failed 1"], 5),
        ("prove-poly here z.prover poly_square.txt three.values", ["failed door"], 4),
        ("prove-poly here y.prover poly_chain.txt chain.values --timeout 5", ["failed door"], 4),
        ("prove-poly here missing poly_square.txt four.values", ["unsatisfied 0"], 1),
        ("prove-poly here missing poly_one.txt empty.values", ["unsatisfied 0"], 1),
        ("prove-poly here missing poly_square.txt none.values", ["refused BadValue 1 0"], 3),
        ("prove-poly here missing poly_square.txt two.values", ["refused Count 2 1 2"], 3),
        ("prove-poly here missing poly_range.txt missing", ["refused VarRange 4 5"], 3),
        ("prove-poly here missing poly_square.txt three.values", ["failed shelf"], 4),
        ("prove-poly here z.verifier poly_square.txt three.values", ["refused BadKind 2"], 3),
    ]
    serve, prove = "serve-poly here z.verifier poly_square.txt", "prove-poly here z.prover poly_square.txt three.values"
    words = ["serve-poly", serve, f"{serve} --sessions 0", f"{serve} more --sessions 1", f"{serve} --sessions 1 --public 1"]
    words += ["prove-poly", f"{prove} more", f"{prove} --section 1", f"{prove} --public 1", f"{prove} --timeout 0", "serve-polys" + serve[10:] + " --sessions 1"]
    return [Run(*row) for row in given] + [Run(each, [bristol.USAGE], 2) for each in words]


def arith_services() -> List[Run]:
    """Services about arithmetic circuits, over the files of the other services: the circuit's file comes first, then that of the outputs."""
    given: List[Tuple[str, List[str], int]] = [
        ("z.verifier arith_square.txt nought.values", [], 0),
        ("z.verifier arith_no_outputs.txt empty.values", [], 0),
        ("z.verifier balances.txt sum.values", [], 0),
        ("y.verifier arith_square.txt nought.values", [], 0),
        # Claims that nobody can prove are served too.
        ("z.verifier arith_square.txt three.values", [], 0),
        ("z.verifier arith_most_inputs.txt empty.values", [], 0),
        ("z.verifier arith_more_inputs.txt empty.values", ["too large 262145 4097"], 9),
        ("z.verifier and.txt nought.values", ["refused BadGate 4 4"], 3),
        ("z.verifier missing.txt missing", ["failed shelf"], 4),
        ("z.verifier arith_square.txt missing", ["failed shelf"], 4),
        ("missing arith_square.txt none.values", ["refused BadValue 1 0"], 3),
        ("missing arith_square.txt beyond.values", ["refused BadValue 1 1"], 3),
        ("missing arith_square.txt empty.values", ["refused Count 2 1 0"], 3),
        ("missing arith_square.txt two.values", ["refused Count 2 1 2"], 3),
        ("missing arith_square.txt nought.values", ["failed shelf"], 4),
        ("z.prover arith_square.txt nought.values", ["refused BadKind 2"], 3),
        ("z.prover arith_more_inputs.txt empty.values", ["refused BadKind 2"], 3),
        (f"{ALONE} arith_square.txt nought.values", ["journal failed 1"], 5),
        (f"{ALONE} arith_more_inputs.txt empty.values", ["too large 262145 4097"], 9),
    ]
    faults = [(file, f"refused {name} {bristol.NUMBERS[name]} {place}") for file, _, name, place in ARITH_FAULTS]
    runs = [Run(f"serve-arith here missing {file} missing --sessions 1", [line], 3) for file, line in faults]
    return runs + [Run(f"serve-arith here {words} --sessions 1", lines, status) for words, lines, status in given]


def arith_proofs() -> List[Run]:
    """Proofs about arithmetic circuits, to nobody: the circuit's file comes first, then those of the values and of the outputs."""
    connected = "failed door"
    given: List[Tuple[str, List[str], int]] = [
        ("z.prover arith_square.txt three.values nought.values", [connected], 4),
        ("y.prover arith_square.txt three.values nought.values", [connected], 4),
        ("z.prover balances.txt balances.values sum.values", [connected], 4),
        ("z.prover arith_input.txt zero.values zero.values", [connected], 4),
        ("missing arith_square.txt four.values nought.values", ["unsatisfied 1"], 1),
        # An assertion comes before an output that differs.
        ("missing arith_square.txt four.values four.values", ["unsatisfied 1"], 1),
        ("missing arith_square.txt three.values four.values", ["unsatisfied 0"], 1),
        ("missing arith_input.txt two.values two.values", ["unsatisfied 2"], 1),
        ("missing balances.txt balances.values three.values", ["unsatisfied 0"], 1),
        ("missing arith_no_gates.txt two.values four.values", ["unsatisfied 0"], 1),
        ("missing arith_square.txt four.values missing", ["failed shelf"], 4),
        ("missing arith_square.txt missing missing", ["failed shelf"], 4),
        ("missing missing.txt none.values none.values", ["failed shelf"], 4),
        ("missing and.txt none.values none.values", ["refused BadGate 4 4"], 3),
        ("missing arith_square.txt none.values missing", ["refused BadValue 1 0"], 3),
        ("missing arith_square.txt beyond.values missing", ["refused BadValue 1 1"], 3),
        ("missing arith_square.txt empty.values none.values", ["refused Count 2 1 0"], 3),
        ("missing arith_square.txt two.values none.values", ["refused Count 2 1 2"], 3),
        ("missing arith_square.txt four.values none.values", ["refused BadValue 1 0"], 3),
        ("missing arith_square.txt four.values beyond.values", ["refused BadValue 1 1"], 3),
        ("missing arith_square.txt four.values empty.values", ["refused Count 2 1 0"], 3),
        ("missing arith_square.txt four.values two.values", ["refused Count 2 1 2"], 3),
        ("missing arith_square.txt three.values nought.values", ["failed shelf"], 4),
        ("z.verifier arith_square.txt three.values nought.values", ["refused BadKind 2"], 3),
        ("and.txt arith_square.txt three.values nought.values", ["refused BadMagic 1"], 3),
    ]
    faults = [(file, f"refused {name} {bristol.NUMBERS[name]} {place}") for file, _, name, place in ARITH_FAULTS]
    runs = [Run(f"prove-arith here missing {file} missing missing", [line], 3) for file, line in faults]
    return runs + [Run(f"prove-arith here {words}", lines, status) for words, lines, status in given]


def arith_audits() -> List[Run]:
    """Audits about arithmetic circuits: over files that are dealt for different sessions, and of what is no log."""
    given: List[Tuple[str, List[str], int]] = [
        ("arith_square.txt nought.values z.prover y.verifier and.txt", ["refused NotDealt 8 0"], 3),
        ("arith_square.txt nought.values y.prover z.verifier and.txt", ["refused NotDealt 8 0"], 3),
        ("arith_square.txt nought.values z.prover y.verifier missing", ["failed shelf"], 4),
        ("arith_square.txt nought.values z.prover z.verifier and.txt", ["refused LogFault 1 0"], 3),
        ("arith_square.txt nought.values z.verifier z.verifier and.txt", ["refused BadKind 2"], 3),
        ("arith_square.txt nought.values z.prover z.prover and.txt", ["refused BadKind 2"], 3),
        ("arith_square.txt nought.values missing z.verifier and.txt", ["failed shelf"], 4),
        ("arith_square.txt nought.values z.prover missing and.txt", ["failed shelf"], 4),
        ("arith_square.txt missing missing missing missing", ["failed shelf"], 4),
        ("missing.txt none.values missing missing missing", ["failed shelf"], 4),
        ("arith_square.txt none.values missing missing missing", ["refused BadValue 1 0"], 3),
        ("arith_square.txt beyond.values missing missing missing", ["refused BadValue 1 1"], 3),
        ("arith_square.txt empty.values missing missing missing", ["refused Count 2 1 0"], 3),
        ("arith_square.txt two.values missing missing missing", ["refused Count 2 1 2"], 3),
        ("and.txt nought.values missing missing missing", ["refused BadGate 4 4"], 3),
    ]
    return [Run(f"audit-arith {words}", lines, status) for words, lines, status in given]


def words_of_no_parties() -> List[Run]:
    """Words of the commands about sessions of arithmetic circuits that ask for nothing."""
    serve, prove = "serve-arith here z.verifier arith_square.txt nought.values", "prove-arith here z.prover arith_square.txt three.values nought.values"
    audit = "audit-arith arith_square.txt nought.values z.prover z.verifier and.txt"
    words = ["serve-arith", serve, f"{serve} --sessions 0", f"{serve} more --sessions 1", f"{serve} --sessions 1 --public 1", f"{serve} --sessions 1 --extended"]
    words += [f"{serve} --sessions 1 --workers 0", f"{serve} --sessions 1 --section 1048577", "serve-arith here z.verifier arith_square.txt --sessions 1"]
    words += ["prove-arith", f"{prove} more", f"{prove} --section 1", f"{prove} --public 1", f"{prove} --follow", f"{prove} --timeout 0"]
    words += ["prove-arith here z.prover arith_square.txt three.values", "prove-arith -here z.prover arith_square.txt three.values nought.values"]
    words += ["audit-arith", f"{audit} more", f"{audit} --public 1", "audit-arith arith_square.txt nought.values z.prover z.verifier"]
    words += ["serve-Arith" + serve[11:] + " --sessions 1", "proves-arith" + prove[11:]]
    return [Run(each, [bristol.USAGE], 2) for each in words]


def arith_parties() -> List[Run]:
    """Both ends of sessions about arithmetic circuits, with nobody at the other one, and audits."""
    orders = ["--section 1 --sessions 1 --logs l", "--sessions=01 --workers=2 --timeout=1"]
    runs = [Run(f"serve-arith here z.verifier arith_square.txt nought.values {words}", [], 0) for words in orders]
    runs.append(Run("prove-arith --timeout 0086400 here z.prover arith_square.txt three.values nought.values", ["failed door"], 4))
    return arith_services() + arith_proofs() + arith_audits() + words_of_no_parties() + runs


def all_runs() -> List[Run]:
    """All runs in order."""
    aes = [aes_case(*AES_B), aes_case(*AES_C_1)]
    runs = []
    for case in small_cases():
        runs += [eval_run(case.file, case.bits, case.outputs, 0), rehearse_run(case)]
    runs += [eval_run(case.file, case.bits, case.outputs, 0) for case in aes]
    runs += [rehearse_run(aes[1])] + refusals() + orders() + sections() + extensions() + public_bits() + dealings()
    return runs + services() + proofs() + audits() + migrations() + statuses() + nodes() + bits_in_files() + other_forms() + too_large() + arithmetic_runs() + arith_parties() + poly_rehearsals() + poly_parties()


def alone() -> bytes:
    """A verifier's file of one direct unit."""
    return dealt_files.deal(dealt_files.DIRECT)[1]


def main() -> int:
    files = {path.name: path.read_bytes() for path in EXAMPLES.glob("*.*") if path.suffix in (".txt", ".values")} | arith_files() | poly_files()
    files[ALONE] = alone()
    if sys.argv[1:] == ["--write"]:
        for name, data in files.items():
            (DATA / name).write_bytes(data)
    elif sys.argv[1:]:
        sys.exit("stored_runs.py [--write]")
    wrong = sorted(name for name, data in files.items() if not (DATA / name).exists() or (DATA / name).read_bytes() != data)
    for name in wrong:
        print(f"crates/session_runs/data/{name} is not as it must be")
    print(f"{len(all_runs())} runs, {len(wrong)} files that differ")
    return 1 if wrong else 0


if __name__ == "__main__":
    sys.exit(main())

#!/usr/bin/env python3
# calls.py LIBRARY HEADER: each function of the header called from Python by ctypes, with the header's own types and numbers; what is returned, told,
# written and left is compared.
import ctypes
import re
import sys

library = ctypes.CDLL(sys.argv[1])
with open(sys.argv[2], encoding="utf-8") as file:
    header = file.read()
TYPES = {"uint16_t": ctypes.c_uint16, "uint32_t": ctypes.c_uint32, "uint64_t": ctypes.c_uint64, "size_t": ctypes.c_size_t}
CT = {name: int(number) for name, number in re.findall(r"^(?:#define|   ) CT_(\w+)(?: =)? (?:UINT64_C\()?(\d+)\)?,?$", header, re.M)}
faults = []
called = set()


def call(name, *arguments):
    """Calls a function: a slice is a ctypes array, or None for one without elements; any other argument is a number."""
    parameters = re.search(rf"^uint64_t {name}\(([^)]*)\);", header, re.M).group(1)
    function = getattr(library, name)
    function.restype = ctypes.c_uint64
    function.argtypes = [ctypes.POINTER(TYPES[kind]) if star else TYPES[kind] for kind, star in re.findall(r"(\w+) (\*?)\w+(?:,|$)", parameters)]
    given = []
    for argument in arguments:
        given += [argument] if isinstance(argument, int) else [argument, len(argument or [])]
    called.add(name)
    return function(*given)


def expect(what, got, wanted):
    if got != wanted:
        faults.append(f"{what}: {got}, not {wanted}")


def words(kind, *numbers):
    return (kind * len(numbers))(*numbers)


def clause(*fields):
    return words(ctypes.c_uint16, *[CT[kind] << 14 | arity << 11 | number for kind, arity, number in fields])


GAS_NOT_OPEN, AIR_PROVED, Z, ZONE_1 = ("NEGATIVE", 1, 1), ("POSITIVE", 1, 2), ("VARIABLE", 0, 0), ("FUNCTION", 0, 1)
rule = clause(GAS_NOT_OPEN, Z, AIR_PROVED, Z)
asked = clause(AIR_PROVED, ZONE_1, GAS_NOT_OPEN, ZONE_1)
tree = words(ctypes.c_uint64, *[5] * 64)
told = words(ctypes.c_uint64, *[9] * CT["TOLD_WORDS"])
witness = words(ctypes.c_uint16, *[9] * CT["WITNESS_WORDS"])
output = words(ctypes.c_uint16, *[9] * CT["CLAUSE_WORDS"])
numbers = words(ctypes.c_uint32, *[9] * 3)

expect("fresh", call("ct_fresh", tree), CT["OK"])
expect("its words", set(tree), {0})
expect("insert", call("ct_insert", tree, rule, 4000000000, told), CT["OK"])
expect("insert again", call("ct_insert", tree, rule, 8, told), CT["HELD"])
expect("held number", list(told), [4000000000, 9, 9])
expect("query", call("ct_query", tree, asked, CT["ENOUGH_BUDGET"], witness, told), CT["OK"])
expect("told", list(told), [1, 4000000000, 3])
shown = {0: 1, 1: 0, CT["WITNESS_POSITIONS"]: 3, CT["WITNESS_POSITIONS"] + 1: 1}
expect("witness", list(witness), [shown.get(i, 9) for i in range(CT["WITNESS_WORDS"])])
expect("query, a budget one short", call("ct_query", tree, asked, 2, witness, told), CT["SPENT"])
expect("spent count", told[0], 2)
expect("ceiling", call("ct_ceiling", *[CT[name] for name in ("KEPT_CLAUSES", "CLAUSE_LITERALS", "CLAUSE_LITERALS")], told), CT["OK"])
expect("full budget", told[0], CT["FULL_BUDGET"])
expect("check", call("ct_check", tree), CT["OK"])
expect("check of no slice", call("ct_check", None), CT["BAD_SLICE"])
expect("read back", call("ct_read_back", tree, 4000000000, output, told), CT["OK"])
expect("its length", told[0], 4)
expect("its words", list(output), list(rule) + [9] * (CT["CLAUSE_WORDS"] - 4))
expect("backward", call("ct_backward", tree, clause(GAS_NOT_OPEN, Z), CT["ENOUGH_BUDGET"], numbers, told), CT["OK"])
expect("told", list(told)[:2], [1, 1])
expect("listed", list(numbers), [4000000000, 9, 9])
expect("remove", call("ct_remove", tree, 4000000000), CT["OK"])
expect("remove again", call("ct_remove", tree, 4000000000), CT["NO_SUCH_NUMBER"])
expect("query of none", call("ct_query", tree, asked, 0, witness, told), CT["OK"])
expect("told", list(told), [0, 0, 0])
expect("functions called", called, set(re.findall(r"^uint64_t (ct_\w+)\(", header, re.M)))

for fault in faults:
    print(fault)
sys.exit(1 if faults else 0)

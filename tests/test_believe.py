"""The table of definitions to believe is the one that the contract gives."""

import believe


def tests(tally):
    contract = believe.Contract()
    made, held = believe.table(contract), believe.kept(believe.read(believe.PAGE))[1]
    for row in sorted(set(made.split("\n")) ^ set(held.split("\n"))):
        tally.test("docs/PROMISES.md: a row of what to believe (tests/believe.py --write)", False, row)
    tally.test("the order of these rows", made == held)
    strange = sorted(set(believe.unknown(contract.book, contract.reach(contract.clauses))))
    tally.test("each word of the definitions is found", not strange, strange)

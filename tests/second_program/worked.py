"""The rules held to worked rows, without the program."""
from second_program.texts import compact, refused
from second_program.rows import read_row, row_of
from second_program.queries import read_query, selected
from second_program.lists import HEADER, board_text, cell, list_text
from second_program.asked import MADE_UP


CELLS = [
    ("", 2, "  "),
    ("ab", 4, "ab  "),
    ("abcd", 4, "abcd"),
    ("abcde", 4, "abc~"),
    ("a" * 41, 40, "a" * 39 + "~"),
    ("語" * 21, 40, "語" * 19 + "~ "),
    ("日本語", 2, "~ "),
    ("e\u0301e\u0301e\u0301", 2, "e\u0301~"),
    ("👩\u200d🔬abc", 4, "👩\u200d🔬a~"),
    ("🇩🇪🇫🇷", 3, "🇩🇪~"),
    ("لالالا", 2, "لا~"),
]
REFUSED = [
    ("status:openn", "2 0"),
    ('label:"x', "3 6"),
    ("no:label x:y", "1 9"),
    ("title:ß x:y", "1 9"),
    ("sort:id sort:id", "2 8"),
    ('x "', "3 2"),
    ("title:", "2 0"),
    ('title:"a"b', "2 0"),
    ('metadata:"":v', "2 0"),
    ("metadata:k", "2 0"),
    ("  :a", "1 2"),
]

# Queries over the two bugs below, and the first digits of those that they give.
GIVEN = [
    ("", "ba"),
    ("sort:id", "ab"),
    ("sort:id-desc", "ba"),
    ("sort:creation-asc", "ab"),
    ("sort:edit", "ab"),
    ("status:closed", "a"),
    ("status:closed status:open", "ba"),
    ("author:ana", "a"),
    ("author:c0c0c0c0", "b"),
    ("author:C0C0C0C", "b"),
    ("author:C0C0C0C0", ""),
    ('participant:"ANA"\tactor:c0', "a"),
    ('label:"needs info"', "a"),
    ("label:needs", ""),
    ("no:label", "b"),
    ("title:STRASSE", "b"),
    ('title:"n ph" title:LOGIN', "a"),
    ('metadata:"a:b":v:w', "b"),
    ("metadata:a:b:v:w", ""),
    ('title:""', "ba"),
]
ROW_TEXT = (
    '{"actors":["A","C"],"author":"A","comments":2,"create":1,"edit":5,"first":102,"head":"H","id":"B",'
    '"labels":["needs info"],"last":111,"metadata":{},"participants":["A"],"row":1,"status":2,"title":"Login fails on phones"}'
)


def worked_rows():
    """A bug that two people went on with, as in a session; and a bug of somebody who is no person of the folder."""
    ana, bo, bug = "0a" * 32, "c0" * 32, "ab" * 32
    said = lambda kind, time, author, **more: dict(more, kind=kind, time=time, author=author, metadata={}, id=bug)
    packs = [
        (1, [said("create", 102, ana, title="Login fails", message="Since monday")]),
        (2, [said("title", 106, bo, title="Login fails on phones")]),
        (2, [said("labels", 107, ana, added=["needs info"], removed=[])]),
        (3, [said("status", 108, bo, status=2)]),
        (4, []),
        (5, [said("comment", 111, ana, message="Fixed in 1.2")]),
    ]
    first = row_of("1e" * 20, [("", {"edit": edit, "create": 1, "ops": ops}) for edit, ops in packs])
    other = dict(MADE_UP, id="b" * 64, author=bo, actors=[bo], labels=[], status=1, title="Straße", metadata={"a:b": "v:w"})
    return [other, first], {ana: ("Ana", "")}


def check():
    """Tells what differs of the worked rows, and whether something does."""
    rows, named = worked_rows()
    given = lambda query: "".join(row["id"][0] for row in selected(rows, read_query(query)[0], named))
    written, board = compact(rows[1]), board_text(rows, named).split("\n")
    for digits, word in (("0a" * 32, "A"), ("c0" * 32, "C"), ("ab" * 32, "B"), ("1e" * 20, "H")):
        written = written.replace(digits, word)
    found = [(cell(text, columns), want) for text, columns, want in CELLS]
    found += [(read_query(query)[1], refused(f"16 bad query {want}")) for query, want in REFUSED]
    found += [((query, given(query)), (query, want)) for query, want in GIVEN]
    found += [(written, ROW_TEXT), (read_row(compact(rows[1]).encode()), rows[1]), (read_row(ROW_TEXT.encode()), None)]
    found += [
        (len(HEADER), 77),
        (list_text([], named) + board_text([], named), HEADER + "0 open, 0 closed\n"),
        (list_text(rows[1:], named), "abababa\tclosed\tLogin fails on phones\tAna\t2\tneeds info\n"),
        (board[1], "bbbbbbb open   Straße" + 35 * " " + "c0c0c0c" + 9 * " " + "   3"),
        (board[2], "abababa closed Login fails on phones" + 20 * " " + "Ana" + 13 * " " + "   2"),
    ]
    wrong = [it for it in found if it[0] != it[1]]
    for one, want in wrong:
        print(f"{one!r}, and not {want!r}")
    print(f"{len(found)} worked rows, {len(wrong)} differ")
    return 1 if wrong else 0

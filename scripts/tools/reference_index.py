"""Writes docs/reference/README.md: the crates in their groups, and how a clause is read."""

from crate_list import crates
from crate_page import MADE, sentence_of_crate
from crate_numbers import Numbers

GRAPH = "crates.svg"

ABOUT = """# Reference

For those who call a crate, or change one: each page says what the crate is, what its public items promise, and in which words. It is
written out of the sources by `scripts/tools/reference --write`, and the gate compares it, so no page of it is changed by hand.
"""

CLAUSES = """## How a clause is read

A function's `ensures` hold whenever it returns, and its `requires` are what each caller has proved. A ghost field is a fact that each value
of the type keeps, and a ghost member is a definition of a trait that each impl gives. The words of this repository that a clause cites
stand below it, with links to their definitions. The others are the kit's. These are in most clauses:

| in a clause | means |
|---|---|
| `result` | what the function returns |
| `x.now` | what is behind a `&` |
| `x.old`, `x.new` | what is behind a `&mut`, before and after the call |
| `x.entry` | an argument that the function takes, as it was given |
| `A × B`, `A ⊎ B`, `A → B`, `A ↔ B` | A and B; A or B; B if A; each if the other |
| `(x : T) → A`, `(x : T) × A` | A for every x of T; A for some x of T |
| `a ≡ b`, `a ≢ b` | they are equal, or not |
| `f x y`, `λ x. e` | f of x and y; the function of x that is e |
| `[]`, `x ∷ xs`, `xs ++ ys` | no elements; x before those of xs; those of xs, and then of ys |
| `ℕ`, `ℤ`, `List ℕ` | whole numbers from 0; whole numbers; a list of them, such as bytes |
| `IfOk result (λ v. A)`, `OnOk result A` | A holds of the value if the result is `Ok`; A holds then |
| `IfErr`, `OnErr`, `IfSome`, `OnSome` | the same of the other outcomes |
| `∥ A ∥₁` | A holds, whatever proves it |
"""

KIT = """And these are all that clauses cite, by the files of the kit from which they come:

| file of the kit | words |
|---|---|
"""

NUMBERS = """## The crates

A function counts as one with a clause if it has an `ensures`, unless `ok` is its only one. One that has none, but is in an impl of a trait
and keeps the clauses of that, is counted apart. Lines are those of files, with comments.
"""

PICTURE = f"""![The crates, and what each stands on]({GRAPH})

Each crate stands on those below it that a line leads to; lines that follow from others are left out.
"""


def row(cells):
    return f"| {' | '.join(cells)} |"


def counted(numbers):
    return [f"{count:,}" for count in numbers]


def index(numbers, of_kit):
    """Returns the page, with these numbers of each crate, and these words of the kit's files."""
    columns = list(next(iter(numbers.values())).columns())
    lines = [MADE, "", *ABOUT.split("\n"), *PICTURE.split("\n"), *NUMBERS.split("\n"),
             row(["crate", "what it is", *columns]), "|---|---|" + "---:|" * len(columns)]
    group = None
    for crate in crates().values():
        if crate.group != group:
            group = crate.group
            lines.append(row([f"**{group}**", *[""] * (1 + len(columns))]))
        lines.append(row([f"[{crate.name}]({crate.name}.md)", sentence_of_crate(crate), *counted(numbers[crate.name])]))
    total = Numbers(*(sum(column) for column in zip(*numbers.values())))
    lines += [row(["**all**", "", *counted(total)]), "", *CLAUSES.split("\n"), *KIT.strip().split("\n")]
    lines += [row([f"`{file}`", ", ".join(f"`{word}`" for word in sorted(words))]) for file, words in sorted(of_kit.items())] + [""]
    return "\n".join(lines)

#!/usr/bin/env python3
"""The page of promises and the code agree: every public function has one `ensures`, no `requires`, and stands on the page; every must-fail edit
that the page cites, and whatever else a page links to, is there."""
import pathlib
import re
import sys

ROOT = pathlib.Path(__file__).resolve().parent.parent
PAGE = ROOT / "docs" / "PROMISES.md"
PUBLIC = ["crates/desk/src/lib.rt", "crates/desk/src/held.rt", "crates/walk/src/lib.rt"]  # the files whose `pub fn`s are looked at


def contracts(text, module):
    """Each `pub fn` of a file, named with its type or else the module, with what stands between its name and its body."""
    for match in re.finditer(r"^( *)pub fn (\w+)(.*?)^ *\{$", text, re.M | re.S):
        indent, name, contract = match.groups()
        types = re.findall(r"^impl(?:<[^>]*>)? (\w+)", text[:match.start()], re.M)
        yield f"{types[-1] if indent else module}::{name}", contract


def unpromised():
    page = PAGE.read_text()
    desk = ROOT / "crates/desk/src"
    for module in re.findall(r"^pub mod (\w+);", (desk / "lib.rt").read_text(), re.M):
        if f"crates/desk/src/{module}.rt" not in PUBLIC:
            yield f"desk::{module} is public and not looked at"
    for file in PUBLIC:
        text = (ROOT / file).read_text()
        found = list(contracts(text, pathlib.Path(file).stem))
        if len(found) != len(re.findall(r"\bpub\b[^;{(\n]*\bfn\b", text)) or any(re.search(r"\bfn\b", contract) for _, contract in found):
            yield f"{file}: a public function is not read"
        for name, contract in found:
            if len(re.findall(r"\bensures\b", contract)) != 1 or re.search(r"\brequires\b", contract):
                yield f"{file}: {name} has not one `ensures` and no `requires`"
            if f"`{name}`" not in page:
                yield f"{PAGE.name} does not list {name}"


def broken():
    for page in [ROOT / "README.md", *sorted((ROOT / "docs").rglob("*.md"))]:
        for link in re.findall(r"\]\(([^)#]+)", page.read_text()):
            if not (page.parent / link).exists():
                yield f"{page.relative_to(ROOT)} links to {link}, which is not there"


def main():
    faults = [*unpromised(), *broken()]
    for fault in faults:
        print(fault)
    sys.exit(bool(faults))


main()

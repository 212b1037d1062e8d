"""One crate with the main functions of several programs, so that rt reads the crates below them once.

The programs share nearly all crates, and reading those takes longer than compiling a program. The
combined crate's `main` calls `runs_second` to decide which program it is. After the compiler's front
end has made one module of it, `choose` gives that function a constant result, and LLVM drops
whatever the chosen program does not use.
"""
import re
import shutil

from repository import TOP

NAME = "programs"
CHOICE = f'@"{NAME}::runs_second"'
IMPORT = re.compile(r"^use (rd_\w+)::\{?([\w,\s]+?)\}?;\n", re.MULTILINE)
ITEM = re.compile(r"^(?:const|enum|fn|static|struct|type) (\w+)", re.MULTILINE)
MAIN = "fn main(rt: HostRuntime) -> ExitCode {\n"
TEXT = """#![tactic(auto)]

{imports}
{items}
#[inline(never)]
fn runs_second(rt: &HostRuntime) -> bool {{
    env::args(rt).is_err()
}}

{main}    if runs_second(&rt) {{
{second}    }} else {{
{first}    }}
}}
"""


class NotCombined(Exception):
    """The main file of a program has an unexpected form."""


def split_main(program):
    """Splits a program's main file into its imports, its other items, and the body of `main`, with
    the program's name before each name of its own or of the repository's crates."""
    file = TOP / "crates" / program / "src/main.rt"
    text = re.sub(r"^(?://|#!\[).*\n", "", file.read_text(), flags=re.MULTILINE)
    names = [name for found in IMPORT.finditer(text) for name in re.findall(r"\w+", found[2])]
    names += [name for name in ITEM.findall(text) if name != "main"]
    imports = []
    for found in IMPORT.finditer(text):
        uses = (f"{name} as {program}_{name}" for name in re.findall(r"\w+", found[2]))
        imports.append(f"use {found[1]}::{{{', '.join(uses)}}};\n")
    text = IMPORT.sub("", text)
    if names:
        text = re.sub(rf"\b({'|'.join(names)})\b", rf"{program}_\1", text)
    items, is_there, body = text.partition(MAIN)
    if not is_there or not body.endswith("}\n"):
        raise NotCombined(f"{file.relative_to(TOP)} must end with '{MAIN.strip()}'")
    imports += re.findall(r"^use .*\n", items, re.MULTILINE)
    return imports, re.sub(r"^use .*\n", "", items, flags=re.MULTILINE), body[:-2]


def combine(first, second, folder):
    """Writes a repository with the crates' sources and the combined crate of two programs to a
    folder. Raises `NotCombined`."""
    parts = [split_main(program) for program in (first, second)]
    imports = dict.fromkeys(line for part in parts for line in part[0])
    text = TEXT.format(
        imports="".join(imports),
        items="".join(part[1] for part in parts),
        main=MAIN,
        first=parts[0][2],
        second=parts[1][2],
    )
    for file in (TOP / "crates").glob("*/**/*.rt"):
        place = folder / file.relative_to(TOP)
        if "out" not in file.relative_to(TOP).parts:
            place.parent.mkdir(parents=True, exist_ok=True)
            shutil.copyfile(file, place)
    main = folder / "crates" / NAME / "src/main.rt"
    main.parent.mkdir(parents=True)
    main.write_text(text)
    lines = (TOP / "crates.txt").read_text()
    found = {line.partition(":")[0]: line.partition(":")[2] for line in lines.splitlines()}
    crates = dict.fromkeys(f"{found[first]} {found[second]}".split())
    (folder / "crates.txt").write_text(f"{lines}\n{NAME}: {' '.join(crates)}\n")


def choose(lines, is_second):
    """Returns a module's lines with a constant result of `runs_second`. Raises `NotCombined` if the
    module lacks that function."""
    is_inside = is_found = False
    for line in lines:
        if is_inside:
            is_inside = not line.startswith("}")
            continue
        yield line
        if line.startswith("define") and CHOICE in line:
            yield f"  ret i1 {'true' if is_second else 'false'}\n}}\n"
            is_inside = is_found = True
    if not is_found:
        raise NotCombined(f"the module of both programs lacks {CHOICE}")

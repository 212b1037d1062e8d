"""The folder for VS Code is well formed, as far as that is seen without VS Code: its manifest, the
form of its language and its grammar by a schema, expressions by the engine of its kind, scripts by
what runs them."""
import json
import os
import re
import subprocess
import unittest
from typing import Any, Dict, Iterator, List, Tuple

from tests.paths import TOP
from tests.test_schema import jsonschema

HERE = TOP / "tools" / "tests"
FOLDER = TOP / "tools" / "editors" / "vscode"
SCHEMA: Dict[str, Any] = json.loads((HERE / "vscode.schema.json").read_text())
MANIFEST = "package.json"
# In a grammar the whole of what an expression finds has no number of its own.
EXPRESSIONS = ("match", "begin", "end")
# Says of each pair of an expression and a text what it finds there, or why it is none.
FINDS = """
const finds = ([expression, text]) => {
  try {
    const groups = new RegExp(`${expression}|`).exec("").length - 1;
    return [groups, new RegExp(expression).exec(text)];
  } catch (error) {
    return [null, String(error)];
  }
};
console.log(JSON.stringify(JSON.parse(process.argv[1]).map(finds)));
"""


def of(name: str) -> Any:
    """A file of JSON."""
    return json.loads((FOLDER / name).read_text())


def places(manifest: Dict[str, Any]) -> Dict[str, str]:
    """The files that the manifest names, each with what it is by the schema; none of code."""
    given = manifest["contributes"]
    found = {MANIFEST: "manifest", manifest["main"]: ""}
    found.update({it["configuration"]: "form" for it in given["languages"]})
    found.update({it["path"]: "grammar" for it in given["grammars"]})
    found.update({it["program"]: "" for it in given["debuggers"]})
    return {name[2:] if name.startswith("./") else name: kind for name, kind in found.items()}


def rules(values: Any) -> Iterator[Dict[str, Any]]:
    """The rules of a grammar, however deep."""
    if isinstance(values, list):
        for it in values:
            yield from rules(it)
    elif isinstance(values, dict):
        if any(key in values for key in (*EXPRESSIONS, "include", "patterns")):
            yield values
        for it in values.values():
            yield from rules(it)


def found_by(pairs: List[Tuple[str, str]]) -> List[Any]:
    """How many groups each expression has, and what it finds in its text, in JavaScript."""
    words = ["node", "-e", FINDS, json.dumps(pairs)]
    ran = subprocess.run(words, stdout=subprocess.PIPE, check=True)
    found: List[Any] = json.loads(ran.stdout)
    return found


def faults(kind: str, value: Any) -> List[str]:
    """Where a file isn't as the schema has it."""
    schema = {"$ref": f"#/definitions/{kind}", "definitions": SCHEMA["definitions"]}
    validator = jsonschema.Draft7Validator(schema)
    return [f"{[*it.path]}: {it.message}" for it in validator.iter_errors(value)]


@unittest.skipUnless(jsonschema, "the other interpreter has jsonschema")
class Form(unittest.TestCase):
    """Each file by the schema, and what that refuses."""

    def test_each_file(self) -> None:
        jsonschema.Draft7Validator.check_schema(SCHEMA)
        for name, kind in places(of(MANIFEST)).items():
            if kind:
                self.assertEqual([], faults(kind, of(name)), name)

    def refused(self, kind: str, name: str, *changes: Tuple[str, str]) -> None:
        """Whether a file with each of these changes is none."""
        text = json.dumps(of(name))
        for one, other in changes:
            self.assertIn(one, text)
            self.assertNotEqual([], faults(kind, json.loads(text.replace(one, other))), other)

    def test_what_it_refuses(self) -> None:
        self.refused(
            "manifest",
            MANIFEST,
            ('"publisher"', '"publishers"'),
            ('"vscode": "^1', '"code": "^1'),
            ('"^1.60.0"', '"1.60"'),
            ('"Debuggers"', '"Debugger"'),
            ('"./extension.js"', '"extension.js"'),
            ('"main"', '"mains"'),
            ('"activationEvents"', '"activationEvent"'),
            ('"onLanguage:rdbg-fw"', '"rdbg-fw"'),
            ('"supported": true', '"supported": "yes"'),
            ('"title"', '"titles"'),
            ('"rdbg.check.program"', '"program"'),
            ('"scope": "machine"', '"scope": "folder"'),
            ('"contributes"', '"contribute"'),
            ('"extensions": ["', '"extensions": ["*'),
            ('"./language.json"', '"language.json"'),
            ('"source.rdbg-fw"', '"rdbg-fw"'),
            ('"autoDetect"', '"auto"'),
            ('"severity": "error"', '"severity": "fault"'),
            ('"column": 3', '"column": "3"'),
            ('"label"', '"labels"'),
            ('"request": "launch"', '"request": "start"'),
            ('"type": "boolean"', '"type": "bool"'),
            ('"attach"', '"attached"'),
        )
        self.refused("form", "language.json", ('["(", ")"]', '["("]'), ('"comments"', '"comment"'))
        self.refused(
            "grammar",
            "rdbg-fw.tmLanguage.json",
            ('"scopeName"', '"scope"'),
            ('"include": "#', '"include": "'),
            ('"end"', '"ends"'),
            ('"name": "comment.block', '"name": "Comment block'),
            ('"captures": {"1"', '"captures": {"one"'),
            ('"match"', '"matches"'),
        )


class Parts(unittest.TestCase):
    """What no schema says."""

    def setUp(self) -> None:
        self.manifest = of(MANIFEST)
        self.grammar = of("rdbg-fw.tmLanguage.json")

    def test_it_has_the_files_that_it_names(self) -> None:
        self.assertEqual({it.name for it in FOLDER.iterdir()}, {*places(self.manifest)})

    def test_its_script_is_one(self) -> None:
        (debugger,) = self.manifest["contributes"]["debuggers"]
        script = FOLDER / debugger["program"]
        self.assertEqual(debugger["runtime"], "bash")
        self.assertTrue(os.access(script, os.X_OK))
        subprocess.run([debugger["runtime"], "-n", str(script)], check=True)

    def test_its_code_is_javascript(self) -> None:
        subprocess.run(["node", "--check", str(FOLDER / self.manifest["main"])], check=True)

    def test_its_code_runs_for_its_language_alone(self) -> None:
        (language,) = self.manifest["contributes"]["languages"]
        self.assertEqual(self.manifest["activationEvents"], [f"onLanguage:{language['id']}"])

    def test_a_folder_that_is_opened_names_no_program(self) -> None:
        settings = self.manifest["contributes"]["configuration"]["properties"]
        self.assertEqual({it["scope"] for it in settings.values()}, {"machine"})

    def test_its_settings_have_their_own_sort(self) -> None:
        (debugger,) = self.manifest["contributes"]["debuggers"]
        sorts = {"string": str, "number": int, "boolean": bool}
        for request, attributes in debugger["configurationAttributes"].items():
            self.assertLessEqual({*attributes.get("required", ())}, {*attributes["properties"]})
            for name, it in attributes["properties"].items():
                if "default" in it:
                    self.assertIs(type(it["default"]), sorts[it["type"]], f"{request} {name}")
                self.assertEqual(it["type"] == "array", "items" in it, f"{request} {name}")
        for it in debugger["initialConfigurations"]:
            known = debugger["configurationAttributes"][it["request"]]["properties"]
            self.assertLessEqual({*it} - {"type", "request", "name"}, {*known})
            self.assertEqual(it["type"], debugger["type"])

    def test_the_matcher_is_one_in_javascript(self) -> None:
        (matcher,) = self.manifest["contributes"]["problemMatchers"]
        pattern = matcher["pattern"]
        groups = [value for key, value in pattern.items() if key != "regexp"]
        texts = ("a.fw:3:7: no such queue", "/a b/c:d.fw:3:7: note: twice", "a.fw: accepted")
        found = found_by([(pattern["regexp"], text) for text in texts])
        self.assertEqual({it[0] for it in found}, {max(groups)})
        self.assertEqual(sorted(groups), list(range(1, max(groups) + 1)))
        first, second, none = (it[1] for it in found)
        names = ("file", "line", "column", "severity", "message")
        said = [[match[pattern[name]] for name in names] for match in (first, second)]
        self.assertEqual(said[0], ["a.fw", "3", "7", None, "no such queue"])
        self.assertEqual(said[1], ["/a b/c:d.fw", "3", "7", "note", "twice"])
        self.assertIsNone(none)

    def test_each_rule_of_the_grammar_is_reached(self) -> None:
        included = {it["include"][1:] for it in rules(self.grammar) if "include" in it}
        self.assertEqual(included, {*self.grammar["repository"]})

    def test_the_grammars_expressions(self) -> None:
        for it in rules(self.grammar):
            for key in (key for key in EXPRESSIONS if key in it):
                ((groups, empty),) = found_by([(it[key], "")])
                self.assertIsNotNone(groups, f"{it[key]}: {empty}")
                captures = it.get("captures", {})
                self.assertLessEqual({int(number) for number in captures}, {*range(groups + 1)})
                if key != "end":
                    # (what finds nothing at all would be found at each place)
                    self.assertIsNone(empty, it[key])

    def test_its_scopes_are_of_its_language(self) -> None:
        names = re.findall(r'"name": "([a-z-]+\.[a-z.-]+)"', json.dumps(self.grammar))
        self.assertGreater(len(names), 10)
        ending = self.grammar["scopeName"].partition(".")[2]
        for name in names:
            self.assertTrue(name.endswith(f".{ending}"), name)


if __name__ == "__main__":
    unittest.main()

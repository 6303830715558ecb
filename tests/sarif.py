#!/usr/bin/env python3
"""sarif.py: checks SARIF 2.1.0 logs, one in each line of standard input; prints for each `ok` or what is wrong. Exit status: 0 all are
right, 1 one is not, 2 it could not run.

The structure (which properties an object has, which of them it must have, their types and enumerations) is the published one: it is
read from the Go structs that were generated from the standard's JSON schema, as Debian packages them. What those do not have, the
smallest numbers, what refers to what and what must be unique, is stated here after the standard's text."""
import json
import os
import re
import sys

PACKAGE = "golang-github-haya14busa-go-sarif-dev"
STRUCTURE = os.environ.get("SARIF_GO", "/usr/share/gocode/src/github.com/haya14busa/go-sarif/sarif/sarif.go")
SIMPLE = {"string": (str,), "int64": (int,), "float64": (int, float), "bool": (bool,)}
LEAST = {"startLine": 1, "startColumn": 1, "endLine": 1, "endColumn": 1, "index": 0, "ruleIndex": 0, "id": 0}
NOT_EMPTY = ("artifactChanges", "replacements", "newlineSequences")
UNIQUE = ("artifacts", "rules", "relatedLocations", "fixes", "newlineSequences", "roles")
# RFC 3986: a reference with no byte that must be encoded, and no colon in the first segment of a relative one
URI = re.compile(r"([A-Za-z][A-Za-z0-9+.-]*:)?([A-Za-z0-9._~!$&'()*+,;=@/-]|%[0-9A-Fa-f]{2})+(:|[A-Za-z0-9._~!$&'()*+,;=@/?#-]|%[0-9A-Fa-f]{2})*")


class Wrong(Exception):
    pass


def need(condition, path, what):
    if not condition:
        raise Wrong(f"{path}: {what}")


def published(text):
    """The structs, each a dictionary from a property to its type and whether it must be there, and the enumerations."""
    structs, enumerations, fields = {}, {}, {}
    for line in text.splitlines():
        if begun := re.match(r"type (\w+) struct", line):
            fields = structs[begun[1]] = {}
        elif field := re.match(r'\t\w+\s+(\S+)\s+`json:"([^",]+)(,omitempty)?"`', line):
            fields[field[2]] = field[1], not field[3]
        elif value := re.match(r'\t\w+ (\w+) = "(.*)"$', line):
            enumerations.setdefault(value[1], set()).add(value[2])
    return structs, enumerations


class Checker:
    def __init__(self, text):
        self.structs, self.enumerations = published(text)

    def value(self, value, kind, path):
        """A value is of a type of the structure."""
        kind = kind.lstrip("*")
        if kind.startswith("[]"):
            need(isinstance(value, list), path, "no array")
            for i, item in enumerate(value):
                self.value(item, kind[2:], f"{path}[{i}]")
        elif kind.startswith("map["):
            need(isinstance(value, dict), path, "no object")
            for key, item in value.items():
                self.value(item, kind.split("]", 1)[1], f"{path}.{key}")
        elif kind in SIMPLE:
            need(isinstance(value, SIMPLE[kind]) and (kind == "bool") == isinstance(value, bool), path, f"no {kind}")
        elif kind in self.enumerations:
            need(value in self.enumerations[kind], path, f"{value!r} is not one of {sorted(self.enumerations[kind])}")
        elif kind == "PropertyBag":
            need(isinstance(value, dict), path, "no object")
        else:
            self.object(value, kind, path)

    def object(self, value, kind, path):
        need(kind in self.structs, path, f"the type {kind} is not known")
        need(isinstance(value, dict), path, "no object")
        fields = self.structs[kind]
        for key, item in value.items():
            need(key in fields, path, f"{kind} has no property {key}")
            self.value(item, fields[key][0], f"{path}.{key}")
            need(key not in LEAST or not isinstance(item, int) or item >= LEAST[key], f"{path}.{key}", f"{item} is under {LEAST.get(key)}")
            need(key not in NOT_EMPTY or item, f"{path}.{key}", "empty")
            need(key not in UNIQUE or all(item.index(x) == i for i, x in enumerate(item)), f"{path}.{key}", "not unique")
        for key, (_, must) in fields.items():
            need(not must or key in value, path, f"no {key}")
        if own := getattr(self, kind, None):
            own(value, path)

    # what the standard's text says of single objects

    def Sarif(self, log, path):
        need(log.get("$schema", "").endswith("sarif-schema-2.1.0.json"), path, "no $schema of 2.1.0")

    def Message(self, message, path):
        need("text" in message or "id" in message, path, "neither text nor id")
        rest = message.get("text", "").replace("{{", "").replace("}}", "")
        need("{" not in rest and "}" not in rest, path, "a single brace")

    def ArtifactLocation(self, location, path):
        need("uri" in location or "index" in location, path, "neither uri nor index")
        need(URI.fullmatch(location.get("uri", "x")), path, f"{location.get('uri')!r} is no URI")

    def Region(self, region, path):
        need("startLine" in region, path, "no startLine")
        last = region.get("endLine", region["startLine"])
        need(last >= region["startLine"], path, "ends before its line")
        need(last > region["startLine"] or region.get("endColumn", 1 << 32) >= region.get("startColumn", 1), path, "ends before it starts")

    def Result(self, result, path):
        need((result.get("kind", "fail") == "fail") == (result.get("level", "warning") != "none"), path, "kind and level differ")
        ids = [location.get("id") for location in result.get("relatedLocations", [])]
        need(len(set(ids)) == len(ids), path, "two related locations have one id")

    def Run(self, run, path):
        rules = run["tool"]["driver"].get("rules", [])
        uris = [artifact["location"].get("uri") for artifact in run.get("artifacts", [])]
        need(len({rule["id"] for rule in rules}) == len(rules), path, "two rules have one id")
        for i, result in enumerate(run.get("results", [])):
            index = result.get("ruleIndex", -1)
            need(index < len(rules), f"{path}.results[{i}]", f"no rule {index}")
            need(index < 0 or rules[index]["id"] == result.get("ruleId"), f"{path}.results[{i}]", "ruleId and ruleIndex differ")
            for location in artifact_locations(result):
                index = location.get("index", -1)
                need(index < len(uris), f"{path}.results[{i}]", f"no artifact {index}")
                need(index < 0 or uris[index] == location.get("uri"), f"{path}.results[{i}]", "uri and index differ")


def artifact_locations(value):
    """Every artifactLocation in a value."""
    if isinstance(value, list):
        for item in value:
            yield from artifact_locations(item)
    elif isinstance(value, dict):
        for key, item in value.items():
            if key == "artifactLocation":
                yield item
            else:
                yield from artifact_locations(item)


def main():
    try:
        with open(STRUCTURE) as file:
            checker = Checker(file.read())
    except OSError as error:
        print(f"sarif.py: {error}; Debian's package {PACKAGE} has it", file=sys.stderr)
        return 2
    status = 0
    for line in sys.stdin:
        try:
            checker.object(json.loads(line), "Sarif", "log")
            print("ok")
        except (Wrong, ValueError) as error:
            print(error)
            status = 1
    return status


sys.exit(main())

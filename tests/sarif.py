#!/usr/bin/env python3
"""Checks that standard input is a log of SARIF 2.1.0 with the properties that the standard and code scanning need.

usage: sarif.py RESULTS, where RESULTS is how many results there are
The status is 0 where nothing is missing and no property is there that the standard doesn't know; else a line tells
what."""

import json
import sys

# Of each object that is used here: the properties that it must have, and the others that are used.
OBJECTS = {
    "log": ("version runs", "$schema"),
    "run": ("tool results", "columnKind"),
    "tool": ("driver", ""),
    "driver": ("name", "version rules"),
    "rule": ("id", ""),
    "result": ("message ruleId level locations", "relatedLocations"),
    "message": ("text", ""),
    "location": ("physicalLocation", "message"),
    "physicalLocation": ("artifactLocation region", ""),
    "artifactLocation": ("uri", ""),
    "region": ("startLine startColumn", ""),
}


def read(kind, value):
    """The properties of an object of this kind, in the order of `OBJECTS`; it has to have those that it must."""
    must, may = (words.split() for words in OBJECTS[kind])
    missing, unknown = set(must) - set(value), set(value) - set(must) - set(may)
    if missing or unknown:
        sys.exit(f"{kind}: missing {sorted(missing)}, unknown {sorted(unknown)}")
    return value


def place(kind, value):
    """A location, which has a message where it is a related one."""
    value = read("location", value)
    if ("message" in value) != (kind == "related"):
        sys.exit(f"a {kind} location: {value}")
    if kind == "related":
        read("message", value["message"])
    physical = read("physicalLocation", value["physicalLocation"])
    uri = read("artifactLocation", physical["artifactLocation"])["uri"]
    region = read("region", physical["region"])
    if not uri.isascii() or ":" in uri or " " in uri or min(region.values()) < 1:
        sys.exit(f"a place: {value}")


log = read("log", json.load(sys.stdin))
[run] = log["runs"]
read("run", run)
driver = read("driver", read("tool", run["tool"])["driver"])
rules = [read("rule", rule)["id"] for rule in driver["rules"]]
if log["version"] != "2.1.0" or run["columnKind"] != "unicodeCodePoints" or len(set(rules)) != len(rules):
    sys.exit("the version, the columns or the rules")
for result in run["results"]:
    read("message", read("result", result)["message"])
    if result["ruleId"] not in rules or result["level"] not in ("error", "warning"):
        sys.exit(f"a rule or a level: {result}")
    for one in result["locations"]:
        place("first", one)
    for one in result.get("relatedLocations", []):
        place("related", one)
if len(run["results"]) != int(sys.argv[1]):
    sys.exit(f"{len(run['results'])} results")

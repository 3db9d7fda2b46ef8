"""Works out what the program `scenario_cases` must print for the scenarios of data/plans.txt.

The rules are those of the scenario format, written here a second time and without the program's code: the numbers of
the record, whether every form is one that is run, the steps of a frame, and the types that each system touches.

Usage: plans.py plans.txt
"""
import re
import sys
import tomllib

BUILT_IN = ["Disabled", "Prefab", "SceneTag"]
POINTS_BEFORE = ["BeginInitialization", "EndInitialization", "BeginSimulation"]
POINTS_AFTER = ["EndSimulation", "BeginPresentation"]
PLACING = {"group", "before", "after", "first", "last"}


def texts_of(system):
    """All texts of a system, each without the place that it writes."""
    for text in system.get("set", []):
        yield text.split("=", 1)[1]
    for text in system.get("enable", []):
        yield text.split("=", 1)[1]
    for command in system.get("command", []):
        yield command.get("when", "1")
        yield command.get("key", "chunk")
        yield command["do"]


def written_by(system):
    for text in system.get("set", []):
        yield text.split("=", 1)[0].split(".")[0].strip()
    for text in system.get("enable", []):
        yield text.split("=", 1)[0].strip()


def numbers(text, scenario):
    types = scenario.get("type", [])
    systems = scenario.get("system", [])
    spawns = scenario.get("spawn", [])
    placed = "group" in scenario or any(PLACING & set(system) for system in systems)
    unbuilt = any("command" in system for system in systems)
    runs = not unbuilt and all("do" in event for event in scenario.get("event", []))
    yield (f"frames={scenario['frames']} versions={scenario.get('first_system_version', 1)},"
           f"{scenario.get('first_entity_version', 1)}")
    yield (f"types={len(types) + len(BUILT_IN)} spawns={len(spawns)} groups={len(scenario.get('group', []))} "
           f"systems={len(systems)} events={len(scenario.get('event', []))}")
    yield f"placed={word(placed)} unbuilt={word(unbuilt)} runs={word(runs)}"
    if placed:
        yield "NotBuilt"
        return
    yield "events"
    for point in POINTS_BEFORE:
        yield f"play {point}"
    for system in systems:
        yield f"run {system['name']}"
    for point in POINTS_AFTER:
        yield f"play {point}"
    order = BUILT_IN + [info["name"] for info in types]
    enableable = {info["name"] for info in types if info.get("enableable", False)}
    for system in systems:
        reads = set(system.get("changed", []))
        for text in texts_of(system):
            reads |= set(re.findall(r"\b([A-Za-z_]\w*)\s*\.\s*[A-Za-z_]\w*", text))
            reads |= set(re.findall(r"\bon\s*\(\s*([A-Za-z_]\w*)\s*\)", text))
        writes = set(written_by(system))
        clauses = ("all", "any", "none", "disabled", "absent")
        names = {name for clause in clauses for name in system.get(clause, []) if name in enableable}
        listed = [",".join(name for name in order if name in found) for found in (reads, writes, names)]
        yield f"{system['name']} reads={listed[0]} writes={listed[1]} names={listed[2]}"


def word(truth):
    return "true" if truth else "false"


def main():
    with open(sys.argv[1], encoding="utf-8") as file:
        for text in file.read().split("----\n"):
            for line in numbers(text, tomllib.loads(text)):
                print(line)


main()

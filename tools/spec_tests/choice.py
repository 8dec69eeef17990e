"""Cases of the runner `fork_choice`: their steps as a record, the run of `beacon anchor` on their anchor, and their checks against its lines."""

import re
import subprocess
from importlib.machinery import SourceFileLoader
from importlib.util import module_from_spec, spec_from_loader
from pathlib import Path

import cases


def tool(name):
    """A tool of the folder `tools` as a module."""
    loader = SourceFileLoader(name, str(Path(__file__).resolve().parent.parent / name))
    module = module_from_spec(spec_from_loader(name, loader))
    loader.exec_module(module)
    return module


RECORD = tool("record")
PICTURE = tool("picture")

# What no line of a run shows.
UNSEEN = ("best_justified_checkpoint", "proposer_boost_root")

# Cases on the boost and on the checkpoints of the store, which this project has in a form of its own.
OWN = re.compile(r"proposer_boost|^ex_ante|^on_block_checkpoints$|^on_block_outside_safe_slots|^new_justified|^new_finalized")

# Where the genesis time and the slot stand in the bytes of a state, and the slot in those of a block.
TIME_IN_STATE, SLOT_IN_STATE, SLOT_IN_BLOCK = 0, 40, 0


class Plan:
    """The events of a case, and what is expected behind which of them."""

    def __init__(self, folder, config):
        state = (folder / "anchor_state.ssz").read_bytes()
        self.folder = folder
        self.genesis_time = RECORD.number(state, TIME_IN_STATE, 8, "anchor_state")
        self.time = self.genesis_time + RECORD.number(state, SLOT_IN_STATE, 8, "anchor_state") * int(cases.key_of(config, "SECONDS_PER_SLOT"))
        # A tick of the anchor's own time changes nothing, and gives a line that shows the head before the first step.
        self.events = [RECORD.tick(self.time, "the anchor")]
        self.times = [self.time]
        self.steps = [(0, "the anchor's tick", True)]
        self.checks = []
        self.slots = {}

    def push(self, kind, payload):
        """One event more, at the time of the last tick."""
        self.events.append((RECORD.KINDS[kind], payload))
        self.times.append(self.time)

    def take(self, place, step):
        """Takes a step of the case."""
        where = f"step {place}"
        valid = step.pop("valid", "true") == "true"
        if len(step) != 1:
            raise cases.Fault(f"{where}: it isn't one of tick, block, attestation and checks: {', '.join(step)}")
        ((word, value),) = step.items()
        if word == "checks":
            self.checks.append((len(self.events) - 1, where, value))
            return
        self.steps.append((len(self.events), f"{where}, {word}", valid))
        if word == "tick":
            self.time = int(value)
            self.push("tick", RECORD.tick(self.time, where)[1])
        elif word == "attestation":
            self.push("wire", self.payload(value))
        elif word == "block":
            block = self.payload(value)
            self.push("block", block)
            # An accepted block brings its own attestations.
            for vote in RECORD.carried_by(block, where) if valid else ():
                self.push("carried", vote)
        else:
            raise cases.Fault(f"{where}: {word} is no step of phase 0")

    def payload(self, name):
        """The bytes of a container of the case."""
        return RECORD.read(self.folder / f"{name}.ssz", "a step")


def shown(line):
    """A checkpoint of a line as a case writes it."""
    epoch, _, root = line.partition(":")
    return {"epoch": epoch, "root": root}


def in_words(value):
    """A value of a check, for a person."""
    return " ".join(f"{key} {part}" for key, part in value.items()) if isinstance(value, dict) else value


def differences(plan, lines):
    """What differs between a case and the lines of its run, in the order of the steps."""
    for index, where, valid in plan.steps:
        line = lines[index]
        if (line["refusal"] is None) != valid:
            said = "accepted" if line["refusal"] is None else f"refused {line['refusal']}"
            yield index, f"{where}: {said}, and must be {'accepted' if valid else 'refused'}"
    for index, where, checks in plan.checks:
        line = lines[index]
        seen = {
            "time": str(plan.times[index]),
            "genesis_time": str(plan.genesis_time),
            "head": {"slot": str(plan.slots.get(line["head"], "?")), "root": line["head"]},
            "justified_checkpoint": shown(line["justified"]),
            "justified_checkpoint_root": shown(line["justified"])["root"],
            "finalized_checkpoint": shown(line["finalized"]),
        }
        for key, wanted in checks.items():
            if key in UNSEEN:
                continue
            if key not in seen:
                raise cases.Fault(f"{where}: {key} is no check of phase 0")
            if seen[key] != wanted:
                yield index, f"{where}, {key}: {in_words(seen[key])}, and not {in_words(wanted)}"


def find_slots(plan, folder, lines):
    """Notes the slot of each root that was accepted; the head behind the first event is the anchor."""
    anchor = (folder / "anchor_block.ssz").read_bytes()
    plan.slots[lines[0]["head"]] = RECORD.number(anchor, SLOT_IN_BLOCK, 8, "anchor_block")
    for (kind, payload), line in zip(plan.events, lines):
        if kind == RECORD.KINDS["block"] and line["root"] is not None:
            plan.slots[line["root"]] = RECORD.number(payload, RECORD.SLOT_IN_BLOCK, 8, "a block")


def planned(case, config, folder):
    """The events of a case and what is expected of them. The unpacked containers stand in the folder."""
    plan = Plan(folder, config)
    for place, step in enumerate(cases.said(case.path / "steps.yaml")):
        plan.take(place, step)
    return plan


def run(case, program, config, folder):
    """Gives a case to `beacon anchor`: what becomes of it, and what is said of it."""
    cases.unpack(case, config, folder)
    try:
        plan = planned(case, config, folder)
        RECORD.write_record(folder / "record", plan.events)
    except (RECORD.Fault, ValueError, AttributeError, OSError) as error:
        raise cases.Fault(f"its steps make no record: {error}") from error
    words = [program, "anchor", config, folder / "anchor_state.ssz", folder / "anchor_block.ssz", folder / "record"]
    ran = subprocess.run(words, stdin=subprocess.DEVNULL, capture_output=True, text=True, timeout=600)
    lines = [PICTURE.LINE.match(line) for line in ran.stdout.splitlines()]
    if ran.returncode != 0 or len(lines) != len(plan.events) or None in lines:
        return "failed", f"status {ran.returncode}, {len(lines)} lines of {len(plan.events)}: {cases.last_line(ran.stderr)}"
    find_slots(plan, folder, lines)
    first = min(differences(plan, lines), default=None, key=lambda difference: difference[0])
    if first is None:
        return "passed", ""
    own = " (this project's boost and checkpoint updates are its own)" if OWN.search(case.case) else ""
    return "failed", f"{first[1]}{own}"

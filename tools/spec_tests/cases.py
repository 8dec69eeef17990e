"""Cases of the published tests: their files, which of them rest on a signature, and their way through the program `call_vectors`."""

import re
import subprocess
from pathlib import Path
from typing import NamedTuple

import snappy
import yaml

# Names of cases whose outcome rests on a signature, by runner and handler. This program has signatures off.
SIGNATURES = {
    ("operations", "attestation"): {"invalid_attestation_signature"},
    ("operations", "attester_slashing"): {
        "invalid_sig_1",
        "invalid_sig_2",
        "invalid_sig_1_and_2",
        "att1_bad_extra_index",
        "att1_bad_replaced_index",
        "att2_bad_extra_index",
        "att2_bad_replaced_index",
    },
    ("operations", "deposit"): {
        "invalid_sig_new_deposit",
        "invalid_sig_other_version",
        "key_validate_invalid_decompression",
        "key_validate_invalid_subgroup",
    },
    ("operations", "proposer_slashing"): {"invalid_sig_1", "invalid_sig_2", "invalid_sig_1_and_2", "invalid_sig_1_and_2_swap"},
    ("operations", "voluntary_exit"): {"invalid_signature"},
    ("sanity", "blocks"): {"zero_block_sig", "invalid_block_sig"},
}

LOADER = getattr(yaml, "CBaseLoader", yaml.BaseLoader)


class Fault(Exception):
    """What is wrong with a case's files, in one line for a person."""


class Case(NamedTuple):
    """A case: its name below `tests`, its folder, and the parts of the name."""

    name: str
    path: Path
    preset: str
    fork: str
    runner: str
    handler: str
    suite: str
    case: str


def rests_on_signature(case):
    """Why a case is left out, where its outcome rests on a signature."""
    if case.case in SIGNATURES.get((case.runner, case.handler), ()):
        return "its outcome rests on a signature, and signatures are off"
    return None


def unpacked(path):
    """The bytes of a file in snappy's raw block form."""
    try:
        return snappy.uncompress(path.read_bytes())
    except OSError as error:
        raise Fault(f"{path.name}: {error.strerror}") from error
    except Exception as error:
        raise Fault(f"{path.name}: it isn't in snappy's block form: {error}") from error


def said(path):
    """What a YAML file says. Numbers and truths stay words, since `0x00000001` is no number here."""
    try:
        return yaml.load(path.read_text(encoding="utf-8"), Loader=LOADER)
    except OSError as error:
        raise Fault(f"{path.name}: {error.strerror}") from error
    except yaml.YAMLError as error:
        raise Fault(f"{path.name}: it isn't YAML: {' '.join(str(error).split())}") from error


def key_of(config, key):
    """The value of a key of a configuration."""
    match = re.search(rf"^{key}:\s*(\S+)", config.read_text(encoding="utf-8"), re.MULTILINE)
    if match is None:
        raise Fault(f"{config.name}: {key} is missing")
    return match.group(1)


def given_of_genesis(case, config):
    """What a case of `genesis` is given beside its containers."""
    if case.handler == "validity":
        return {
            "is_valid": said(case.path / "is_valid.yaml"),
            "min_genesis_time": key_of(config, "MIN_GENESIS_TIME"),
            "min_genesis_active_validator_count": key_of(config, "MIN_GENESIS_ACTIVE_VALIDATOR_COUNT"),
        }
    eth1 = said(case.path / "eth1.yaml")
    return {
        "eth1_block_hash": eth1["eth1_block_hash"],
        "genesis_time": int(eth1["eth1_timestamp"]) + int(key_of(config, "GENESIS_DELAY")),
        "genesis_fork_version": key_of(config, "GENESIS_FORK_VERSION"),
        "deposits_count": said(case.path / "meta.yaml")["deposits_count"],
    }


def given_of(case, config):
    """What a case is given beside its containers, by keys."""
    if case.runner == "genesis":
        return given_of_genesis(case, config)
    if case.runner == "shuffling":
        mapping = said(case.path / "mapping.yaml")
        return {"seed": mapping["seed"], "count": mapping["count"], "mapping": " ".join(mapping["mapping"])}
    if case.runner == "ssz_static":
        return {"root": said(case.path / "roots.yaml")["root"]}
    if (case.runner, case.handler) == ("sanity", "slots"):
        return {"slots": said(case.path / "slots.yaml")}
    if case.runner in ("sanity", "finality", "random"):
        return {"blocks_count": said(case.path / "meta.yaml")["blocks_count"]}
    return {}


def unpack(case, config, folder):
    """Writes a case as `call_vectors` takes it: containers as `NAME.ssz`, all else as lines of the file `given`."""
    for path in case.path.glob("*.ssz_snappy"):
        (folder / f"{path.name.removesuffix('.ssz_snappy')}.ssz").write_bytes(unpacked(path))
    try:
        given = given_of(case, config)
    except (KeyError, TypeError, ValueError) as error:
        raise Fault(f"its YAML files don't say what is wanted: {error}") from error
    (folder / "given").write_text("".join(f"{key} {value}\n" for key, value in given.items()), encoding="utf-8")


def last_line(text):
    """The last line of a text."""
    lines = text.strip().splitlines()
    return lines[-1] if lines else "nothing is said"


def run(case, program, config, folder):
    """Gives a case to the program `call_vectors`: what becomes of it, and what is said of it."""
    unpack(case, config, folder)
    words = [program, config, case.runner, case.handler, folder]
    try:
        ran = subprocess.run(words, stdin=subprocess.DEVNULL, capture_output=True, text=True, timeout=600)
    except subprocess.TimeoutExpired:
        return "failed", "no answer in 600 seconds"
    outcome, _, rest = ran.stdout.strip().partition(": ")
    if ran.returncode != 0 or outcome not in ("passed", "failed", "outside"):
        return "failed", f"status {ran.returncode}: {last_line(ran.stderr)}"
    return ("left out" if outcome == "outside" else outcome), rest

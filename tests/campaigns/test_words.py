"""Wrong arguments of the commands of conformance/ (wrong_words.tsv), each of which one sentence answers."""

import json
import shutil
from pathlib import Path

import pytest

from lib import TOP
from lib.campaigns import SOURCES, campaign
from lib.processes import run

ADD = '{"name":"ADD-0","word":"00000020","text":"","before":{},"after":{"pc":"004","npc":"008"}}\n'
# The files in FOLDER.
FILES = {
    "file": "",
    "state/steps/ADD.jsonl": ADD.replace('"before":{}', '"before":{"r1":"\\u001b[1mz"}'),
    "alone/steps/ADD.jsonl": ADD,
    "empty/steps/ADD.jsonl": ADD,
    "empty/programs/ADD.json": '{"programs": []}',
    "blank/steps/ADD.jsonl": "",
    "full/x": "",
    "text.so": "no object",
    "half/campaign.json": json.dumps({"generator": 2}),
}
WRONG = [line.split("\t") for line in (SOURCES / "wrong_words.tsv").read_text().splitlines()[1:]]
OF_CAMPAIGNS = [pair for pair in WRONG if pair[0].startswith("campaign")]
OTHERS = [pair for pair in WRONG if pair not in OF_CAMPAIGNS]


@pytest.fixture
def files(folder: Path) -> Path:
    for name, text in FILES.items():
        (folder / name).parent.mkdir(exist_ok=True, parents=True)
        (folder / name).write_text(text)
    return folder


@pytest.mark.parametrize("words, sentence", OTHERS, ids=[pair[0] for pair in OTHERS])
def test_vectors(words: str, sentence: str, files: Path, program: Path, library: Path) -> None:
    paths = {"FOLDER": files, "PROG": program, "VECTORS": TOP / "conformance/vectors"}
    tool, *arguments = words.split()
    for name, path in paths.items():
        arguments = [argument.replace(name, str(path)) for argument in arguments]
    ended = run(TOP / "conformance" / tool, *arguments, cwd=files)
    assert (ended.returncode, ended.stdout.count("\n")) == (1, 1), ended.stdout
    assert sentence in ended.stdout
    assert not (files / "VADD").exists()


@pytest.mark.parametrize("tool", ["generate", "run"])
def test_no_program(tool: str, folder: Path) -> None:
    """In a repository without its assembly they show why there is no program, and say so in a line."""
    for name in "conformance/rsp_conformance", "library/python", "tools":
        shutil.copytree(TOP / name, folder / name, ignore=shutil.ignore_patterns("out", "__pycache__"))
    for name in "rsp", f"conformance/{tool}", "conformance/steps.py", "conformance/programs.py":
        shutil.copy(TOP / name, folder / name)
    (folder / "conformance/vectors").symlink_to(TOP / "conformance/vectors")
    (folder / "compiled").mkdir()
    words = ["--cases", 2, folder / "new"] if tool == "generate" else []
    ended = run(folder / "conformance" / tool, *words, cwd=folder, env={"PATH": "/usr/bin:/bin"})
    why, sentence, _ = ended.stdout.split("\n")
    assert ended.returncode == 1 and "compiled/ has no assembly" in why
    assert sentence.startswith(f"{tool}: {folder}/rsp isn't built, or doesn't begin: ")


@pytest.mark.needs("cc", "python:numpy")
@pytest.mark.parametrize("words, sentence", OF_CAMPAIGNS, ids=[pair[0] for pair in OF_CAMPAIGNS])
def test_campaign(words: str, sentence: str, files: Path, library: Path) -> None:
    more = [] if "--instructions" in words else ["--instructions", "vadd"]
    replaced = {"ITSELF": "python:emulator:Machine", "OUT": f"{files}/new", "FOLDER": str(files)}
    for name, text in replaced.items():
        words = words.replace(name, text)
    arguments = ["" if word == "NOTHING" else word for word in words.split()[1:]]
    ended = campaign(*arguments, *more)
    assert ended.returncode == 2 and "Traceback" not in ended.stderr, ended.stderr
    assert sentence in ended.stderr.strip().split("\n")[-1]

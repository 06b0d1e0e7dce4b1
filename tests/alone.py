"""A copy of a crate in which some functions stand alone: all others have lost their bodies, and with these their proofs.

The prover takes a call by the contract of what is called, proved or not. So a function is proved there, or refused, as it
is in the crate, and what it costs is that function alone, not all that it calls."""

import glob
import os
import re
import shutil

from kit import write

PROOF_FILES = ("Answers.antt", "Invariants.antt", "Proof.antt")
# (not a `const fn`, whose answer a constant may need)
HEAD = re.compile(r"( *)(?:pub(?:\([^)]*\))? )?(?:unsafe )?(?:extern \"C\" )?fn (\w+)")
# ends the line before a body, whose brace stands alone behind a contract
OPENS = re.compile(r"(?! *(?:ensures|requires|ghost)\b).* \{$")
# what the prover makes of a function's body and proof, as another file of proofs would name it
MADE = re.compile(r"\bproofs\.[\w.]*?\+?(\w+)\.(?:Answers|Code|Given|Goals|Invariants|Met|Proof)\b")


def text_of(path):
    with open(path, encoding="utf-8") as it:
        return it.read()


def body_of(lines, at, indent):
    """Before which line the body of the function ends that begins at a line, and at which it begins, if it has lines."""
    for begin in range(at, len(lines)):
        if lines[begin] == f"{indent}{{" or OPENS.match(lines[begin]):
            return begin + 1, lines.index(f"{indent}}}", begin)
        if lines[begin].endswith((";", "{}")):
            return None
    return None


def without_bodies(text, names):
    """The text of a file, in which functions with other names do nothing. What is left stands in the lines where it stood."""
    lines, at = text.split("\n"), 0
    while at < len(lines):
        head = HEAD.match(lines[at])
        body = head and head[2] not in names and body_of(lines, at, head[1])
        if body:
            begin, end = body
            lines[begin:end] = ["unreachable!()"] + [""] * (end - begin - 1)
            if "#[tactic(" in lines[at - 1]:
                lines[at - 1] = ""
            lines[at] = f"#[tactic(none)] {lines[at]}"
            at = end
        at += 1
    return "\n".join(lines)


def rests_on_others(folder, names):
    """Whether what proves the functions of these names rests on the body or the proof of another: whether a file of proofs
    that is left, or an attribute, names one, or they are in a cycle of calls, which has one proof."""
    sources = "".join(map(text_of, glob.glob(f"{folder}/src/**/*.rt", recursive=True)))
    texts = [sources.replace("::", ".")]
    for at, _, files in os.walk(f"{folder}/proofs"):
        is_own = os.path.basename(at).lstrip("+") in names
        texts += [text_of(f"{at}/{file}") for file in files if is_own or file not in PROOF_FILES]
    named = {it for text in texts for it in MADE.findall(text)}
    return bool(named - names) or "#[cycle(" in sources


def leave_alone(folder, names, parts, texts, to):
    """Copies these parts of a crate's folder, with texts in place of some of its own, so that the functions of these
    names stand alone."""
    for part in parts:
        if os.path.isdir(f"{folder}/{part}"):
            shutil.copytree(f"{folder}/{part}", f"{to}/{part}")
    for path, text in texts.items():
        write(f"{to}/{path}", text)
    for path in glob.glob(f"{to}/src/**/*.rt", recursive=True):
        write(path, without_bodies(text_of(path), names))
    for at, _, files in os.walk(f"{to}/proofs"):
        if os.path.basename(at).lstrip("+") not in names:
            for file in {*files} & {*PROOF_FILES}:
                os.remove(f"{at}/{file}")

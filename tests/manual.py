"""That the manual, the man page and the completions tell all that the program knows, and no more.

What there is to tell is read where the program declares it: commands and options in the crate
`command_words`, refusals in `answer_lines`. A word that is declared and answered `usage` isn't
there yet, and nothing may tell of it.
"""

import functools
import os
import re
import shutil
import subprocess

from harness import Failure, Skipped, same

TOP = os.path.join(os.path.dirname(os.path.abspath(__file__)), "..")
WORDS = "crates/command_words/src"
EXAMPLES = os.path.join(TOP, "examples")
MANUAL = "docs/COMMANDS.md"
README = "README.md"
MAN_PAGE = "man/mod_deployer.1"
BASH = "completions/mod_deployer.bash"
ZSH = "completions/_mod_deployer"
FISH = "completions/mod_deployer.fish"

# Where each file tells of a command, and where of an option; a `\-` of the man page is read as `-`.
COMMANDS_TOLD = {
    MANUAL: [r"^### ([a-z-]+)$", r"^\| \[`([a-z-]+)[^`-]*`\]"],
    MAN_PAGE: [r"^\.TP\n\.B[IR]? ([a-z][a-z-]*)"],
    BASH: [r'^ +commands\+=" ([a-z-]+)"$'],
    ZSH: [r"^ +'([a-z-]+):[^:']*'$"],
    FISH: [r"^complete .* -n \$first -a ([a-z-]+) -d "],
}
OPTIONS_TOLD = {
    MANUAL: [r"^\| `[A-Z]\w+` \| `--([a-z-]+)` \||^### settle --([a-z-]+)$"],
    MAN_PAGE: [r"^\.TP\n\.BI? --([a-z-]+)"],
    BASH: [r'^ +options\+=" --([a-z-]+)"$'],
    ZSH: [r"^ +'--([a-z-]+)[=\[]"],
    FISH: [r"^complete .* -l ([a-z-]+) -"],
}

# What programs answered about options.
_VALUES = {}

# What may stand after the first word of a command.
FORMS = [[], ["a"], ["x", "a"], ["a", "after", "b"], ["a", "1.0.0"], ["1"]]


def each_command_is_told_everywhere(world):
    declared = _declared_commands()
    there = [word for word in declared if any(_is_there(world, word, *rest) for rest in FORMS)]
    _told_everywhere(COMMANDS_TOLD, there)


def each_option_is_told_everywhere(world):
    there = [option for option in _declared_options() if _values_of(world, option) is not None]
    _told_everywhere(OPTIONS_TOLD, there)


def each_kind_and_action_is_told(world):
    kinds = [kind for kind in _declared("RuleKind") if _is_there(world, "rule", "a", kind, "b")]
    actions = {value for option in _declared_options() for value in _values_of(world, option) or []}
    for path in COMMANDS_TOLD:
        for word in [*kinds, *sorted(actions)]:
            if not re.search(rf"(?<![\w-]){word}(?![\w-])", _read(path)):
                raise Failure(f"{path} doesn't tell of {word}")


# A new declaration that these checks wouldn't see fails here.
def each_quoted_word_of_the_crate_is_known(_world):
    known = {"words", "true", "false", *_declared_commands(), *_declared_options()}
    known |= {*_declared("RuleKind"), *_actions()}
    same("words that no check knows", sorted(set(_quoted(WORDS)) - known), [])


def each_refusal_is_told(_world):
    source = _read("crates/answer_lines/src/rows.rt")
    declared = re.findall(r'row\(\s*(\d+),\s*"(\w+)"', source)
    same("the numbers", sorted(int(number) for number, _ in declared), list(range(1, 63)))
    told = re.findall(r"^\| (\d+) (\w+) \|", _read(MANUAL), re.MULTILINE)
    same(f"the refusals of {MANUAL}", _by_number(told), _by_number(declared))
    told = re.findall(r"\b(\d+)\s+([A-Z]\w+)", _read(MAN_PAGE))
    same(f"the refusals that {MAN_PAGE} doesn't tell", sorted(set(declared) - set(told)), [])


def each_status_is_told(_world):
    source = _read("crates/deploy_engine/src/answer.rt")
    declared = re.findall(r"Answer::\w+(?:\(_\))? => (\d)", source)
    told = re.findall(r"^\| (\d) \|", _read(MANUAL), re.MULTILINE)
    same(f"the statuses of {MANUAL}", told, declared)
    told = re.findall(r"^\.TP\n\.B (\d)$", _read(MAN_PAGE), re.MULTILINE)
    same(f"the statuses of {MAN_PAGE}", told, declared)


def examples_print_what_the_documents_say(world):
    folder = world.folder("bin").path("bin")
    os.symlink(world.program, os.path.join(folder, "mod_deployer"))
    blocks = [*_examples(MANUAL), *_examples(README)]
    if not blocks:
        raise Failure(f"{MANUAL} has no examples")
    for number, (where, commands) in enumerate(blocks):
        place = world.path(str(number))
        shutil.copytree(EXAMPLES, place)
        for command, printed in commands:
            same(f"{where}, `{command}`", _typed(command, place, folder), printed)


def each_link_within_the_manual_leads_to_a_heading(_world):
    text = _read(MANUAL)
    headings = re.findall(r"^#+ (.*)$", text, re.MULTILINE)
    anchors = {re.sub(r"[^\w -]", "", text.lower()).replace(" ", "-") for text in headings}
    for target in re.findall(r"\]\(#([^)]*)\)", text):
        if target not in anchors:
            raise Failure(f"{MANUAL} has no heading for #{target}")


def the_man_page_renders_without_warnings(_world):
    done = _run_with("groff", ["-man", "-Tutf8", "-P-cbou", "-ww", os.path.join(TOP, MAN_PAGE)])
    same("the warnings", done.stderr.decode(), "")
    for word in ["NAME", "SYNOPSIS", "COMMANDS", "EXIT STATUS", "REFUSALS", "FILES"]:
        if word.encode() not in done.stdout:
            raise Failure(f"there is no section {word}")


def bash_completes_each_word(world):
    _named_mods(world)
    offered = functools.partial(_bash_offers, world)
    same("commands", offered(""), _told_in(BASH, COMMANDS_TOLD))
    same("commands with dr", offered("dr"), [w for w in offered("") if w.startswith("dr")])
    same("mods", offered("enable", ""), ["Old Sky", "a"])
    same("a mod in quotes", offered("disable", '"Ol'), ["Old Sky"])
    same("a mod with a backslash", offered("disable", "Old\\ S"), ["Old Sky"])
    same("paths", offered("override", ""), ["d/", "x.txt"])
    same("paths below a folder", offered("override", "d/"), ["d/y.txt"])
    same("kinds", offered("rule", "a", ""), _declared("RuleKind"))
    same("options", offered("settle", "--"), [f"--{o}" for o in _told_in(BASH, OPTIONS_TOLD)])
    for option in offered("settle", ""):
        values = _values_of(world, option[2:])
        if values:
            same(f"actions of {option}", sorted(offered("settle", option, "")), sorted(values))
            parted = offered("settle", option, "=", values[0][:2])
            same(f"actions of {option}=", parted, values[:1])


def fish_completes_each_word(world):
    _named_mods(world)
    offered = functools.partial(_fish_offers, world)
    same("commands", offered(""), sorted(_told_in(FISH, COMMANDS_TOLD)))
    same("mods", offered("enable "), ["Old Sky", "a"])
    same("paths", offered("override "), ["d/", "x.txt"])
    same("paths below a folder", offered("override d/"), ["d/y.txt"])
    same("kinds", offered("rule a "), sorted(_declared("RuleKind")))
    same("options", offered("settle --"), [f"--{o}" for o in sorted(_told_in(FISH, OPTIONS_TOLD))])
    for option in offered("settle --"):
        values = _values_of(world, option[2:])
        if values:
            same(f"actions of {option}", offered(f"settle {option} "), sorted(values))


def zsh_reads_its_completion(_world):
    done = _run_with("zsh", ["-n", os.path.join(TOP, ZSH)])
    same("what zsh says", done.stderr.decode(), "")
    same("its first line", _read(ZSH).splitlines()[0], "#compdef mod_deployer")


# What is declared.


def _declared_commands():
    return _declared("FirstWord")


def _declared_options():
    found = []
    for name in sorted(os.listdir(os.path.join(TOP, WORDS))):
        for pair in re.findall(
            r'\.long\("([a-z-]+)"\)|\boption\(\s*alloc,\s*"([a-z-]+)"', _read(f"{WORDS}/{name}")
        ):
            found += [word for word in pair if word]
    if not found:
        raise Failure("no option is declared")
    return found


# The words of an enum's values, by the function that reads them.
def _declared(enum):
    found = []
    for name in sorted(os.listdir(os.path.join(TOP, WORDS))):
        found += re.findall(rf'"([a-z-]+)" => Some\({enum}::', _read(f"{WORDS}/{name}"))
    if not found:
        raise Failure(f"no word of {enum} is declared")
    return found


def _actions():
    source = _read("crates/change_choices/src/action.rt")
    return re.findall(r'"([a-z-]+)" => Some\(Action::', source)


def _quoted(folder):
    for name in sorted(os.listdir(os.path.join(TOP, folder))):
        source = re.sub(r"//.*", "", _read(f"{folder}/{name}"))
        yield from re.findall(r'"([a-z][a-z-]*)"', source)


# What is there.


def _is_there(world, *words):
    return world.run(*words).printed != b"usage\n"


# The values that some command takes for the option: none where it is a flag; None where it isn't
# there at all. Each program is asked once.
def _values_of(world, option):
    key = (world.program, option)
    if key not in _VALUES:
        _VALUES[key] = _asked_values(world, option)
    return _VALUES[key]


def _asked_values(world, option):
    for command in _declared_commands():
        values = [v for v in _actions() if _is_there(world, command, f"--{option}", v)]
        if values or _is_there(world, command, f"--{option}"):
            return values
    return None


# What is told.


def _told_everywhere(patterns, there):
    for path in patterns:
        for pattern in patterns[path]:
            told = _found(path, pattern)
            missing = sorted(set(there) - set(told))
            more = sorted(set(told) - set(there))
            if missing:
                raise Failure(f"{path} doesn't tell of {', '.join(missing)} ({pattern})")
            if more:
                raise Failure(f"{path} tells of {', '.join(more)}, answered usage ({pattern})")


def _told_in(path, patterns):
    return _found(path, patterns[path][0])


def _found(path, pattern):
    matches = re.finditer(pattern, _read(path), re.MULTILINE)
    return [word for match in matches for word in match.groups() if word]


def _by_number(rows):
    return sorted((int(number), name) for number, name in rows)


# A document's blocks with a `$`: where each stands, and its commands with what they print.
def _examples(document):
    blocks = []
    text = _read(document)
    for match in re.finditer(r"^```console\n(.*?)^```$", text, re.MULTILINE | re.DOTALL):
        line = text.count("\n", 0, match.start()) + 1
        parts = re.split(r"^\$ ", match.group(1), flags=re.MULTILINE)[1:]
        commands = [tuple(part.split("\n", 1)) for part in parts]
        blocks.append((f"{document}, line {line}", commands))
    return blocks


def _typed(command, place, folder):
    done = subprocess.run(
        ["bash", "-c", command],
        cwd=place,
        env=dict(os.environ, PATH=f"{folder}:{os.environ['PATH']}", LC_ALL="C.UTF-8"),
        stdin=subprocess.DEVNULL,
        stdout=subprocess.PIPE,
        stderr=subprocess.STDOUT,
        timeout=120,
        check=False,
    )
    return done.stdout.decode()


# What shells offer.


def _named_mods(world):
    world.roots().file("stage/a/x.txt", "A").file("stage/Old Sky/d/y.txt", "S")


def _bash_offers(world, *words):
    script = (
        'source "$1"; shift; COMP_WORDS=(mod_deployer "$@"); COMP_CWORD=$#; _mod_deployer; '
        'for word in "${COMPREPLY[@]}"; do printf "%s\\n" "$word"; done'
    )
    path = os.path.join(TOP, BASH)
    done = _run_with("bash", ["--norc", "-c", script, "bash", path, *words], world.base)
    same("standard error of bash", done.stderr, b"")
    return done.stdout.decode().splitlines()


def _fish_offers(world, line):
    script = f'source "{os.path.join(TOP, FISH)}"; complete -C "mod_deployer {line}"'
    done = _run_with("fish", ["--no-config", "-c", script], world.base)
    same("standard error of fish", done.stderr, b"")
    return sorted(offer.split("\t")[0] for offer in done.stdout.decode().splitlines())


def _run_with(program, words, folder=None):
    if not shutil.which(program):
        raise Skipped(f"{program} isn't installed")
    return subprocess.run([program, *words], cwd=folder, capture_output=True, check=False)


def _read(path):
    with open(os.path.join(TOP, path), encoding="utf-8") as file:
        text = file.read()
    return text.replace("\\-", "-") if path == MAN_PAGE else text

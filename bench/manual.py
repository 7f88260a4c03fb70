"""The manual page and the bash completion of `ssb_live`, made of what its help says, for `package`."""
import dataclasses
import re
import subprocess

# The texts that are packed beside the program, and what each is about.
DOCUMENTS = {"README.md": "What the program is, and what of it is proved.",
             "SERVING.md": "How to serve clients, at a terminal or over pipes, and what a journal keeps.",
             "FORMATS.md": "All that is read and written, and the status with which the program ends.",
             "FAULTS.md": "Every error, by its number.",
             "LIMITS.md": "What fits on one machine, and what it takes.",
             "RELIABILITY.md": "What is there after a crash, and how that is tested.",
             "PYTHON.md": "The client for Python, ssb_live.py."}
SERVICE_FILES = ["  /var/lib/ssb_live/tables     the five tables", "  /var/lib/ssb_live/journal    the commits",
                 "  /var/lib/ssb_live/store      the store, where the service has one in their place",
                 "  /run/ssb_live                the pipes in-1 and out-1 to in-4 and out-4, and figures.prom"]
TOOL_FILES = ["  /usr/share/ssb-live/board            a live page of reports; --help tells more",
              "  /usr/share/ssb-live/example.board    reports for it",
              "  /usr/share/ssb-live/link.py          the link to a second server; --help tells more",
              "  /usr/share/ssb-live/ssb_live.words   for rlwrap -f: words that Tab completes"]
WORD = re.compile(r" +(?:-\w, )?--([a-z]+(?:-[a-z]+)*)((?: <\w+>)*)")


@dataclasses.dataclass(frozen=True)
class Help:
    """What `--help` shows: the text, the line of use, and what stands under `Arguments:` and `Options:`."""

    text: list
    usage: str
    parts: dict

    def words(self):
        """Each --word, with the names of its values."""
        found = (WORD.match(line) for line in self.parts.get("Options", []))
        return {word[1]: re.findall(r"\w+", word[2]) for word in found if word}


def help_of(program, *words):
    told = subprocess.check_output([program, *words, "--help"], text=True)
    text, usage, rest = re.fullmatch(r"(.*?)\n\nUsage: ([^\n]*)\n(.*)", told, re.S).groups()
    parts, name = {}, None
    for line in rest.rstrip("\n").split("\n"):
        if re.fullmatch(r"\w+:", line):
            name = line[:-1]
            parts[name] = []
        elif name:
            parts[name].append(line.rstrip())
    return Help(text.split("\n"), usage, parts)


def helps_of(program):
    """The help of the program, and that of each of its commands."""
    whole = help_of(program)
    names = [line.split()[0] for line in whole.parts["Commands"] if line.strip()]
    return whole, {name: help_of(program, name) for name in names if name != "help"}


# ---- the manual page ----

def escaped(line):
    """A line as roff takes it."""
    line = line.replace("\\", "\\e").replace("-", "\\-")
    return f"\\&{line}" if line.startswith((".", "'")) else line


def paragraphs(lines):
    """A text: what is set in stands as it is, the rest flows."""
    made, is_set_in = [], False
    for line in lines:
        if line.startswith(" ") != is_set_in and line:
            made.append(".fi" if is_set_in else ".nf")
            is_set_in = not is_set_in
        made.append(escaped(line) if line else ".PP" if not is_set_in else "")
    return made + [".fi"] * is_set_in


def entries(lines):
    """Arguments or options, each with what is said of it."""
    made = []
    for line in lines:
        option = re.match(r" {2,6}(?=[-<\[])(.*)", line)
        if option:
            head, _, said = option[1].partition("  ")
            made += [".TP", f".B {escaped(head)}", *([escaped(said.strip())] if said.strip() else [])]
        elif line.strip():
            made.append(escaped(line.strip()))
    return made


def manual(made):
    """The page of a program that is packed, in roff."""
    whole, commands = helps_of(made.path)
    about = " ".join(whole.text)
    lines = [f'.TH SSB_LIVE 1 {made.date} "ssb_live {made.version}" "User Commands"', ".SH NAME",
             f"ssb_live \\- {escaped(about.split('. ')[0])}", ".SH SYNOPSIS", ".nf", "ssb_live"]
    lines += [f"{escaped(one.usage)}" for one in commands.values()]
    lines += [".fi", ".SH DESCRIPTION", *paragraphs(whole.text), ".PP", *paragraphs([made.said()])]
    for name, one in commands.items():
        lines += [f".SH COMMAND {name.upper()}", *paragraphs(one.text), ".PP", f".B {escaped(one.usage)}"]
        for part in ("Arguments", "Options"):
            lines += entries(one.parts.get(part, []))
    lines += [".SH FILES", *paragraphs(["Of the service ssb_live:", "", *SERVICE_FILES]),
              *paragraphs(["Tools in Python, tested and not proved:", "", *TOOL_FILES]), ".SH SEE ALSO"]
    for name, has in DOCUMENTS.items():
        lines += [".TP", escaped(f"/usr/share/doc/{made.name}/{name}"), has]
    return "".join(f"{line}\n" for line in lines)


# ---- the completion ----

COMPLETION = """\
# bash completion of ssb_live, made of its help
_ssb_live() {{
    local word=${{COMP_WORDS[COMP_CWORD]}} before=${{COMP_WORDS[COMP_CWORD-1]}} words= files=
    if (( COMP_CWORD == 1 )); then
        words="{commands} --help --version"
    else
        case ${{COMP_WORDS[COMP_CWORD-2]}} in
            {pairs}) before=${{COMP_WORDS[COMP_CWORD-2]}};;
        esac
        case $before in
{values}
            *) case ${{COMP_WORDS[1]}} in
{words}
            esac;;
        esac
    fi
    if [[ $files ]]; then
        local IFS=$'\\n'
        compopt -o filenames
        COMPREPLY=($(compgen "$files" -- "$word"))
    else
        COMPREPLY=($(compgen -W "$words" -- "$word"))
    fi
}}
complete -F _ssb_live ssb_live
"""
# What a value is, by the name that the help gives it.
FOLDERS, FILES = {"DIR", "FOLDER"}, {"FILE", "IN", "OUT", "SCRIPT", "TRACE"}


def completed_by(values, choices):
    """What bash does for a value: it knows folders, files, and the values that the help lists; else nothing."""
    kind = "-d" if FOLDERS & set(values) else "-f" if FILES & set(values) else ""
    return f"files={kind}" if kind else f'words="{" ".join(choices)}"'


def choices_of(one):
    """The possible values of each word of a command, where its help lists them."""
    found, word = {}, None
    for line in one.parts.get("Options", []):
        head, listed = WORD.match(line), re.search(r"\[possible values: ([^\]]*)\]", line)
        word = head[1] if head else word
        if listed:
            found[word] = listed[1].split(", ")
    return found


def completion(program):
    """The script: commands, their words, what stands behind these, the names of queries."""
    _, commands = helps_of(program)
    names = re.search(r"The queries are (.*?)\.\s", " ".join(commands["query"].text))[1]
    queries, values, words, pairs = re.findall(r"Q\d\.\d|star", names), {}, [], []
    for name, one in commands.items():
        choices, takes = choices_of(one), one.words()
        for word, valued in takes.items():
            if valued:
                values.setdefault(f"--{word}", completed_by(valued, choices.get(word, [])))
            if len(valued) == 2:
                pairs.append(f"--{word}")
        listed = [f"--{word}" for word in takes] + queries * (name == "query")
        behind = " ".join(one.parts.get("Arguments", []))
        files = "; [[ $word == -* ]] || files=-f" if FILES & set(re.findall(r"[A-Z]+", behind)) else ""
        words.append(f'                {name}) words="{" ".join(listed)}"{files};;')
    return COMPLETION.format(commands=" ".join([*commands, "help"]), words="\n".join(words), pairs="|".join(pairs),
                             values="\n".join(f"            {word}) {how};;" for word, how in values.items()))

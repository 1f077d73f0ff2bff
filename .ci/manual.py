"""Manual pages and completions of `cm1` and `cm1lab`, made from what stands elsewhere: the words of `cm1` in docs/FORMATS.md, 'The
command line', and what `cm1lab --help` tells. `.ci/package` puts them into what is handed out."""
import re

CM1 = {                                             # what each command does, in a line with its words
    "chip": "runs instructions on one blank chip",
    "list": "tells the acts of a program",
    "fresh": "makes a blank machine of 2^N chips",
    "run": "answers the commands of a session",
    "weave": "steps an exchange between blocks",
}
OPTIONAL = ("STEPS",)
DOCUMENTS = "/usr/share/doc/linthofer"
EXAMPLE = """\
cd $(mktemp -d)
cp DOCUMENTS/examples/sum/* .
cm1 fresh 2 7 sum.image
cm1 run sum.image program.txt < commands.txt""".replace("DOCUMENTS", DOCUMENTS)


class Wrong(Exception):
    """What a page is made from is not as it has to be."""


def section(document, title):
    """The paragraphs below a title, without what stands in brackets at their ends and names definitions."""
    found = re.search(rf"^## {re.escape(title)}\n(.*?)(?=^## |\Z)", document, re.M | re.S)
    if not found:
        raise Wrong(f"no section {title!r}")
    return [re.sub(r"\s*\(`[^()]*\)$", "", it) for it in found[1].strip().split("\n\n")]


def sentence(document, begin):
    """The first sentence of a document that begins so."""
    found = re.search(rf"{re.escape(begin)}.*?\.(?=\s)", document, re.S)
    if not found:
        raise Wrong(f"no sentence that begins with {begin!r}")
    return found[0]


def own_forms(formats):
    """The words of each command of `cm1`, with those in brackets that may be left out."""
    quoted = [" ".join(it.split()) for it in re.findall(r"`([^`]+)`", section(formats, "The command line")[0])]
    forms = {it.split()[0]: it for it in reversed(quoted) if it.split()[0] in CM1}
    if forms.keys() != CM1.keys():
        raise Wrong(f"FORMATS, 'The command line', has not the forms of {', '.join(CM1)}")
    return [optional_in_brackets(forms[name]) for name in CM1]


def optional_in_brackets(form):
    form = re.sub(r"(--\w+ \w+)", r"[\1]", form)
    return re.sub(rf"\b({'|'.join(OPTIONAL)})\b", r"[\1]", form)


def lab_help(told):
    """What help tells: its title, then for each command its forms and its description, and the notes at the end."""
    title, rest = told.strip().split("\n\n", 1)
    body, _, notes = rest.partition("\n\n")
    commands = []
    for line in body.split("\n"):
        if not line.startswith(" "):
            if not commands or commands[-1][1]:
                commands.append(([], []))
            commands[-1][0].append(line)
        else:
            commands[-1][1].append(line.strip())
    if not all(form.startswith("cm1lab ") for forms, _ in commands for form in forms):
        raise Wrong("a line of help begins with another word than cm1lab")
    return title, [(forms, " ".join(lines)) for forms, lines in commands], notes


# ---- manual pages


def roff(text):
    """A text as roff shows it: what stands between backticks in bold."""
    for sign, name in (("\\", r"\e"), ("-", r"\-"), ("'", r"\(aq"), ("^", r"\(ha"), ("~", r"\(ti")):
        text = text.replace(sign, name)
    text = re.sub(r"`([^`]*)`", r"\\fB\1\\fR", text)
    return "\n".join(r"\&" + line if line.startswith(".") else line for line in text.split("\n"))


def as_it_stands(text):
    return f".nf\n{roff(text)}\n.fi"


def form_in_bold(form):
    """A form of a command, the words that are typed as they stand in bold."""
    return re.sub(r"(?<![A-Z.\w-])((?:--)?[a-z][\w]*)", r"`\1`", form)


def page(name, does, version, date, parts):
    """A manual page: its parts are titles in capitals and what stands below them."""
    head = f'.\\" Made by .ci/package; see there.\n.TH {name.upper()} 1 {date} "linthofer {version}" Linthofer\n.ad l\n.nh\n'
    parts = [("NAME", f"{name} \\- {roff(does)}"), *parts]
    return head + "".join(f".SH {title}\n{text}\n" for title, text in parts)


def paragraphs(texts):
    return "\n.PP\n".join(map(roff, texts))


def own_page(formats, version, date):
    forms = own_forms(formats)
    width = max(len(short_form(form)) for form in forms)
    lines = [f"{short_form(form):{width}}  {CM1[form.split()[0]]}" for form in forms]
    if max(map(len, lines)) > 72:
        raise Wrong("a line of the five commands is longer than a page is wide")
    return page("cm1", "emulates the Connection Machine CM-1: programs, images, sessions", version, date, [
        ("SYNOPSIS", "\n.br\n".join(roff(f"`cm1` {form_in_bold(form)}") for form in forms)),
        ("DESCRIPTION", as_it_stands("\n".join(lines))),
        ("THE COMMAND LINE", paragraphs(section(formats, "The command line"))),
        ("EXIT STATUS", paragraphs(section(formats, "The program's end"))),
        ("EXAMPLE", as_it_stands(EXAMPLE)),
        ("FILES", roff(f"{DOCUMENTS} has the documents that are named here in docs, and examples.")),
        ("SEE ALSO", ".BR cm1lab (1)")])


def short_form(form):
    """A command and its files, in as few letters as a line has room for."""
    form = re.sub(r" \[--.*", " ..", form)
    return form + " < TEXT" if form == "chip" else form


def lab_page(told, laboratory, version, date):
    title, commands, notes = lab_help(told)
    described = [".TP\n" + "\n.TQ\n".join(roff(form_in_bold(form)) for form in forms) + "\n" + roff(text)
                 for forms, text in commands]
    return page("cm1lab", title[0].lower() + title[1:], version, date, [
        ("SYNOPSIS", "\n.br\n".join(roff(form_in_bold(form)) for forms, _ in commands for form in forms)),
        ("COMMANDS", "\n".join(described)),
        ("NOTES", paragraphs(notes.split("\n\n"))),
        ("EXIT STATUS", roff(sentence(laboratory, "The exit status is "))),
        ("FILES", roff(f"{DOCUMENTS}/docs/LABORATORY.md has each command with examples.")),
        ("SEE ALSO", ".BR cm1 (1)")])


# ---- completions


def options_by_command(forms):
    """The options that stand in the forms of each command."""
    options = {}
    for form in forms:
        name, *words = form.replace("cm1lab ", "").split()
        options.setdefault(name, [])
        options[name] += [it for it in re.findall(r"--[\w-]+", " ".join(words)) if it not in options[name]]
    return options


def completion(program, forms, values):
    """A completion for bash: the names of commands, their options, the values that an option takes, else names of files."""
    options = options_by_command(forms)
    names = " ".join(options)
    lines = [f"# Made by .ci/package: completes the words of {program}.", f"_{program}() {{",
             "    local word=${COMP_WORDS[COMP_CWORD]} options=''", "    COMPREPLY=()",
             "    if (( COMP_CWORD == 1 )); then", f"        {offer(names)}", "        return", "    fi"]
    if values:
        lines += ["    case ${COMP_WORDS[COMP_CWORD-1]} in",
                  *(f"        {option}) {offer(' '.join(words))}; return ;;" for option, words in values.items()), "    esac"]
    lines += ["    case ${COMP_WORDS[1]} in",
              *(f"        {name}) options='{' '.join(some)}' ;;" for name, some in options.items() if some), "    esac",
              "    if [[ $word == -* ]]; then COMPREPLY=($(compgen -W \"$options\" -- \"$word\")); fi", "}",
              f"complete -o default -F _{program} {program}", ""]
    return "\n".join(lines)


def offer(words):
    return f"COMPREPLY=($(compgen -W '{words}' -- \"$word\"))"


def own_completion(formats):
    return completion("cm1", own_forms(formats), {})


def lab_completion(told):
    _, commands, notes = lab_help(told)
    patterns = re.search(r"P is ([\w, ]+)", " ".join(text for _, text in commands))
    if not patterns:
        raise Wrong("help does not say what P is")
    forms = [form for some, _ in commands for form in some]
    return completion("cm1lab", [*forms, "--help"], {"--pattern": re.findall(r"\b(?!or\b)\w+", patterns[1]), "--rule": ["0", "1"]})

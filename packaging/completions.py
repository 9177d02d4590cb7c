"""Completions for bash and zsh, made from the texts of --help, so that they cannot differ from the program."""

BASH = """\
# {name}: what may follow, as `{name} --help` says it.
_{name}() {{
  local word=${{COMP_WORDS[COMP_CWORD]}} before=${{COMP_WORDS[COMP_CWORD - 1]}} asked= each
  for each in "${{COMP_WORDS[@]:1:COMP_CWORD - 1}}"; do
    [[ $each == -* ]] || case "$asked $each" in
      {paths}) asked="$asked $each" ;;
    esac
  done
  COMPREPLY=()
  case "$asked $before" in
    {takers}) compopt -o default; return ;;
  esac
  case $asked in
{cases}
  esac
}}
complete -F _{name} {name}
"""
ZSH = """\
#compdef {name}
# {name}: what may follow, as `{name} --help` says it.
_{name}() {{
  local asked= each state
  for each in "${{(@)words[2,CURRENT-1]}}"; do
    [[ $each == -* ]] || case "$asked $each" in
      {paths}) asked="$asked $each" ;;
    esac
  done
  case $asked in
{cases}
  esac
}}
_{name} "$@"
"""


def all_of(command):
    """The command and all below it."""
    return [command, *(each for below in command.commands for each in all_of(below))]


def asked(command):
    """Its words without the program's name, each with a space in front."""
    return "".join(f" {word}" for word in command.words[1:])


def paths(program):
    return "|".join(f'"{asked(each)}"' for each in all_of(program)[1:])


def kind(argument):
    """What an argument names: a folder, a file, or something that only its user knows."""
    return {"DIR": "folder", "FILE": "file"}.get(argument.strip("<>[]"), "")


def bash_case(command):
    words = [below.name for below in command.commands] + [name for each in command.options for name in each.names]
    kinds = {kind(name) for name, _ in command.arguments}
    flag = "-f " if "file" in kinds else "-d " if "folder" in kinds else ""
    lines = [f'    "{asked(command)}")', f"      COMPREPLY=($(compgen {flag}-W '{' '.join(words)}' -- \"$word\"))"]
    return "\n".join([*lines, *(["      compopt -o filenames"] if flag else []), "      ;;"])


def bash(program):
    takers = [f'"{asked(each)} {name}"' for each in all_of(program) for option in each.options if option.takes
              for name in option.names]
    return BASH.format(name=program.name, paths=paths(program), takers="|".join(takers) or '""',
                       cases="\n".join(map(bash_case, all_of(program))))


def zsh_words(text):
    """A text within single quotes and within the brackets of _arguments."""
    return text.replace("'", "'\\''").replace("[", "(").replace("]", ")").replace(":", "\\:")


def zsh_option(option):
    after = f":{option.takes}:_files" if option.takes else ""
    return [f"'{name}{'=' if option.takes and name.startswith('--') else ''}[{zsh_words(option.says)}]{after}'"
            for name in option.names]


def zsh_case(command):
    """What may follow: options, and commands or arguments; the words of the command itself stand before them."""
    given = [f"'{place}: :'" for place in range(1, len(command.words))]
    actions = {"folder": "_files -/", "file": "_files", "": ""}
    if command.commands:
        below = " ".join(f"{each.name}\\:\"{zsh_words(each.says)}\"" for each in command.commands)
        given.append(f"'{len(given) + 1}:command:(({below}))'")
    for name, says in command.arguments:
        optional = ":" if name.startswith("[") else ""
        given.append(f"'{len(given) + 1}:{optional}{zsh_words(says)}:{actions[kind(name)] or ' '}'")
    words = [*(word for option in command.options for word in zsh_option(option)), *given]
    return "\n".join([f'    "{asked(command)}")', "      _arguments \\", *(f"        {word} \\" for word in words[:-1]),
                      f"        {words[-1]}", "      ;;"])


def zsh(program):
    return ZSH.format(name=program.name, paths=paths(program), cases="\n".join(map(zsh_case, all_of(program))))

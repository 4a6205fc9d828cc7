"""The command words of snort and of snort_eve, each in a table, and what completes them in bash and zsh. Used by package.

A word is an option, which takes a value, or a flag, which takes none; each may be given once. What a word is about is said on the
manual's pages, command-words.md and snort_eve.md in docs/manual; the ranges and the order are those of the crates command_words
and snort_eve.
"""
from collections import namedtuple

FILES = "files"
# `value` is what the manual calls the value of an option, None for a flag; `values` are FILES, or the values that there
# are, or a text that says which there are.
Word = namedtuple("Word", "word about value values", defaults=(None, None))

WORDS = (
    Word("-c", "configuration with the rules", "CONF", FILES),
    Word("-r", "capture to inspect", "FILE", FILES),
    Word("-A", "no effect, alerts go to standard output", "console", ("console",)),
    Word("-k", "checksums to verify", "MODE", ("all", "none", "noip", "notcp", "noudp", "noicmp")),
    Word("-n", "records after which the capture ends", "N", "1 to 4294967295"),
    Word("-S", "variable for the configuration", "NAME=VALUE", "a name and a text"),
    Word("--host-table", "how each host reassembles", "FILE", FILES),
    Word("--lanes", "lanes in which flows are inspected", "N", "1 to 64"),
    Word("--flush-point", "bytes of a stream that are tried together", "N", "1 to 65536"),
    Word("--generate", "packets of a generated capture", "N", "1 to 100000"),
    Word("--seed", "seed of a generated capture", "N", "0 to 2147483647"),
    Word("--read-unified2", "Unified2 records to show", "FILE", FILES),
    Word("-q", "no warnings"),
    Word("-U", "no effect, times are in UTC"),
    Word("-T", "check configuration, rules and host table"),
    Word("-V", "show the version"),
    Word("--skip-refused", "skip rules outside the profile"),
    Word("--stats", "write counts at the end"),
    Word("--unified2", "write Unified2 records instead of lines"),
    Word("--help", "show the usage"),
)
# Words that go with no other, and pairs that are refused together.
ALONE = ("--read-unified2", "-V", "--help")
APART = (("-r", "--generate"),)

EVE_WORDS = (
    Word("-c", "configuration with the texts of rules and classes", "CONF", FILES),
    Word("-S", "variable for the configuration", "NAME=VALUE", "a name and a text"),
    Word("--year", "year of the first alert line", "N", "1970 to 2553"),
    Word("--capture", "capture whose first record tells that year", "FILE", FILES),
    Word("--lines", "read alert lines instead of records"),
    Word("--unified2", "read Unified2 records"),
    Word("--host", "name that each line has", "NAME", "a text"),
    Word("--pcap-filename", "capture that each line names", "NAME", FILES),
    Word("--community-id-seed", "seed of community IDs", "N", "0 to 65535"),
    Word("--help", "show the usage"),
)
EVE_APART = (("--lines", "--unified2"), ("--year", "--capture"))
# The words of a program; which go alone, and which apart; and whether names of files may come between them.
Command = namedtuple("Command", "words alone apart has_files")
COMMANDS = {"snort": Command(WORDS, ALONE, APART, False), "snort_eve": Command(EVE_WORDS, ("--help",), EVE_APART, True)}

def is_letter(word):
    return not word.startswith("--")

def is_told(option):
    """Whether a text says which values there are, so that none can be offered."""
    return isinstance(option.values, str) and option.values != FILES

BASH = r"""# bash completion of @name@'s command words. It needs no other file.

# Sets `waits` to the option that waits for its value after a word, and adds the word's options and flags to `given`.
_@name@_read() {
    local letters=${1#-} letter
    waits=
    case $1 in
        --*)
            given+=("${1%%=*}")
            case $1 in @names@) waits=$1 ;; esac ;;
        -?*)
            while [ -n "$letters" ]; do
                letter=${letters:0:1} letters=${letters:1}
                given+=("-$letter")
                case $letter in @letters@)
                    [ -n "$letters" ] || waits=-$letter
                    return ;;
                esac
            done ;;
    esac
}

# The options and flags that may go with those that are given.
_@name@_offered() {
    local word offered=" @words@ "
    [ ${#given[@]} -eq 0 ] || offered=" @beside@ "
    for word in "${given[@]}"; do
        offered=${offered/ "$word" / }
        case $word in
@excluded@
        esac
    done
    printf '%s' "$offered"
}

_@name@() {
    local word=${COMP_WORDS[COMP_CWORD]} waits= given=() at
    COMPREPLY=()
    for ((at = 1; at < COMP_CWORD; at++)); do
        # Between an option and its value `=` may come, a word of its own here.
        if [ "${COMP_WORDS[at]}" = = ]; then continue; fi
        if [ -n "$waits" ]; then waits=; else _@name@_read "${COMP_WORDS[at]}"; fi
    done
    if [ "$word" = = ]; then word=; fi
    case $waits in
@values@
        *)@unless_file@ mapfile -t COMPREPLY < <(compgen -W "$(_@name@_offered)" -- "$word") ;;
    esac
    # Only names of files are looked up where nothing is offered.
    compopt +o default
}
complete -o default -F _@name@ @name@
"""

def bash(name="snort"):
    """A script for bash that completes the words of a program."""
    def cases(indent, rows):
        return "\n".join(f"{indent * ' '}{'|'.join(words)}) {what} ;;" for words, what in rows if words)
    words, alone, apart, has_files = COMMANDS[name]
    options = [it for it in words if it.value]
    excluded = [(alone, "offered=")]
    excluded += [((one,), f"offered=${{offered/ {other} / }}") for pair in apart for one, other in (pair, pair[::-1])]
    values = [([it.word for it in options if it.values == FILES], "return")]
    values += [((it.word,), f"mapfile -t COMPREPLY < <(compgen -W '{' '.join(it.values)}' -- \"$word\")")
               for it in options if isinstance(it.values, tuple)]
    values.append(([it.word for it in options if is_told(it)], ":"))
    return filled(BASH, {
        "name": name, "unless_file": ' [[ $word = -* ]] || return;' if has_files else "",
        "names": "|".join(it.word for it in options if not is_letter(it.word)),
        "letters": "|".join(it.word[1] for it in options if is_letter(it.word)) or "''",
        "words": " ".join(it.word for it in words), "beside": " ".join(it.word for it in words if it.word not in alone),
        "excluded": cases(12, excluded), "values": cases(8, values)})

ZSH = r"""#compdef @name@
# zsh completion of @name@'s command words.
_arguments -s : \
@lines@
"""

def zsh(name="snort"):
    """A function for zsh that completes the words of a program."""
    words, alone, pairs, has_files = COMMANDS[name]
    def line(it):
        apart = [other for pair in pairs for one, other in (pair, pair[::-1]) if one == it.word]
        beside = "- *" if it.word in alone else " ".join((it.word, *alone, *apart))
        joined = "" if not it.value else "+" if is_letter(it.word) else "="
        values = "_files" if it.values == FILES else " " if is_told(it) else f"({' '.join(it.values or ())})"
        name = f"{it.value}, {it.values}" if is_told(it) else it.value
        return f"    '({beside}){it.word}{joined}[{it.about}]" + (f":{name}:{values}'" if it.value else "'")
    files = ["    '*:FILE:_files'"] if has_files else []
    return filled(ZSH, {"name": name, "lines": " \\\n".join([*map(line, words), *files])})

def filled(text, parts):
    for name, part in parts.items():
        text = text.replace(f"@{name}@", part)
    return text

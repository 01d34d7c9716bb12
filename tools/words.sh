# What the script mx of the repository and that of a package share, for sh.

# What these can't read isn't said twice, nor in their words: the program says it. A file may go while they read it.
awk() { command awk "$@" 2>/dev/null; }
grep() { command grep "$@" 2>/dev/null; }
sed() { command sed "$@" 2>/dev/null; }

# Whether a file is a regular one, which can be read.
is_readable() {
    [ -f "$1" ] && [ -r "$1" ]
}

# Prints what to do first: show_first_steps COMMAND TOP ABOUT. COMMAND is how mx was called, TOP the folder that has the
# pages, and ABOUT what --prove does. The pages and files are named as they are seen from here.
show_first_steps() {
    at=${1%mx}
    [ -e "${at}docs/learn/TOUR.md" ] || at=$2/
    [ "$at" != ./ ] || at=
    printf '%-38s %s\n' "$1 one ${at}examples/programs/sum.out 9" "runs a program and prints its registers" \
        "${at}docs/learn/TOUR.md" "the tour: walks through the machine, and exercises with answers" \
        "${at}examples/README.md" "programs and machines; $1 new NAME begins one of your own" \
        "$1 --help" "all subcommands; $1 help one says more of one" \
        "$1 --prove" "$3"
}

# Prints yes if a failure of these words is explained: if that is asked for, or if standard error is a terminal, unless it
# is asked not to.
explains_words() {
    explained=''
    [ ! -t 2 ] || explained=yes
    for word in "$@"; do
        case $word in
            --no-explain) return 0 ;;
            --explain) explained=yes ;;
        esac
    done
    [ -z "$explained" ] || echo yes
}

# Whether a file is there and is protected against writing: nobody may, or who asks may not. The rights of its folder would
# let another one take its place, and to the superuser all is allowed.
is_protected() {
    [ -f "$1" ] || return 1
    case $1 in */*) at=${1%/*}/ ;; *) at=./ ;; esac
    if [ ! -w "$1" ] && [ -w "$at" ]; then return 0; fi
    [ -z "$(find -L "$at${1##*/}" -prune \( -perm -200 -o -perm -20 -o -perm -2 \) 2>/dev/null || echo unknown)" ]
}

# Ends with status 3 if a file that is to be written is protected, unless $forced is set: refuse_protected FILE LABEL EXPLAINS.
refuse_protected() {
    { [ -n "$1" ] && [ -z "$forced" ] && is_protected "$1"; } || return 0
    echo "mx: 80 File" >&2
    [ -z "$3" ] || echo "mx: $2 $1: wanted a file that can be written: it is protected, and --force goes over that" >&2
    exit 3
}

# Prints yes if these words force what they do.
forces() {
    case " $* " in *' --force '*) echo yes ;; esac
}

# Ends with status 3 if these words are those of an `as` that would write a program over its own text, also by another
# name of the same file, or over a file that is protected.
refuse_own_text() {
    [ "${1-}" = as ] || return 0
    text='' file='' explains=$(explains_words "$@") forced=$(forces "$@")
    for word in "$@"; do
        case $word in
            as | --explain | --no-explain | --force) ;;
            *)
                [ -z "$file" ] || return 0
                if [ -z "$text" ]; then text=$word; else file=$word; fi ;;
        esac
    done
    refuse_same "$text" "$file" FILE "$explains"
    refuse_protected "$file" FILE "$explains"
}

# Prints the programs of a configuration's services, one a line, in the order of their slots.
programs_of() {
    ! is_readable "$1" || awk '{ sub(/#.*/, "") } $1 == "service" { print $3 }' "$1"
}

# Prints the files that a command on this configuration's machine reads, one a line: CONFIG [FILE ..].
files_read() {
    printf '%s\n' "$@"
    programs_of "$1"
}

# Whether an option has no value.
is_flag() {
    case $1 in
        --numbered | --check | --explain | --no-explain | --force | --strict | --live | --raw | --no-sums) ;;
        *) return 1 ;;
    esac
}

# The N-th of a command's words that is neither an option nor an option's value: nth_word N COMMAND WORDS.
nth_word() {
    wanted=$1 option=''
    shift 2
    for word in "$@"; do
        [ -z "$option" ] || { option=''; continue; }
        case $word in
            --*=*) ;;
            --?*) is_flag "$word" || option=yes ;;
            *)
                wanted=$((wanted - 1))
                [ "$wanted" -gt 0 ] || { printf '%s' "$word"; return; } ;;
        esac
    done
}

# Ends with status 3 if the second file, which is to be written, is the first: refuse_same FILE WRITTEN LABEL EXPLAINS.
# LABEL is the word that names the second.
refuse_same() {
    { [ -n "$1" ] && [ -n "$2" ] && [ "$1" -ef "$2" ]; } || return 0
    echo "mx: 80 File" >&2
    [ -z "$4" ] || echo "mx: $3 $2: wanted another file than the one that is read" >&2
    exit 3
}

# The same of the files whose names are the second word and a number, and of those that are protected: refuse_numbered FILE
# WORD EXPLAINS.
refuse_numbered() {
    [ -n "$2" ] || return 0
    for numbered in "$2"[1-9]*; do
        case ${numbered#"$2"} in *[!0-9]*) continue ;; esac
        refuse_same "$1" "$numbered" NAME "$3"
        refuse_protected "$numbered" NAME "$3"
    done
}

# Reads the words of a command on a machine: command; config, second and third, which stand in places, and how many do;
# the values of save, events and sums; whether they say themselves what becomes of sums; and whether they are clear to
# this script, which knows no grammar.
read_words() {
    command=${1-} config='' second='' third='' places=0 save='' events='' sums='' says_sums='' is_clear=yes option=''
    [ $# = 0 ] || shift
    for word in "$@"; do
        case $option in
            --save) save=$word option='' ; continue ;;
            --events) events=$word option='' ; continue ;;
            --sums) sums=$word option='' ; continue ;;
            ?*) option='' ; continue ;;
        esac
        case $word in --sums | --sums=* | --no-sums) says_sums=yes ;; esac
        case $word in
            --save=*) save=${word#*=} ;;
            --events=*) events=${word#*=} ;;
            --sums=*) sums=${word#*=} ;;
            -- | --help) is_clear='' ;;
            --*=*) ;;
            --*) is_flag "$word" || option=$word ;;
            -?*) is_clear='' ;;
            *) take_place "$word" ;;
        esac
    done
    [ -z "$option" ] || is_clear=''
}

# Takes the next word that stands in a place.
take_place() {
    places=$((places + 1))
    case $places in
        1) config=$1 ;;
        2) second=$1 ;;
        3) third=$1 ;;
    esac
}

# Ends with status 3 if these words are those of a `step`, `run`, `turns`, `sweep` or `explore` that would write a history
# or its sums over a file that it reads, or its sums over its history, also by another name of the same file, or over a file
# that is protected.
refuse_own_files() {
    case ${1-} in step | run | turns | sweep | explore) ;; *) return 0 ;; esac
    read_words "$@"
    explains=$(explains_words "$@") forced=$(forces "$@") label=LOG compared='' several=''
    [ "$places" -lt 3 ] || [ "$command$places" = sweep3 ] || return 0
    written=$save read=$second
    case $command in
        run | turns) written=$second read=$events ;;
        # It compares SUMS, and doesn't write it.
        sweep) label=FILE compared=$sums sums='' ;;
        explore) several=$save written='' read=$events compared=$sums sums='' ;;
    esac
    [ -n "$config" ] || return 0
    while read -r file; do
        refuse_same "$file" "$written" "$label" "$explains"
        refuse_numbered "$file" "$several" "$explains"
        refuse_same "$file" "$sums" SUMS "$explains"
    done <<END
$(files_read "$config" "$read" "$third" "$compared")
END
    refuse_same "$written" "$sums" SUMS "$explains"
    [ -n "$is_clear" ] || return 0
    refuse_protected "$written" "$label" "$explains"
    refuse_protected "$sums" SUMS "$explains"
}

# Ends with status 3 if a file of these words is standard output too: the shell has emptied it, or what is printed would be
# read again. A device isn't meant.
refuse_own_output() {
    for word in "$@"; do
        case $word in /dev/* | /proc/*) continue ;; esac
        { [ -f "$word" ] && [ "$word" -ef /dev/stdout ]; } || continue
        emptied=''
        [ -s "$word" ] || emptied=', and was emptied by the shell'
        echo "mx: 80 File" >&2
        [ -z "$(explains_words "$@")" ] ||
            echo "mx: $word: is standard output too$emptied: wanted another name after >" >&2
        exit 3
    done
}

# Ends with status 2 if these words are those of `gdb`, and somebody types.
refuse_typing() {
    { [ "${1-}" = gdb ] && [ -t 0 ]; } || return 0
    for word in "$@"; do
        case $word in -h | --help) return 0 ;; esac
    done
    [ -n "$(nth_word 2 "$@")" ] || set -- gdb CONFIG LOG
    echo "mx: standard input: wanted gdb: in gdb type target remote | mx $*; people take mx look" >&2
    exit 2
}

# Ends with status 2 if these words are those of a picture or a page, and a terminal would get it.
refuse_picture() {
    case ${1-} in draw) kind=svg ;; page) kind=html ;; *) return 0 ;; esac
    [ -t 1 ] || return 0
    for word in "$@"; do
        case $word in -h | --help) return 0 ;; esac
    done
    log=$(nth_word 2 "$@") to=$(value_of --out "$@")
    [ -n "$log" ] || return 0
    [ -n "$to" ] || to=$(nth_word 3 "$@")
    [ -n "$to" ] || to=${log%.*}.$kind
    echo "mx: standard output: wanted a file: mx $1 $(nth_word 1 "$@") $log > $to" >&2
    exit 2
}

# Whether the help of a command has an option: has_option COMMAND OPTION. ask_program WORDS is of the script that calls it:
# it prints what the program answers, and nothing on standard error.
has_option() {
    ask_program help "$1" | grep -q -e "^ .*$2\( \|\$\)"
}

# The subcommands, as the program's help lists them.
subcommands() {
    ask_program help | sed -n 's/^  \([a-z][a-z]*\)  .*/\1/p'
}

# Says of the first option of these words that the command hasn't, which commands have it, and where the program's name
# stands in the words of `as`.
tell_option() {
    for word in "$@"; do
        case $word in
            --) return 0 ;;
            -o | -o?*)
                [ "$1" != as ] || echo "mx: as has no -o: the program's file is the last word, as mx as TEXT FILE" >&2
                return 0 ;;
            -[a-z][a-z]*)
                ! has_option "$1" "-${word%%=*}" || echo "mx: $word: wanted two dashes, -$word" >&2
                return 0 ;;
            --?*) ;;
            *) continue ;;
        esac
        option=${word%%=*}
        ! has_option "$1" "$option" || continue
        have=''
        for other in $(subcommands); do
            ! has_option "$other" "$option" || have="$have $other"
        done
        [ -z "$have" ] || echo "mx: $1 has no $option, these have:$have" >&2
        return 0
    done
}

# The value that these words have for an option: value_of OPTION WORDS.
value_of() {
    wanted=$1 found='' next=''
    shift
    for word in "$@"; do
        [ -z "$next" ] || found=$word
        next=''
        case $word in
            "$wanted") next=yes ;;
            "$wanted"=*) found=${word#*=} ;;
        esac
    done
    printf '%s' "$found"
}

# Says of a `gdb` with a service's name for its slot which slot that is.
tell_slot() {
    [ "$1" = gdb ] || return 0
    name=$(value_of --slot "$@")
    case $name in '' | *[!0-9A-Za-z_]*) return 0 ;; *[!0-9]*) ;; *) return 0 ;; esac
    config=$(nth_word 1 "$@") slot=''
    ! is_readable "$config" || slot=$(awk -v name="$name" '
        { sub(/#.*/, "") } $1 == "service" { if ($2 == name) { print slot + 0; exit } slot++ }' "$config")
    echo "mx: --slot: wanted a slot's number${slot:+: $name is slot $slot}" >&2
}

# Says that no record is shown, if --from of these words is after --to, or after the end of the history.
tell_range() {
    case $1 in trace | draw | page) ;; *) return 0 ;; esac
    from=$(value_of --from "$@") to=$(value_of --to "$@")
    case $from in '' | *[!0-9]*) return 0 ;; esac
    case $to in *[!0-9]*) return 0 ;; esac
    if [ -n "$to" ] && [ "$from" -gt "$to" ] 2>/dev/null; then
        echo "mx: no record is shown: --from $from is after --to $to" >&2
        return
    fi
    log=$(nth_word 2 "$@")
    is_readable "$log" || return 0
    records=$(grep -c '^[0-9]' "$log")
    [ "$from" -le "$records" ] 2>/dev/null ||
        echo "mx: no record is shown: --from $from is after the end: $log has $records" >&2
}

# Says that a run is over before it begins, if the file that stops it is there.
tell_stop() {
    case $1 in run | turns) ;; *) return 0 ;; esac
    stopping=$(stop_named "$@")
    { [ -n "$stopping" ] && [ -e "$stopping" ]; } || return 0
    echo "mx: --stop $stopping: it is there already, and ends this run as it begins: remove it first" >&2
}

# Whether a file begins as a program.
is_program() {
    is_readable "$1" && [ "$(od -An -tx1 -N2 "$1" | tr -d ' ')" = 0103 ]
}

# Says of an `as` that it was given the program first, or a text in C, or a configuration.
tell_text() {
    [ "$1" = as ] || return 0
    text=$(nth_word 1 "$@") file=$(nth_word 2 "$@")
    case $text in
        *.c) echo "mx: $text: wanted a text for the assembler; programs in C are made by gcc: mx new NAME --c" >&2 ;;
    esac
    if is_program "$text" && [ -s "$file" ] && ! is_program "$file"; then
        echo "mx: $text is a program: wanted the text first: mx as $file $text" >&2
    elif [ -f "$text" ] && ! is_program "$text" && has_items "$text"; then
        echo "mx: $text is a configuration, which mx explain takes; as takes TEXT, the text of one program" >&2
    fi
}

# Prints the lines of a text in which a comment stands after something else, and has a few words: LINE:COMMENT, the first 20.
short_comments() {
    awk '
        { gsub(/"[^"]*"/, ""); at = index($0, ";"); code = substr($0, 1, at - 1); comment = substr($0, at + 1) }
        at && code ~ /[^ \t]/ && comment ~ /^[ \t]*[a-z]/ && split(comment, words) < 9 {
            print NR ":" comment
            if (++count == 20) exit
        }' "$1"
}

# Says of a text that a comment of it is a statement for the assembler too: so the ; was to stand between statements.
tell_comments() {
    tried=$(mktemp -d) || return 0
    short_comments "$1" | while IFS=: read -r line comment; do
        printf '%s\n' "$comment" >"$tried/text"
        ask_program as "$tried/text" "$tried/file" </dev/null || continue
        echo "mx: $1 line $line: what stands after ; is a comment, and this one is a statement: wanted one statement a line" >&2
        break
    done
    rm -r "$tried"
}

# Says of the text of an `as` what is none of its statements, though it looks as one.
tell_statements() {
    { [ "$1" = as ] && text=$(nth_word 1 "$@") && is_readable "$text" && ! is_program "$text"; } || return 0
    line=$(awk '/^[ \t]*[#%][ \t]*(define|include|ifn?def|macro)/ { print NR; exit }' "$text")
    [ -z "$line" ] || echo "mx: $text line $line: there is no preprocessor: wanted numbers in place of names, and one file" >&2
    tell_comments "$text"
}

# What the program says of a command that it refuses, both lines: it is asked once more, and what it prints is left out.
failure_of() {
    case " $* " in *' --explain '*) ;; *) set -- "$@" --explain ;; esac
    (start_program "$@" </dev/null) 2>&1 >/dev/null
}

# For awk: a line of a text without quoted texts, comment and spaces at its ends, and without its labels; the last of
# these is in `label`.
plain_line='
    function plain(line) {
        gsub(/"([^"\\]|\\.)*"/, "\"", line)
        sub(/;.*/, "", line)
        gsub(/[ \t\r]+/, " ", line)
        sub(/^ /, "", line)
        sub(/ $/, "", line)
        label = ""
        while (match(line, /^[A-Za-z_][A-Za-z_0-9]* ?: ?/)) {
            label = substr(line, 1, RLENGTH)
            gsub(/[ :]/, "", label)
            line = substr(line, RLENGTH + 1)
        }
        return line
    }'

# Says of the line at which a text is refused what its second line can't, which sees no other line and no whole form:
# tell_statement TEXT LINE PROBLEM.
tell_statement() {
    awk -v file="$1" -v line="$2" -v problem="$3" "$plain_line"'
        function tell(words) { if (!told++) print "mx: " file " line " line ": " words }
        # How many bits a register or a size has; 0 of another word.
        function bits(word) {
            if (word ~ /^([abcd][lh]|byte)$/) return 8
            if (word ~ /^([abcd]x|[sb]p|[sd]i|word)$/) return 16
            return word ~ /^(e([abcd]x|[sb]p|[sd]i)|dword)$/ ? 32 : 0
        }
        function tell_bracket(code) {
            if (!match(code, /\[[^\]]*\]/)) return
            inside = substr(code, RSTART, RLENGTH)
            if (match(inside, /\* ?[0-9][0-9A-Za-z]*/)) {
                scale = substr(inside, RSTART + 1, RLENGTH - 1)
                sub(/^ /, "", scale)
                if (scale !~ /^(0x0*)?[1248]$/) tell("wanted 1, 2, 4 or 8 after *, stands \"" scale "\"")
            }
            if (inside ~ /esp ?\*/) tell("esp has no scale: wanted another register before *")
            count = 0
            split(inside, words, /[^a-z0-9_]+/)
            for (at in words) count += bits(words[at]) == 32
            if (count > 2) tell("wanted two registers at most in a bracket")
        }
        function tell_sizes(code) {
            if (code !~ /^(mov|add|adc|sub|sbb|and|or|xor|cmp|test|xchg) /) return
            sub(/^[a-z]+ /, "", code)
            if (split(code, sides, / ?, ?/) != 2) return
            for (at = 1; at <= 2; at++) {
                sized = sides[at]
                sub(/ .*/, "", sized)
                if (sides[at] ~ /\[/ && bits(sized) && bits(sides[3 - at]) && bits(sized) != bits(sides[3 - at]))
                    tell("wanted one size: " sized " has " bits(sized) " bits, and " sides[3 - at] " " bits(sides[3 - at]))
            }
        }
        function tell_count(code) {
            two = "^(mov|add|adc|sub|sbb|and|or|xor|cmp|test|xchg|lea|movzx|movsx|shl|shr|sar|rol|ror)( [^,]*)?$"
            one = "^(push|pop|inc|dec|neg|not|mul|div|idiv|int|jmp|call|loop|loope|loopne|j[a-z]+)"
            if (code ~ two) tell("wanted two operands, with a comma between them")
            if (code ~ (one "$")) tell("wanted an operand after " code)
            if (code ~ (one " .*,")) tell("wanted one operand")
            if (code ~ /^(nop|leave|hlt|cdq|cbw|cwd|cwde|pushad|popad|pushfd|popfd|cld|std|clc|stc|cmc|lahf|sahf) /)
                tell("wanted no operand")
            if (code ~ /^(movs|cmps|stos|lods|scas)[bwd] /) tell("wanted no operand: the addresses are in esi and edi")
            if (code ~ /^\.(space|stack|entry|ascii|data[124])$/) tell("wanted an operand after " code)
        }
        function tell_number(code) {
            if (match(code, /^\.(stack|space) -/)) tell("wanted a number without a sign, stands \"" substr(code, RLENGTH) "\"")
            most = code ~ /^\.data1 / ? 255 : code ~ /^\.data2 / ? 65535 : code ~ /^int [0-9]+$/ ? 255 : 0
            sub(/^[^ ]* /, "", code)
            for (at = split(code, words, / ?, ?/); most && at; at--)
                if (words[at] ~ /^[0-9]+$/ && words[at] + 0 > most) tell("wanted at most " most ", stands \"" words[at] "\"")
        }
        function tell_operands(code) {
            tell_number(code)
            tell_count(code)
            tell_bracket(code)
            tell_sizes(code)
            if (match(code, /(^|[ ,])r([abcd]x|[sb]p|[sd]i|[89]|1[0-5])[dwb]?($|[^A-Za-z0-9_])/))
                tell("registers have 32 bits at most: eax, ecx, edx, ebx, esp, ebp, esi, edi")
            if (code ~ /(^|[ ,])(byte|word|dword) [^\[]/) tell("byte, word and dword stand before a bracket alone")
            if (code ~ /^(jmp|call|j[a-z]+) (near|far) /) tell("wanted the label alone, without near and far")
            if (code ~ /^test [a-z]+ ?, ?\[/) tell("wanted the bracket first, as test [b], eax")
            if (code ~ /^(mov|add|adc|sub|sbb|and|or|xor|cmp|test) -?[0-9][0-9A-Za-z]* ?,/)
                tell("wanted the number as the second operand: the first is a register or an address")
            gsub(/\[[^\]]*\]/, "", code)
            if (code ~ /[ ,]e?(ax|cx|dx|bx|sp|bp|si|di) ?[-+]/)
                tell("a register is added in brackets alone: lea eax, [ebx+4] makes eax ebx+4")
            if (code ~ /[ ,][c-gs]s($|[ ,:])/) tell("there are no segment registers: wanted the address alone")
        }
        function tell_byte(code) {
            if (code ~ /^e?[abcd]x ?[-+*]?=/) tell("wanted an instruction, as mov eax, 5 or add eax, 5")
            if (code ~ /\(/ && code !~ /[$%]/) tell("wanted [ and ] around an address, and no ( and )")
            if (code ~ /[0-9A-Za-z_] ?(\/|<<|>>|&|\|) ?[0-9A-Za-z_]/) tell("wanted the number itself: only name+n and name-n are computed")
        }
        function tell_word(word) {
            if (word == "enter") tell("wanted push ebp, mov ebp, esp and sub esp, N in place of enter N, 0")
            if (word ~ /^cmov/) tell("wanted a jump over a mov: the 80386 has no " word)
            if (word ~ /^(bswap|cmpxchg|xadd|cpuid|rdtsc|ud2)$/) tell("the 80386 has no " word)
            if (word ~ /^f(ld|st|stp|add|sub|mul|div|ild|ist|istp|com|init|chs|abs|sqrt)$/)
                tell("there is no floating point: wanted whole numbers")
            if (word == "times") tell(".space N makes N zero bytes; other statements are written out")
            if (word ~ /^\.?(globl|global|extern|extrn|public|bits|use32|cpu|align|balign|org|type|size|file|model|proc|endp|end)$/)
                tell("there is no " word ": wanted the line left out")
            if (word ~ /^set/ && substr(word, 4) in condition) tell("wanted set" condition[substr(word, 4)] " in place of " word)
            if (word ~ /^(mov|add|adc|sub|sbb|and|or|xor|cmp|test|lea|push|pop|inc|dec|neg|not|shl|shr|sar|imul|idiv|mul|div)[bwlq]$/)
                tell("wanted " substr(word, 1, length(word) - 1) ", without the size in its name: registers, or byte, word and dword, say it")
            if (word in instead) tell("wanted " instead[word] " in place of " word)
        }
        BEGIN {
            pairs = "e z ne nz c b nae b nc nb ae nb g nle ge nl nge l ng le na be a nbe pe p po np"
            count = split(pairs, words, " ")
            for (at = 1; at < count; at += 2) condition[words[at]] = words[at + 1]
            instead[".byte"] = ".data1"
            instead[".word"] = instead[".short"] = instead[".value"] = ".data2"
            instead[".long"] = instead[".int"] = instead[".dword"] = ".data4"
            instead[".asciz"] = instead[".string"] = ".ascii, and \\0 at the end of the text,"
            instead[".skip"] = instead[".zero"] = ".space"
            instead[".code"] = ".text"
            instead["loopz"] = "loope"
            instead["loopnz"] = "loopne"
            instead["jpe"] = "jp"
            instead["jpo"] = "jnp"
            instead["syscall"] = instead["sysenter"] = "int 33, with the trap in ecx,"
            instead["move"] = instead["load"] = instead["ld"] = instead["store"] = "mov"
            instead["return"] = instead["retn"] = "ret"
            instead["goto"] = "jmp"
        }
        { code = plain($0) }
        label != "" && !(label in first) { first[label] = NR }
        NR == line && problem == "BadOperands" { tell_operands(code) }
        NR == line && problem == "BadByte" { tell_byte(code) }
        NR == line && problem == "UnknownWord" { split(code, words, " "); tell_word(words[1]) }
        NR == line && problem == "Twice" && first[label] < NR { tell(label " is in line " first[label] " already") }
        NR == line && problem == "TooFar" && code ~ / short / { tell("without short it reaches any place") }
        NR == line && problem == "TooFar" && code ~ /^loop / { tell("wanted sub ecx, 1 and jnz, which reach any place") }
        problem == "TooLarge" && code ~ /^\.(stack|space) [0-9]+$/ {
            split(code, words, " ")
            if (words[2] + 0 > 4194304) { line = NR; tell(code " alone is more than the 4194304 bytes that all may have") }
        }' "$1" >&2
}

# Says of a text that was assembled that it has no instruction, or where the address of a number is taken for the number: it
# is counted with, right after it was put in a register that is no address anywhere in the text, or added to another one, or
# it is the process that is called.
tell_addresses() {
    ! is_readable "$1" || awk -v file="$1" "$plain_line"'
        { code = plain($0) }
        label != "" { named = label; is_number[named] = 0 }
        code == "" { next }
        code ~ /^\.data[124] -?[0-9][0-9A-Fa-fx]*$/ { is_number[named] = label != ""; next }
        code ~ /^\.(data[124]|ascii|space) / { is_number[named] = 0 }
        code !~ /^\./ { text[++count] = code; line[count] = NR; whole = whole "\n" code }
        # Whether an instruction puts the address of a number in a register; both are in `words`.
        function is_put(code) {
            if (code !~ /^mov e[a-z][a-z], ?[A-Za-z_][A-Za-z_0-9]*$/) return 0
            split(code, words, /[ ,]+/)
            return is_number[words[3]]
        }
        function is_counted(at) {
            if (words[2] ~ /^e(bx|sp)$/ || whole ~ ("\\[[^\\]]*" words[2])) return 0
            return text[at + 1] ~ ("^(add|sub|and|or|xor|cmp|test|imul|shl|shr|inc|dec|neg|not) " words[2] "(,|$)")
        }
        function is_added(at, register, other, is_second) {
            register = words[2]
            is_second = is_put(text[at + 1])
            other = words[2]
            is_put(text[at])
            return is_second && text[at + 2] ~ ("^(add|imul) (" register ", ?" other "|" other ", ?" register ")$")
        }
        # Whether EAX is so at the next call: only other registers are put in between.
        function is_called(at) {
            if (words[2] != "eax") return 0
            for (at++; text[at] ~ /^mov e(bx|cx|dx|si|di|bp), ?[A-Za-z_0-9]*$/; at++);
            return text[at] ~ /^int (33|0x21)$/
        }
        END {
            if (!count) print "mx: " file " has no instruction"
            for (at = 1; at < count; at++) {
                if (!is_put(text[at]) || !(is_counted(at) || is_added(at) || is_called(at))) continue
                print "mx: " file " line " line[at] ": " words[3] " is an address here; what stands there is [" words[3] "]"
                exit
            }
        }' "$1" >&2
}

# Says of a text that was assembled, with its code apart, which data of it is among the code, if something else than a jump
# names it.
tell_data() {
    ! is_readable "$1" || awk -v file="$1" "$plain_line"'
        { code = plain($0) }
        label != "" { named = label }
        code == "" { next }
        code == ".sep" { is_apart = 1 }
        code ~ /^\.(text|data)$/ { is_data = code == ".data"; next }
        code ~ /^\.(data[124]|ascii|space) / && !is_data && named != "" { labels[++count] = named; line[count] = NR }
        code !~ /^\./ && code !~ /^(j[a-z]+|call|loop[a-z]*) / { whole = whole "\n" code }
        { named = "" }
        END {
            for (at = 1; is_apart && at <= count; at++) {
                if (whole !~ ("[^A-Za-z0-9_]" labels[at] "([^A-Za-z0-9_]|$)")) continue
                print "mx: " file " line " line[at] ": " labels[at] \
                    " is among the code, which a program with .sep can neither read nor write: wanted it below .data"
                exit
            }
        }' "$1" >&2
}

# Says of a text that was assembled which subroutine of it doesn't take back what it pushed, or takes more: the first without
# jumps, calls, other uses of ESP, and a push of an address for its ret.
tell_pushes() {
    ! is_readable "$1" || awk -v file="$1" "$plain_line"'
        { code = plain($0) }
        label != "" { routine = label; more = 0; is_plain = 1 }
        code == "" || code ~ /^\./ { next }
        code ~ /^call / { is_called[substr(code, 6)] = 1 }
        code ~ /esp|^(j|loop|call|int 3$|leave|push[af]|pop[af]|push [^e]|pop [^e])/ { is_plain = 0 }
        code ~ /^push e/ { more++ }
        code ~ /^pop e/ { more-- }
        code == "ret" {
            if (is_plain && more && !is_push && routine != "") { wrong[++count] = routine; line[count] = NR; by[count] = more }
            routine = ""
        }
        { is_push = code ~ /^push/ }
        END {
            for (at = 1; at <= count; at++) {
                if (!is_called[wrong[at]]) continue
                print "mx: " file " line " line[at] ": " wrong[at] (by[at] > 0 ? " pushes " by[at] " more than it pops" : \
                    " pops " (-by[at]) " more than it pushes") ", so this ret doesn\047t go back to who called it"
                exit
            }
        }' "$1" >&2
}

# Whether a text has an item of a configuration.
has_items() {
    awk '$1 ~ /^(cpus|log|others|rules|service)$/ { is_there = 1; exit } END { exit !is_there }' "$1"
}

# Says of the configuration of these words that it is another file, by which command takes that: a program; or a text for the
# assembler or in C, by its name. Else that a comment in it begins otherwise.
tell_config_place() {
    case $1 in one | as | dis | nm) return 0 ;; esac
    config=$(nth_word 1 "$@")
    is_readable "$config" || return 0
    kind=''
    if is_program "$config"; then kind="a program, which mx dis, nm and one take"
    elif ! has_items "$config"; then
        case $config in
            *.s) kind="a text for the assembler, which mx as takes" ;;
            *.c) kind="a text in C, which gcc takes: mx new NAME --c makes a folder for such" ;;
        esac
    fi
    if [ -n "$kind" ]; then
        echo "mx: $config is $kind; $1 takes CONFIG, which names the programs of its services" >&2
        return
    fi
    line=$(awk '/^ *(;|\/\/|--)/ { print NR; exit }' "$config")
    [ -z "$line" ] || echo "mx: $config line $line: wanted # before a comment" >&2
}

# Says of an `explain` of a code or its name what it means, as the tables of $reference have it.
tell_code() {
    { [ "$1" = explain ] && is_readable "$reference"; } || return 0
    shift
    for word in "$@"; do
        case $word in --*) continue ;; esac
        [ ! -e "$word" ] || return 0
        awk -v word="$word" '
            BEGIN { FS = " *[|] *" }
            $2 !~ /^-?[0-9]+$/ || $3 !~ /^(`[A-Z][A-Za-z]*`|[0-9A-F]*)$/ || (length($3) != 8 && $3 !~ /`/) { next }
            { name = $3; of = ""; means = $(NF - 1) }
            NF == 6 && name ~ /`/ { of = " (" $4 ")" }
            NF == 6 && name !~ /`/ { name = $4 }
            { gsub(/`/, "", name) }
            $2 == word || name == word { print "mx: " $2 " " name of ": " means; is_code = 1 }
            END { if (is_code) print "mx: explain takes CONFIG; this is of " FILENAME }' "$reference" >&2
        return
    done
}

# Whether a text and its program are both in a repository of git, and as they are there: then their times say nothing.
is_checked_out() {
    (cd "$(dirname "$1")" && text=$(basename "$1") file=$(basename "$2") &&
        git ls-files --error-unmatch -- "$text" "$file" && git diff --quiet HEAD -- "$text" "$file") >/dev/null 2>&1
}

# Whether a program is what the assembler makes of a text; also if there is no assembler yet.
is_made_of() {
    made=$(mktemp) || return 0
    ask_program as "$1" "$made" --force </dev/null
    [ $? -gt 9 ] || cmp -s "$made" "$2" 2>/dev/null
    same=$?
    rm -f "$made"
    return $same
}

# The command that makes the programs of a folder, if one does.
making() {
    is_readable "$1/Makefile" || return
    if [ "$1" = . ]; then echo make; else echo "make -C $1"; fi
}

# Says what makes a program that isn't there, if its text in C is.
tell_missing() {
    stem=${1%.out} folder=$(dirname "$1")
    name=$(basename "$stem")
    { [ -f "$stem.c" ] && makes=$(making "$folder"); } || return 0
    grep -qw -e "$name" "$folder/Makefile" || makes="$makes programs=$name, or with $name in programs of the Makefile"
    echo "mx: $1 isn't there, but $stem.c is: $makes" >&2
}

# Says that a program is older than the text beside it that it is made of, if another one would come of that.
tell_older() {
    stem=${1%.out} makes=''
    if [ -f "$stem.c" ] && [ "$stem.c" -nt "$1" ]; then
        ! is_checked_out "$stem.c" "$1" || return 0
        text=$stem.c
        ! makes=$(making "$(dirname "$1")") || makes=": $makes"
    elif [ ! -f "$stem.c" ] && [ -f "$stem.s" ] && [ "$stem.s" -nt "$1" ]; then
        ! is_made_of "$stem.s" "$1" || return 0
        text=$stem.s makes=": mx as $stem.s $1"
    else
        return 0
    fi
    echo "mx: $text is newer than $1, so the older program runs$makes" >&2
}

# Says of the machine of a command that runs one which programs are older than their texts, or not made yet.
tell_machine() {
    case $1 in step | db | run | turns | sweep) ;; *) return 0 ;; esac
    programs_of "$(nth_word 1 "$@")" | sort -u | while read -r file; do
        case $file in
            *.out) if [ -e "$file" ]; then tell_older "$file"; else tell_missing "$file"; fi ;;
        esac
    done
}

# Says of a configuration that two services have each other's programs, by their names.
tell_swapped() {
    case $1 in step | db | run | turns | explain) ;; *) return 0 ;; esac
    config=$(nth_word 1 "$@")
    ! is_readable "$config" || awk -v at="mx: $config: " '
        { sub(/#.*/, "") }
        $1 == "service" { program = $3; sub(/.*\//, "", program); sub(/\.out$/, "", program); has[$2] = program }
        END {
            for (name in has) {
                other = has[name]
                if (name < other && has[other] == name)
                    print at name " has the program of " other ", and " other " that of " name
            }
        }' "$config" >&2
}

# Says that a history goes into a file named -.
tell_log() {
    case $1 in
        step) log=$(value_of --save "$@") ;;
        run | turns) log=$(nth_word 2 "$@") ;;
        *) return 0 ;;
    esac
    [ "$log" != - ] || echo "mx: LOG -: this is a file's name; standard output is /dev/stdout" >&2
}

# Says which programs of the machine gdb knows no names and lines of, and what makes them: also to gdb, which is no terminal.
tell_names() {
    [ "$1" = gdb ] || return 0
    slot=$(value_of --slot "$@")
    case $slot in *[!0-9]*) return 0 ;; esac
    names=$gdb_names
    command -v mx >/dev/null || names="$names --mx $0"
    programs_of "$(nth_word 1 "$@")" | awk -v slot="$slot" 'slot == "" || NR == slot + 1' | sort -u | while read -r file; do
        folder=$(dirname "$file") stem=${file%.out}
        made=$folder/out/$(basename "$stem").gdb
        [ ! -e "$made" ] || continue
        makes=''
        if [ -f "$stem.c" ]; then makes=$(making "$folder")
        elif [ -f "$stem.s" ]; then makes="$names $stem.s"; fi
        [ -z "$makes" ] || echo "mx: gdb takes ${made#./} in place of $file: $makes" >&2
    done
}

# Says to gdb that it was given a file that hasn't the code where `mx gdb` has it, if there is one beside it that has.
tell_elf() {
    [ "$1" = gdb ] || return 0
    above=$PPID
    for _ in 1 2 3; do
        [ -r "/proc/$above/cmdline" ] || return 0
        tr '\0' '\n' <"/proc/$above/cmdline" | while read -r word; do
            made=${word%.elf}.gdb
            if [ "$made" != "$word.gdb" ] && [ -f "$word" ] && [ -f "$made" ]; then
                echo "mx: mx gdb has the code at 80000000, as $made has it and $word hasn't: gdb $made" >&2
            fi
        done
        above=$(sed -n 's/^PPid:[^0-9]*//p' "/proc/$above/status")
    done
}

# Says of a session that nobody can type, if no service of its machine may take a line; else, at a terminal, how to leave.
tell_session() {
    [ -n "$(explains_words "$@")" ] || return 0
    allowed=$(ask_program explain "$(nth_word 1 "$@")")
    case $allowed in
        '') ;;
        *IRQCTL*) [ ! -t 0 ] || echo "mx: Ctrl-A x leaves, Ctrl-A ? shows what else there is" >&2 ;;
        *) echo "mx: no service may take the lines of a keyboard (IRQCTL): nothing can be typed" >&2 ;;
    esac
}

# Says of these words what the program doesn't, which sees neither other files nor the other commands: if it explains.
tell_words() {
    case " $* " in *' --help '* | *' -h '*) return 0 ;; esac
    case " $* " in
        *' --no-explain '*) ;;
        *)
            tell_names "$@"
            tell_elf "$@" ;;
    esac
    [ -n "$(explains_words "$@")" ] || return 0
    tell_text "$@"
    tell_statements "$@"
    tell_config_place "$@"
    tell_code "$@"
    tell_machine "$@"
    tell_swapped "$@"
    tell_log "$@"
    tell_empty "$@"
    tell_look "$@"
    case $* in *-*) ;; *) return 0 ;; esac
    tell_option "$@"
    refuse_sign "$@"
    tell_slot "$@"
    tell_range "$@"
    tell_stop "$@"
}

# Whether these words are those of a session in which somebody types.
is_live() {
    [ "${1-}" = turns ] || return 1
    for word in "$@"; do
        [ "$word" != --live ] || return 0
    done
    return 1
}

# The file that ends the session of these words, if they name one.
stop_named() {
    named='' option=''
    for word in "$@"; do
        [ -z "$option" ] || named=$word
        option=''
        case $word in
            --stop) option=yes ;;
            --stop=*) named=${word#*=} ;;
        esac
    done
    printf '%s' "$named"
}

# Ends the session: its file is made, if it isn't there, and who feeds it ends. A program that goes on all the same, as while
# nobody reads the pipe that it writes, is ended by a signal that comes over a second later.
end_session() {
    woken=yes
    now=$(date +%s)
    if [ -z "$asked" ]; then
        asked=$now
    elif [ $((now - asked)) -gt 1 ]; then
        echo "mx: interrupted, and no history is written" >&2
        kill -KILL "${child-}" 2>/dev/null && killed=yes
    fi
    [ -e "$stop" ] || : >"$stop"
    [ -z "$feeder" ] || kill "$feeder" 2>/dev/null
}

# The terminal is as it was before, and nothing is left of the session.
leave_session() {
    [ -z "$saved" ] || stty "$saved" 2>/dev/null
    [ -z "$feeder" ] || kill "$feeder" 2>/dev/null
    rm -rf "$room"
}

# Runs a session of these words, by start_program of the script that calls it, which ends as the program. A terminal
# gives each key as it is typed, and no key makes a signal; at the end it is as before. The program sees no signals:
# those that end a command make the session's file, so that its history is saved. The status is the program's.
run_live() {
    saved='' feeder='' woken='' asked='' killed=''
    room=$(mktemp -d) || return 3
    stop=$(stop_named "$@")
    [ -n "$stop" ] || { stop=$room/stop; set -- "$@" --stop "$stop"; }
    # What runs beside the shell has no input but what it is given.
    exec 3<&0
    trap leave_session EXIT
    trap end_session INT TERM HUP
    tell_session "$@"
    if [ -t 0 ]; then
        saved=$(stty -g) || return 3
        stty -icanon -echo -isig -ixon -iexten min 0 time 0 || return 3
        (trap '' INT TERM HUP QUIT TSTP; start_program "$@" --raw) <&3 3<&- &
    else
        # A read of a pipe may wait for ever: so this one ends when its writer is ended.
        mkfifo "$room/keys" || return 3
        cat <&3 3<&- >"$room/keys" &
        feeder=$!
        (trap '' INT TERM HUP QUIT TSTP; start_program "$@") <"$room/keys" 3<&- &
    fi
    child=$!
    wait_for_child
    [ -z "$(explains_words "$@")" ] || tell_typed "$(nth_word 1 "$@")" "$(nth_word 2 "$@")"
    return "$status"
}

# Says of a session in which a byte was typed that no service has counted it: tell_typed CONFIG LOG.
tell_typed() {
    { is_readable "$1" && is_short "$2" && [ "$(wc -l <"$2")" -le 5000 ]; } || return 0
    ask_program trace "$1" "$2" | awk '
        $3 == "line" && $4 == "7:" { owner = $5 }
        / trap SENDREC SYSTEM, DEVIO 1 255 / { is_counted = 1 }
        END {
            if (owner && !is_counted)
                print "mx: " owner " has not written to register 255 (DEVIO) how many bytes it took, and no other byte comes before"
        }' >&2
}

# The status of the program that was started, also if a signal wakes who waits for it.
wait_for_child() {
    while :; do
        woken=''
        # A shell may say on standard error that a program was killed.
        wait "$child" 2>/dev/null
        status=$?
        [ -n "$woken" ] || break
    done
    [ -z "$killed" ] || status=130
    return "$status"
}

# Whether a history is as short as those of which the program itself says what went wrong.
is_short() {
    is_readable "$1" && awk '$2 == "back" { steps += $3 } END { exit NR > 20000 || steps > 10000000 }' "$1"
}

# For awk: a line of `mx why` on a call that no right machine makes: refused by a mask, to nobody, with no such number or with
# a buffer outside. Others are refused by what happens too, as if the other process dies.
mistaken='^refused: .*: (-10[347] |-14 EFAULT .buffer.)'

# Prints `= NAME MEANING` of each result of a call, as the table of $reference has it.
result_meanings() {
    ! is_readable "${reference-}" || awk -F ' *[|] *' '
        NF == 6 && $2 ~ /^-[0-9]+$/ && length($3) == 8 && $4 ~ /^E[A-Z]+$/ { print "= " $4 " " $5 }' "$reference"
}

# Says of a history of which `mx why` says $became which calls were refused in it: the first that no right machine makes, or
# else the first, and what its result means, if the line doesn't say it: tell_calls CONFIG LOG. The program has told the
# first whose result had to be read, if nothing goes before that and the history wasn't stopped, as $driven ones are that are
# open: then it isn't said again.
tell_calls() {
    stopped=''
    case $driven$became in ?*'ends: open '*) stopped=yes ;; esac
    { result_meanings; printf '%s\n' "$became"; } | awk -v asking="mx why $1 $2" -v mistaken="$mistaken" -v stopped="$stopped" '
        $1 == "=" { name = $2; sub(/^= [A-Z]* /, ""); means[name] = $0; next }
        /^(never|busy): |^waits: .*(none of them RECEIVE| since is refused|, without a call)$|^died: .* of fault / { goes_before = 1 }
        /^died: .*; respawned at / { name = $2; sub(/,$/, ":", name); is_back[name] = 1 }
        /^refused: and [0-9]+ more$/ { groups += $3; next }
        !/^refused: / { next }
        { groups++ }
        !any { any = $0 }
        $0 ~ mistaken && !first { first = $0 }
        # Who sends to one that is absent need not care.
        / is never read$/ && !($3 ~ /^(SEND|NOTIFY)$/ && /: -10[56] /) && !careless { careless = $0 }
        END {
            if (!first) first = any
            if (!first) exit
            if (careless && !goes_before && !stopped) first = careless
            else print "mx: " first "; " (groups > 1 ? groups - 1 " more: " : "") asking
            if (!match(first, /: -[0-9]+ E[A-Z]+(,| while )/)) exit
            split(substr(first, RSTART + 2, RLENGTH - 2), result, /[ ,]/)
            if (!(result[2] in means)) exit
            split(first, word, " ")
            if (result[2] == "EDEADDST" && word[4] in is_back) who = ": WHOIS tells who is there now"
            print "mx: " result[2] ": " means[result[2]] who
        }' >&2
}

# Says of who had a call refused, or died of a fault, by $became, that nothing was put in EBX for its first call with a
# message: it is 0, and no instruction above that call names it. Leaves their names in `unset`: tell_unset CONFIG LOG.
tell_unset() {
    unset=' '
    [ -n "$shown" ] || return 0
    for name in $(printf '%s\n' "$became" | sed -n 's/^refused: \([A-Za-z0-9_]*\): .*/\1/p; s/^died: \([A-Za-z0-9_]*\),.* of fault .*/\1/p' | sort -u); do
        call=$(printf '%s\n' "$shown" | awk -v name="$name" '
            $3 == "back" && $5 == name && $7 == "trap" && $8 ~ /^(SEND|RECEIVE|SENDREC)$/ { print $8 " at record " $1; exit }')
        [ -n "$call" ] || continue
        registers=$(printf 'goto %s\nregs %s\n' "${call##* }" "$name" | ask_program look "$1" "$2")
        case $registers in *'EBX 00000000'*) ;; *) continue ;; esac
        place=$(printf '%s\n' "$registers" | sed -n 's/^EIP \([0-9a-f]*\) .*/\1/p')
        ! ask_program dis "$(program_of "$1" "$name")" | awk -v place="$place" '
            $1 >= place { exit }
            / (ebx|bx|bl|bh)(,|$)/ { is_named = 1; exit }
            END { exit !is_named }' || continue
        echo "mx: $name put nothing in EBX for its $call, so the message is at address 0: wanted mov ebx, and where it is" >&2
        unset="$unset$name "
    done
}

# Says of a history that was just made which calls were refused in it. If the clock could have ticked, says who waits for it
# too: tell_history CONFIG LOG TICKS DRIVEN, where TICKS is what would make it tick, and DRIVEN the command, if that is `run`
# or `turns`. Of who died, says what the instruction is that the machine hasn't, and that nothing says where it begins. Leaves
# in `became` what `mx why` says, and in `shown` what `mx trace` does, both empty for a long history.
tell_history() {
    became='' shown='' driven=$4
    { is_readable "$1" && is_short "$2"; } || return 0
    became=$(ask_program why "$1" "$2")
    [ "$(wc -l <"$2")" -gt 5000 ] || shown=$(ask_program trace "$1" "$2")
    slots=$(awk '{ sub(/#.*/, "") } $1 == "service" { printf " %d %s", slot++, $2 }' "$1")
    tell_calls "$1" "$2"
    tell_unset "$1" "$2"
    printf '%s\n' "$became" | awk -v mistaken="$mistaken" -v ticks="$3" -v slots="$slots" -v unset="$unset" '
        $0 ~ mistaken { is_mistaken = 1 }
        # Of a caller whose message is elsewhere the partner and the type are there by chance.
        /^refused: / { caller = $2; sub(/:$/, "", caller); is_unset = index(unset, " " caller " ") }
        /^refused: / && $3 ~ /^(SEND|SENDREC|NOTIFY)$/ && $2 == $4 && !self && !is_unset { self = caller }
        /^waits: .* from CLOCK .* alarm is due / { alarm = $0 }
        /^refused: .*: kernel call, type 0: -107 / && !is_unset {
            print "mx: the answer of a call overwrites its message, and its type is 0 then: wanted the type set again"
        }
        /^died: .* of fault 0 at / { print "mx: fault 0 is a division by 0, or one whose result doesn\047t fit" }
        /^died: .* of fault 13 at .* int 0x[0-9a-f]*: no process may do this/ { print "mx: a trap is int 33, which is int 0x21" }
        /^died: .* of fault 13 at .* no code: the code ends at / {
            place = $0
            sub(/.* of fault 13 at /, "", place)
            end = place
            sub(/.* the code ends at /, "", end)
            if (substr(place, 1, 8) == substr(end, 1, 8)) came = $2
        }
        /^CONFIG: .*: its program .* has no instruction$/ { empty[$2]; print "mx: " $0 }
        /^died: .* of fault 6 at .* \.data1 0xf0(;|$)/ {
            print "mx: 0xf0 is the prefix LOCK, which the machine hasn\047t: gcc makes it of _Atomic and __sync"
        }
        /^died: .* of fault 6 at .* \.data1 0xd[89a-f](;|$)/ { print "mx: there is no floating point: wanted whole numbers" }
        END {
            sub(/,$/, "", came)
            if (came && !is_mistaken && !((came ":") in empty)) print "mx: " came " came to the end of its code: wanted EXIT, a jmp or a ret before that"
            if (self) print "mx: " self " calls itself: slots are in the order of the services in CONFIG:" slots
            if (alarm && ticks) print "mx: " alarm "; the clock made no tick: " ticks
        }' >&2
    tell_course "$3"
    tell_silence
    tell_windows
    tell_answered
    printf '%s\n' "$became" | sed -n 's/^died: \([A-Za-z0-9_]*\),.* (the stack is empty: .*/\1/p' | while read -r name; do
        tell_entry "$1" "$name"
    done
    tell_stacks "$1" "$2"
    tell_null "$1" "$2"
    tell_ud2 "$1"
}

# Says of a short history that was just made what its trace shows of calls that end well: a service that ends and comes back,
# a kernel call's type that went to a process, words for another register than the console's; if it is full, which calls
# were made most, and that the clock didn't tick for who reads it: tell_course TICKS.
tell_course() {
    [ -n "$shown" ] || return 0
    printf '%s\n' "$shown" | awk -v ends="$became" -v ticks="$1" '
        $3 == "back" && $7 == "trap" {
            made = $5 " " $8 " " $9
            if ($9 == "SYSTEM,") made = made " " $10
            register = $10 == "DEVIO" && $11 == 1 ? $12 : 0
            writer = $5
            if ($10 == "DEVIO" && $11 == 0 && $12 == 0 && !reader) reader = $5
            if (!times[made]++) order[++kinds] = made
        }
        $2 == "answer" && $3 == 0 && register > 0 && !other { other = writer " wrote register " register }
        $2 == "console" { is_written = 1 }
        $3 == "tick" { ticks = "" }
        / -> down exit$/ { if (!exits[$2]++) enders[++ended] = $2 }
        /: down exit -> ready$/ { returns[$2]++ }
        $2 == "message" && $8 == "type" && $9 >= 1536 && $9 <= 1544 && !sent {
            sent = $3 " sent " $6 " the type " sprintf("0x%x", $9) ", a call of SYSTEM, at record " $1
        }
        END {
            for (at = 1; at <= ended; at++)
                if ((name = enders[at]) in returns) print "mx: " name " ended by EXIT, " (exits[name] > 1 ? exits[name] " times" : "once") ", and came back, as after a death: restarts 0 lets it end"
            if (sent) print "mx: " sent ": SYSTEM is -2 in EAX"
            if (reader && !is_written) print "mx: nothing is on the console: " reader " read register 0, since p0 was 0; 1 writes"
            if (other && !is_written) print "mx: nothing is on the console, which is register 0: " other
            if (ends !~ /^ends: full/) exit
            for (count = 0; count < 3; count++) {
                most = ""
                for (at = 1; at <= kinds; at++)
                    if (times[order[at]] > 1 && (most == "" || times[order[at]] > times[most])) most = order[at]
                if (most == "") break
                list = list (list ? "; " : "") most ", " times[most] " times"
                times[most] = 0
            }
            if (list) print "mx: made most: " list
            if (list ~ /^[^;]* SENDREC SYSTEM, TIMES, / && ticks) print "mx: the clock made no tick: " ticks
        }' >&2
}

# Says of a history at rest, of which `mx why` says no more, that nobody sends: no other call than RECEIVE is in $shown, and
# nobody is down.
tell_silence() {
    case $became in
        *'
'*) return 0 ;;
        'ends: rest '*) ;;
        *) return 0 ;;
    esac
    printf '%s\n' "$shown" | awk '
        / -> down / || ($3 == "back" && $7 == "trap" && $8 != "RECEIVE") { others = 1 }
        $3 == "back" && $8 == "RECEIVE" && !received[$5]++ { waiting = waiting (waiting ? ", " : "") $5 }
        END { if (waiting && !others) print "mx: nobody sends: all wait in RECEIVE, " waiting }' >&2
}

# Says of the copies in $shown that were refused for a window which window there was then, the first of each kind.
tell_windows() {
    printf '%s\n' "$shown" | awk '
        # Whether a window of the owner is there, for reading (1) or for writing (2). If not, says what there is.
        function is_open(owner, kind, from, count, earlier) {
            if (!(owner in name)) return 0
            at = owner " " copier
            owner_name = name[owner] " " name[copier]
            held = access[at] + 0
            if (held == 0 && (earlier = opened_before(owner))) {
                tell(owner_name " earlier", "the window of " name[owner] " to " name[copier] ", since record " since[earlier] \
                    ", was to the process before it: GRANT opens one to " copier)
            } else if (held == 0) {
                tell(owner_name " none", name[owner] " had opened no window to " name[copier] " by record " $1 ": GRANT opens one")
            } else if (held != 3 && held != kind) {
                tell(owner_name " kind", "the window of " name[owner] " to " name[copier] ", since record " since[at] ", is for " \
                    (held == 1 ? "reading" : "writing") ", and the copy of record " $1 " wants " \
                    (kind == 1 ? "reading" : "writing"))
            } else if (from < begin[at] || from + count > begin[at] + size[at]) {
                tell(owner_name " size", "the window of " name[owner] " to " name[copier] ", since record " since[at] ", has " size[at] \
                    " bytes from " begin[at] " on, and the copy of record " $1 " wants " count " from " from " on")
            } else return 1
            return 0
        }
        # A window of the owner to an earlier process of the copier, which has its name.
        function opened_before(owner, at, ends) {
            for (at in access) {
                split(at, ends, " ")
                if (access[at] && ends[1] == owner && ends[2] != copier && name[ends[2]] == name[copier]) return at
            }
            return ""
        }
        function tell(kind, words) { if (!told[kind]++ && count_told++ < 3) print "mx: " words }
        $3 == "take:" { name[$5] = $4 }
        $3 == "back" { call = $10; copier = $6; for (word = 1; word <= 5; word++) p[word - 1] = $(word + 10) + 0 }
        $2 == "answer" && $3 == 0 && call == "GRANT" {
            at = p[0] < 0 ? "" : copier " " p[0]
            access[at] = p[3]; begin[at] = p[1]; size[at] = p[2]; since[at] = $1
        }
        $2 == "answer" && $3 == -1 && call == "VIRCOPY" {
            is_source = p[0] == copier || is_open(p[0], 1, p[1], p[4])
            if (is_source && p[2] != copier) is_open(p[2], 2, p[3], p[4])
        }' >&2
}

# Says of lines of $shown that were raised again before their owner had the notification of the time before, the first three,
# by the words for each of all lines, if there are any: tell_raised NAMES.
tell_raised() {
    { printf '%s\n' "$1" | sed 's/^/= /'; printf '%s\n' "$shown"; } | awk '
        function place(number) { return number in words ? words[number] : "record " record[number] }
        function tell() {
            if (!is_raised || is_noted) return
            if (before[line] && count++ < 3)
                print "mx: " place(raised) " (line " line ") came before " owner " had the notification of " \
                    place(before[line]) ": it gets one for both"
        }
        $1 == "=" { if (NF > 1) { sub(/^= /, ""); words[++named] = $0 } next }
        $2 == "notify" && is_raised && $1 == record[raised] { is_noted = 1; before[line] = raised }
        $1 == last { next }
        { tell(); last = $1; is_raised = is_noted = 0 }
        $3 == "line" { is_raised = 1; record[++raised] = $1; line = $4; sub(/:/, "", line); owner = $5 }
        END { tell() }' >&2
}

# Says of the first message in $shown that has the type of a notification from whom it goes to that it is one.
tell_answered() {
    printf '%s\n' "$shown" | awk '
        $2 == "notify" && $5 == "to" && $8 == "type" { told[$7] = $4 }
        $2 == "message" && $8 == "type" {
            if ($9 == 4096 && ($4 in told) && told[$4] == $7) {
                print "mx: the message of " $3 " to " $6 " at record " $1 " has the type of a notification, 0x1000, as " $6 \
                    " sent one: a NOTIFY carries no words, and p0 is the uptime"
                exit
            }
            delete told[$7]
        }' >&2
}

# The program of a service of a configuration: program_of CONFIG NAME.
program_of() {
    awk -v name="$2" '{ sub(/#.*/, "") } $1 == "service" && $2 == name { print $3; exit }' "$1"
}

# Says of who died since its stack was used up, by $became, where its size stands: tell_stacks CONFIG LOG. Of fault 13 it asks
# for ESP.
tell_stacks() {
    printf '%s\n' "$became" | sed -n 's/^died: \([A-Za-z0-9_]*\),.* at record \([0-9]*\), of fault 1\([23]\) at .*: [0-9a-f]* is past the limit \([0-9a-f]*\)\(.*\)/\1 \2 \3 \4 \5/p' |
        while read -r name record fault limit rest; do
            case $fault$rest in
                2*'the stack is used up'*) ;;
                3*)
                    [ -n "$shown" ] || continue
                    esp=$(printf 'goto %s\nregs %s\n' "$record" "$name" | ask_program look "$1" "$2" | sed -n 's/^ESP \([0-9a-f]*\) .*/\1/p')
                    case $esp in [89a-f]???????) ;; *) continue ;; esac ;;
                *) continue ;;
            esac
            file=$(program_of "$1" "$name")
            stem=${file%.out}
            if [ -f "$stem.c" ]; then more="stack_$(basename "$stem") = N in the Makefile gives it more"
            else more=".stack N in its text gives it more"; fi
            echo "mx: $name's stack is used up${esp:+ (ESP is $esp, outside of its memory)}: $more" >&2
        done
}

# Says of who died at an instruction of gcc for what can't be, by $became, which line of its source that is: tell_ud2 CONFIG.
tell_ud2() {
    printf '%s\n' "$became" | sed -n 's/^died: \([A-Za-z0-9_]*\),.* of fault 6 at \([0-9a-f]*\) .*\.data1 0xf;.*/\1 \2/p' |
        while read -r name place; do
            file=$(program_of "$1" "$name")
            is_program "$file" || continue
            [ "$(od -An -tx1 -j $((0x$place + 32)) -N2 "$file" | tr -d ' ')" = 0f0b ] || continue
            made=$(dirname "$file")/out/$(basename "$file" .out).elf
            where=''
            [ ! -f "$made" ] || where=": addr2line -e ${made#./} 0x$place says which"
            echo "mx: 0f 0b is ud2, which gcc writes where a line can only go wrong, as by a null pointer$where" >&2
        done
}

# Whether a program is one of C whose data begins with 16 bytes that no object has, by the linker script beside it.
has_unused_front() {
    stem=${1%.out}
    { [ "$stem" != "$1" ] && [ -f "$stem.c" ] && is_program "$1"; } || return 1
    [ "$(od -An -tx1 -j 2 -N 1 "$1" | tr -d ' ')" = 30 ] || return 1
    { is_readable "$(dirname "$1")/separate.ld" && grep -q '^ *\. += 16;' "$(dirname "$1")/separate.ld"; } || return 1
    size=$(od -An -tu4 -j 8 -N 4 "$1" | tr -d ' ')
    [ "$(od -An -v -tx1 -j $((size + 32)) -N 16 "$1" | tr -d ' \n')" = 00000000000000000000000000000000 ]
}

# Says of who is made of C that bytes were written which no object has, by a null pointer: tell_null CONFIG LOG.
tell_null() {
    [ -n "$shown" ] || return 0
    awk '{ sub(/#.*/, "") } $1 == "service" { print $2, $3 }' "$1" | while read -r name file; do
        has_unused_front "$file" || continue
        printf 'goto end\nmem %s 0 16\n' "$name" | ask_program look "$1" "$2" | grep -q '^00000000 .*[1-9a-f]' || continue
        echo "mx: $name: the bytes at 0 to 15 were written, where C has no object: a null pointer is used, or an index is outside" >&2
    done
}

# Says of a service of a configuration that its text doesn't say where it begins.
tell_entry() {
    file=$(program_of "$1" "$2")
    text=${file%.out}.s
    { [ "$text" != "$file.s" ] && is_readable "$text" && is_made_of "$text" "$file"; } || return 0
    awk -v file="$text" -v name="$2" "$plain_line"'
        { code = plain($0) }
        code ~ /^\.entry/ { has_entry = 1 }
        code ~ /^[^.]/ && !line { line = NR }
        END {
            if (line && !has_entry)
                print "mx: " file " has no .entry, so " name " begins at its first instruction, line " line
        }' "$text" >&2
}

# Says of a history that was just made that what is on the console can't be seen, if that is so of all its bytes.
tell_console() {
    { is_readable "$1" && is_short "$2"; } || return 0
    ask_program replay "$1" "$2" | LC_ALL=C sed '1,/^console [0-9]*$/d' | LC_ALL=C tr -d ' \t\n\r' | od -An -v -tx1 | awk '
        { for (at = 1; at <= NF; at++) { bytes = bytes " " $at; if ("" $at > "20" && $at != "7f") is_seen = 1 } }
        END { if (bytes && !is_seen) print "mx: nothing on the console can be seen: its bytes are" substr(bytes, 1, 48) }' >&2
}

# The option that makes the clock tick, if these words have none.
missing_ticks() {
    [ -n "$(value_of --ticks "$@")$(value_of --events "$@")" ] || echo "--ticks T"
}

# Says of a configuration that its history has no room for a service's first turn.
tell_room() {
    ! is_readable "$1" || awk '
        { sub(/#.*/, "") }
        $1 == "log" && $2 == 1 { print "mx: wanted log 2 or more: a service is taken and comes back, which are 2 records" }' "$1" >&2
}

# Says that the turns of these words are made, and who is ready, if that ended them, by $became.
tell_turns() {
    turns=$(value_of --turns "$@") stopping=$(stop_named "$@")
    { [ "$1" = turns ] && [ -n "$turns" ]; } || return 0
    [ -z "$stopping" ] || [ ! -e "$stopping" ] || return 0
    printf '%s\n' "$became" | sed -n "s/^ends: open after [0-9]* records\\(.*\\)/mx: the turns of --turns $turns are made\\1/p" >&2
    tell_events "$turns" "$@"
}

# Says of the first `kill E` in the EVENTS of these words that was refused, if more turns were made than it has events: event
# N is made in turn N, so it is refused if that turn adds no record of it. tell_events TURNS WORDS
tell_events() {
    turns=$1
    shift
    config=$(nth_word 1 "$@") log=$(nth_word 2 "$@") events=$(value_of --events "$@")
    case $became in 'ends: open '*) is_readable "$events" || return 0 ;; *) return 0 ;; esac
    cpus=$(cpus_of "$config") room=$(mktemp -d) || return 0
    awk -v turns="$turns" -v actor="${cpus:-1}" '
        NR == FNR { if ($1 == actor && $2 == "kill") made[$3]++; next }
        { sub(/#.*/, "") }
        NF { event++ }
        event <= turns && $1 == "kill" && $2 ~ /^[0-9]+$/ { line[++count] = FNR; at[count] = event; whom[count] = $2; asked[$2]++ }
        END {
            for (each = 1; each <= count; each++)
                if (asked[whom[each]] > made[whom[each]] + 0) { print line[each], at[each], whom[each]; if (++told == 8) exit }
        }' "$log" "$events" | while read -r line event whom; do
        ask_program turns "$config" "$room/before" --events "$events" --turns $((event - 1)) --no-sums --force >"$room/report" &&
            ask_program turns "$config" "$room/after" --events "$events" --turns "$event" --no-sums --force >/dev/null || break
        ! tail -n "+$(($(wc -l <"$room/before") + 1))" "$room/after" | grep -q ' kill ' || continue
        awk -v at="mx: $events line $line (kill $whom) was refused: " -v whom="$whom" '
            $1 ~ /^[0-9]+$/ && $1 == whom % 1024 && $3 != whom {
                print at "slot " $1 " has the endpoint " $3 " then: kill " $2 " takes the one that is there"
            }' "$room/report" >&2
        break
    done
    rm -rf "$room"
}

# Says why an outside event of a run that rests has no record, which `mx why` names, if the history has room for more: tell_lost CONFIG LOG EVENTS.
tell_lost() {
    case $became in 'ends: rest '*) is_readable "$3" || return 0 ;; *) return 0 ;; esac
    room=$(awk '{ sub(/#.*/, "") } $1 == "log" { print $2; exit }' "$1")
    [ "$(grep -c '^[0-9]' "$2")" -lt "${room:-0}" ] || return 0
    ask_program why "$1" "$2" --events "$3" | sed -n \
        -e 's/^outside: EVENTS line \([0-9]*\) (line \([0-9]*\)) .*/mx: EVENTS line \1: no process owned line \2 then: IRQCTL makes it one'"'"'s/p' \
        -e 's/^outside: EVENTS line \([0-9]*\) (kill \([0-9]*\)) .*/mx: EVENTS line \1: no process that lives had the endpoint \2 then: kill NAME finds a service/p' >&2
}

# Names once what shows the records of a new history, if nothing else is said of it.
tell_first() {
    case $became in
        *'
'*) return 0 ;;
        'ends: rest '*) ;;
        *) return 0 ;;
    esac
    debugs=''
    [ "$1 $2" != "machine.config machine.log" ] || ! grep -q '^debug:' Makefile 2>/dev/null || debugs='; in gdb: make debug'
    echo "mx: each call and message of it: mx trace $1 $2$debugs" >&2
}

# Says what isn't told yet of a run or of turns that ended so: tell_ended STATUS WORDS.
tell_ended() {
    ended=$1
    shift
    case $ended in
        0)
            tell_room "$(nth_word 1 "$@")"
            # In a subshell, as what is said is kept until all is.
            (
                said=$(mktemp) || exit
                exec 4>&2 2>"$said"
                tell_history "$(nth_word 1 "$@")" "$(nth_word 2 "$@")" "$(missing_ticks "$@")" "$1"
                [ -z "$(value_of --events "$@")" ] || tell_raised ''
                tell_lost "$(nth_word 1 "$@")" "$(nth_word 2 "$@")" "$(value_of --events "$@")"
                tell_turns "$@"
                tell_console "$(nth_word 1 "$@")" "$(nth_word 2 "$@")"
                [ -z "$fresh" ] || [ -s "$said" ] || tell_first "$(nth_word 1 "$@")" "$(nth_word 2 "$@")"
                cat "$said" >&4
                rm -f "$said"
            ) ;;
        1 | 3) tell_failure "$@" ;;
        130) [ ! -f "$(nth_word 2 "$@")" ] ||
            echo "mx: what it did until then: mx why $(nth_word 1 "$@") $(nth_word 2 "$@")" >&2 ;;
    esac
}

# Whether these words are those of a run or of turns, in which nobody types.
can_stop() {
    case ${1-} in run | turns) ;; *) return 1 ;; esac
    # A mistake in the words is told by the program, of the words as they were typed.
    [ -n "$(nth_word 2 "$@")" ] || return 1
    ! is_live "$@"
}

# Makes a run or turns of these words, by start_program of the script that calls it, which ends as the program. The
# program sees no signals: those that end a command make the file that stops it, so that LOG has what was done until
# then. The status is the program's.
run_stoppable() {
    saved='' feeder='' woken='' asked='' killed=''
    room=$(mktemp -d) || return 3
    stop=$(stop_named "$@")
    [ -n "$stop" ] || { stop=$room/stop; set -- "$@" --stop "$stop"; }
    fresh=''
    [ -e "$(nth_word 2 "$@")" ] || fresh=yes
    # What runs beside the shell has no input but what it is given, if there is one.
    if [ -e /dev/fd/0 ]; then exec 3<&0; else exec 3</dev/null; fi
    trap leave_session EXIT
    trap end_session INT TERM HUP
    (trap '' INT TERM HUP; start_program "$@") <&3 3<&- &
    child=$!
    wait_for_child
    [ -z "$(explains_words "$@")" ] || tell_ended "$status" "$@"
    return "$status"
}

# Whether these words are those of a command of which something is to be told afterwards.
is_told_after() {
    case " $* " in *' --help '* | *' -h '*) return 1 ;; esac
    case ${1-} in
        as | step | db | replay | trace | draw | page | sweep | explain) ;;
        # It is made twice, so it has to be short.
        one) [ "$(nth_word 2 "$@")" -le 1000000 ] 2>/dev/null || return 1 ;;
        *) return 1 ;;
    esac
    [ -n "$(explains_words "$@")" ]
}

# Runs these words, by start_program of the script that calls it, and says what isn't told yet: of a failure how it is
# mended, of a step that its history goes nowhere, and what was refused. The status is the program's.
run_told() {
    if [ "$1" = as ]; then
        run_as "$@"
        return
    fi
    (start_program "$@")
    status=$?
    case $status in
        0) tell_done "$@" ;;
        1 | 3) tell_failure "$@" ;;
    esac
    return "$status"
}

# Assembles by these words and says what isn't told yet. Of a text that is refused the program's second line is left out where
# it names a number without its sign, or tells what all may have and one has alone.
run_as() {
    exec 4>&1
    case " $* " in
        *' --explain '*) said=$( (start_program "$@") 2>&1 >&4 4>&-) ;;
        *) said=$( (start_program "$@" --explain) 2>&1 >&4 4>&-) ;;
    esac
    status=$? text=$(nth_word 1 "$@") tip=''
    exec 4>&-
    case $status in
        0) tip=$(tell_addresses "$text" 2>&1; tell_data "$text" 2>&1; tell_pushes "$text" 2>&1) ;;
        1) ! is_readable "$text" || tip=$(tell_faulty "$text" "$said" 2>&1) ;;
    esac
    case $tip in *': wanted a number without a sign, '* | *' alone is more than '*) said=$(printf '%s\n' "$said" | head -n 1) ;; esac
    for lines in "$said" "$tip"; do
        [ -z "$lines" ] || printf '%s\n' "$lines" >&2
    done
    return "$status"
}

# Says what isn't told yet of a command that ended well.
tell_done() {
    case $1 in
        one) tell_kernel "$@" ;;
        sweep) tell_replaced "$@" ;;
        db) tell_looks "$(nth_word 1 "$@")" "$(nth_word 2 "$@")" ;;
        step)
            tell_answers "$(nth_word 1 "$@")" "$(nth_word 2 "$@")"
            log=$(value_of --save "$@")
            if [ -n "$log" ]; then
                tell_history "$(nth_word 1 "$@")" "$log" '' ''
            else
                echo "mx: the history isn't saved: --save LOG" >&2
            fi ;;
    esac
}

# Says of a program that was run alone and stopped at a call for another process that nobody answers it here.
tell_kernel() {
    ask_program "$@" | awk '
        { for (at = 1; at < NF; at += 2) has[$at] = $(at + 1) }
        /^stop trap / { is_trap = 1 }
        END {
            split("SEND RECEIVE SENDREC NOTIFY", call, " ")
            number = has["ECX"] ~ /^0000000[1-4]$/ ? substr(has["ECX"], 8) : 0
            whom = has["EAX"] == "00007ace" ? "any" : has["EAX"] ~ /^0000000[0-9]$/ ? "slot " substr(has["EAX"], 8) : ""
            if (is_trap && number && whom)
                print "mx: it stopped at its call " call[number] " " whom \
                    ", which nobody answers, as mx one has no kernel: mx turns CONFIG LOG runs a machine"
        }' >&2
}

# Says of a kill in FAULT whose endpoint no process of the history has any more from a position on that it is refused there.
tell_replaced() {
    config=$(nth_word 1 "$@") log=$(nth_word 2 "$@") fault=$(nth_word 3 "$@") to=$(value_of --to "$@")
    { is_readable "$config" && is_readable "$fault" && is_short "$log"; } || return 0
    awk -v file="$fault" -v to="$to" -v names="$(names_of "$config")" '
        BEGIN { services = split(names, name, " ") }
        NR == FNR {
            if ($1 ~ /^[0-9]/ && NF > 1) records++
            if ($2 == "respawn") { slot = $3 + 0; position[slot, ++generation[slot]] = records }
            next
        }
        { sub(/#.*/, "") }
        $1 == "kill" && $2 ~ /^[0-9]+$/ && NF == 2 {
            slot = $2 % 1024; at = position[slot, int($2 / 1024) + 1]
            if (at && slot < services && (to == "" || at <= to + 0)) {
                print "mx: " file " line " FNR " (kill " $2 ") is refused from position " at " on, as slot " slot \
                    " has the endpoint " $2 + 1024 " there: kill " name[slot + 1] " takes the one that is there"
                exit
            }
        }' "$log" "$fault" >&2
}

# Says what isn't told yet of a command that failed.
tell_failure() {
    config=$(nth_word 1 "$@") second=$(nth_word 2 "$@")
    said=$(failure_of explain "$config" --check)
    if [ -n "$said" ]; then
        tell_config "$config" "$said"
        return
    fi
    case $1 in
        step | db)
            if is_program "$second"; then tell_script_form "$1" "$config"
            else ! is_short_script "$second" || tell_script "$config" "$second" "$(failure_of "$1" "$config" "$second")"; fi ;;
        run | turns) tell_script "$config" "$(value_of --events "$@")" '' ;;
        replay | trace | draw | page) tell_refused "$config" "$second" ;;
        sweep) tell_fault "$config" "$second" "$(nth_word 3 "$@")" ;;
    esac
}

# Says what the lines of a script of `step` or `db` are, as the program says it of a line that is none.
tell_script_form() {
    none=$(mktemp) || return 0
    echo '?' >"$none"
    failure_of "$1" "$2" "$none" | sed -n 's/^mx: SCRIPT .*: wanted \(.*\), stands "?"$/mx: a script is a text; a line of it is \1/p' >&2
    rm -f "$none"
}

# Says of a text that is refused with these lines what its mistake is.
tell_faulty() {
    fault=$(printf '%s\n' "$2" | sed -n '1s/^mx: [0-9]* \([A-Za-z]*\) line \([0-9]*\)$/\2 \1/p')
    [ -z "$fault" ] || tell_statement "$1" "${fault% *}" "${fault#* }"
}

# Says of a configuration that is refused with these lines what a program's file is, or its name, or how an item's word is.
tell_config() {
    file=$(printf '%s\n' "$2" | sed -n "s/^mx: a service's program \(.*\): wanted .*/\1/p")
    name=${file#[\"\']}
    name=${name%[\"\']}
    if [ -z "$file" ]; then
        tell_item "$1" "$(printf '%s\n' "$2" | sed -n '1s/^mx: 70 BadLine line \([0-9]*\)$/\1/p')"
    elif [ "$name" != "$file" ] && [ -f "$name" ]; then
        echo "mx: $1: wanted the program's name without quotes: $name is there" >&2
    elif [ ! -e "$file" ]; then
        tell_programs "$file"
    fi
    case $2 in
        *'mx: 26 TooLarge'*) echo "mx: a program has at most 1048576 bytes of text, and 4194304 in all, with its stack" >&2 ;;
        *'this is an ELF file'*) echo "mx: mx new NAME --c makes a folder in which make makes such programs of C" >&2 ;;
    esac
}

# Says of a line of a configuration that its item's word has a colon, or is in upper case.
tell_item() {
    { [ -n "$2" ] && is_readable "$1"; } || return 0
    awk -v line="$2" -v at="mx: $1 line $2: " '
        NR == line {
            word = tolower($1)
            colon = sub(/:$/, "", word)
            if (word !~ /^(cpus|others|log|rules|service)$/ || word == $1) exit
            print at "wanted " word (colon ? ", without :" : ", in lower case")
        }' "$1" >&2
}

# Says what makes a program that isn't there, if its text is; else which programs are in its folder, if they are few.
tell_programs() {
    folder=$(dirname "$1") stem=${1%.out}
    [ ! -f "$stem.c" ] || return 0
    if [ "$stem" != "$1" ] && [ -f "$stem.s" ]; then
        echo "mx: $stem.s is there: mx as $stem.s $1" >&2
        return
    fi
    there=''
    for file in "$folder"/*.out; do
        [ ! -f "$file" ] || there="$there ${file#./}"
    done
    [ -z "$there" ] || [ "$(echo "$there" | wc -w)" -gt 8 ] || echo "mx: these are there:$there" >&2
}

# The names of a configuration's services, in the order of their slots.
names_of() {
    awk '{ sub(/#.*/, "") } $1 == "service" { printf "%s ", $2 }' "$1"
}

# How many processors a configuration has.
cpus_of() {
    awk '{ sub(/#.*/, "") } $1 == "cpus" { print $2; exit }' "$1"
}

# Says of a script that is refused with these lines which number was wanted for a name, or that a line has more than an event,
# or none.
tell_script() {
    line=$(printf '%s\n' "$3" | sed -n '1s/^mx: 73 BadRecord line \([0-9]*\)$/\1/p')
    { [ -n "$line" ] && is_readable "$2"; } || return 0
    awk -v line="$line" -v cpus="$(cpus_of "$1")" -v at="mx: $2 line $line: " '
        NR == line && $1 ~ /^(take|step|back|go)$/ && $2 ~ /^[A-Za-z_]/ {
            print at "C is the number of a processor, 0 to " cpus - 1 ", and no service: stands \"" $2 "\""
        }
        NR == line && /^[ \t\r]*$|[;#]|\/\// { print at "blank lines, comments and ; aren\047t allowed in a script" }' "$2" >&2
}

# Whether a script is as short as to be made once more.
is_short_script() {
    is_readable "$1" && awk '$1 == "step" || $1 == "go" { steps += $3 } END { exit NR > 20000 || steps > 10000000 }' "$1"
}

# Whether a line of a script is raised twice.
raises_again() {
    awk '$1 == "line" && is_raised[$2]++ { again = 1 } END { exit !again }' "$1"
}

# Says of the lines of a script that is made once more which were raised before their owner had the time before.
tell_script_lines() {
    raises_again "$2" || return 0
    made=$(mktemp) || return 0
    answers=$(ask_program step "$1" "$2" --numbered --save "$made" --no-sums --force)
    shown=$(ask_program trace "$1" "$made")
    rm -f "$made"
    tell_raised "$(printf '%s\n' "$answers" | awk -v script="$2" '
        NR == FNR { if ($2 == "refused") is_refused[$1 + 0] = 1; next }
        $1 == "line" && !(FNR in is_refused) { print script " line " FNR }' - "$2")"
}

# Says of the events of a script that were refused why, the first three: they are made once more, and each answer has the
# number of its line then.
tell_answers() {
    { is_readable "$1" && is_short_script "$2"; } || return 0
    tell_script_lines "$1" "$2"
    ask_program step "$1" "$2" --numbered | awk -v script="$2" -v cpus="$(cpus_of "$1")" \
        -v services="$(programs_of "$1" | wc -l)" '
        NR == FNR {
            if ($2 == "refused") code[$1 + 0] = $3
            next
        }
        !(FNR in code) || said[$0]++ { next }
        { why = "" }
        code[FNR] ~ /^5[01]$/ && $2 + 0 >= cpus { why = "there is no processor " $2 ", since CONFIG has cpus " cpus }
        code[FNR] == 50 && $2 + 0 < cpus { why = "processor " $2 " has a process: back " $2 " comes before" }
        code[FNR] == 51 && $2 + 0 < cpus { why = "processor " $2 " has no process: take " $2 " comes before" }
        code[FNR] == 55 { why = "its process has stopped: back " $2 " comes before" }
        code[FNR] == 40 { why = "the process of slot " $2 " lives: a kill comes before" }
        code[FNR] == 53 { why = $2 + 0 > 15 ? "lines are 0 to 15" : "no process has taken line " $2 }
        code[FNR] == 54 { why = $1 == "take" ? "no process is ready" : "no process that lives has the endpoint " $2 }
        code[FNR] == 42 { why = "S is a slot, 0 to " services - 1 }
        code[FNR] == 41 { why = "the restarts of CONFIG are used up" }
        why { print "mx: " script " line " FNR " (" $0 "): " why; if (++count == 3) exit }' - "$2" >&2
}

# Says of a debugger's script which of its numbers are decimal, though they look as a listing's, and whom `regs C` is of, if
# somebody wasn't there.
tell_looks() {
    { is_readable "$1" && is_short_script "$2"; } || return 0
    awk -v at="mx: $2 line " '
        $1 == "break" && $3 ~ /^0[0-9]+$/ {
            print at NR ": " $3 " is decimal here, as all numbers: " $3 + 0
            exit
        }' "$2" >&2
    if grep -Eq '^(regs|mem) [0-9]' "$2" && ask_program db "$1" "$2" | grep -q '^refused 61 NotHere'; then
        echo "mx: regs C and mem C are of who is on processor C: of slot S they are regs of S and mem of S" >&2
    fi
    tell_passed "$1" "$2"
}

# Says of a debugger's script which `step` passed a breakpoint: of the first four below a `break`, with `go` in place of one
# at a time.
tell_passed() {
    lines=$(awk '$1 == "break" { is_set = 1 } is_set && $1 == "step" && count++ < 4 { print NR }' "$2")
    { [ -n "$lines" ] && changed=$(mktemp); } || return 0
    answers=$(ask_program db "$1" "$2")
    for line in $lines; do
        sed "${line}s/step/go/" "$2" >"$changed"
        place=$({ printf '%s\n=\n' "$answers"; ask_program db "$1" "$changed"; } | awk '
            !is_second && $1 == "=" { is_second = 1; next }
            !is_second { was[++lines] = $0; next }
            { at++ }
            was[at] == $0 { next }
            $0 ~ /^stopped at / && was[at] ~ /^stepped / { split(was[at], old, " "); if ($5 + 0 < old[2] + 0) print $3 }
            { exit }')
        [ -n "$place" ] || continue
        echo "mx: $2 line $line ($(sed -n "${line}p" "$2")): a step passes the breakpoint at $place, a go stops there" >&2
        break
    done
    rm -f "$changed"
}

# Says of a history that is refused where it is none of this machine's, or that a number in it is too large.
tell_refused() {
    is_readable "$2" || return 0
    awk -v file="$2" '
        $2 == "back" && $3 ~ /^[0-9]+$/ && $3 + 0 > 2147483647 {
            print "mx: " file " line " NR ": wanted N of at most 2147483647, stands \"" $3 "\""
            exit
        }' "$2" >&2
    ! is_short "$2" || ask_program why "$1" "$2" | sed -n 's/^ends: \(record .* is refused, .*\)/mx: \1/p' >&2
    tell_newer
}

# Says of a sweep that failed which events FAULT may have, or what its history is.
tell_fault() {
    tell_refused "$1" "$2"
    is_readable "$3" || return 0
    awk -v file="$3" '
        { sub(/#.*/, "") }
        NF && $1 !~ /^(take|step|back|line|tick|kill|respawn)$/ {
            print "mx: " file " line " NR ": an event is take C, step C K, back C, line L, tick, kill E or respawn S"
            exit
        }' "$3" >&2
}

# Says of a history that a command reads, and that isn't there or has no record, how one is made; of a sweep whose turns are
# fewer than those of its history, that they are.
tell_empty() {
    case $1 in replay | trace | draw | page | look | gdb | why | sweep) ;; *) return 0 ;; esac
    config=$(nth_word 1 "$@") log=$(nth_word 2 "$@")
    if [ -f "$config" ] && [ -n "$log" ] && [ ! -e "$log" ]; then
        echo "mx: $log isn't there: mx turns $config $log makes it" >&2
    fi
    is_readable "$log" || return 0
    grep -q -v -e '^rules [12]$' -e '^$' "$log" || echo "mx: $log has no record: mx turns $config LOG makes a history" >&2
    turns=$(value_of --turns "$@")
    case $1$turns in sweep[0-9]*) ;; *) return 0 ;; esac
    awk -v file="$log" -v turns="$turns" '
        $2 == "take" { taken++ }
        END {
            if (turns ~ /^[0-9]+$/ && turns + 0 < taken)
                print "mx: --turns " turns ": " file " has " taken " turns, so positions may end before they are at rest"
        }' "$log" >&2
}

# Says as a session of `look` begins what its commands are, of those that other debuggers name otherwise.
tell_look() {
    { [ "$1" = look ] && [ -f "$(nth_word 2 "$@")" ]; } || return 0
    echo "mx: help lists the commands: forward and step go on, until 1 EXIT finds a call and until death 1 an end," \
        "watch SLOT ADDRESS N takes N of 1 to 16, quit ends" >&2
}

# The option of these words whose number has a sign; N if that of `one` has. The words behind -- are no options.
signed_option() {
    before=''
    for word in "$@"; do
        [ "$word" != -- ] || return 0
        case $before' '$word in
            --save' '* | --sums' '* | --events' '* | --stop' '* | --out' '* | *=*) ;;
            --[a-z]*' '-[0-9]*) is_flag "$before" || { printf '%s' "$before $word"; return; } ;;
        esac
        before=$word
    done
    case ${1-}' '${3-} in 'one -'[0-9]*) printf '%s' "N $3" ;; esac
}

# Ends with status 2 if a number of these words has a sign: the program refuses that too, and tells how another word than a
# number is given.
refuse_sign() {
    signed=$(signed_option "$@")
    [ -n "$signed" ] || return 0
    echo "mx: ${signed% *}: wanted a number without a sign, stands \"${signed#* }\"" >&2
    exit 2
}

# Whether a file begins as sums do: with the line of a configuration's.
holds_sums() {
    { head -c 80 <"$1"; } 2>/dev/null | LC_ALL=C tr '\n!' '!.' | LC_ALL=C grep -Eq '^[0-9A-Fa-f]{64}  configuration!'
}

# Whether a history has changed in any way since its sums were written, or got its name since then: changed_since LOG SUMS.
changed_since() {
    case $1 in /*) at='' ;; *) at=./ ;; esac
    [ -n "$(find "$at$1" -newercc "$2" 2>/dev/null || echo unknown)" ]
}

# Whether a machine's configuration and programs are regular files, which can be read once more.
is_read_twice() (
    files_read "$1" | while IFS= read -r file; do
        case $file in /dev/* | /proc/*) exit 1 ;; esac
        [ -f "$file" ] || exit 1
    done
)

# Says why there are no sums beside a history, if these words explain.
tell_sums() {
    [ -z "$explains" ] || echo "mx: SUMS $beside: $1" >&2
}

# Whether the sums of a history are to be written beside it: no other file stands there, and one can.
can_write_sums() {
    if [ -e "$beside" ] || [ -L "$beside" ]; then
        if [ -L "$beside" ] || [ ! -f "$beside" ] || ! holds_sums "$beside"; then
            tell_sums "is there and has no sums: it is left as it is"
            return 1
        fi
        at=$beside
    else
        at=./
        case $beside in */*) at=${beside%/*}/ ;; esac
        [ -d "$at" ] || return 1
    fi
    if [ -w "$at" ] && ! is_protected "$beside"; then return 0; fi
    tell_sums "isn't written: there is no right to"
    return 1
}

# Whether sums stand beside a history, and can be compared.
can_compare_sums() {
    { is_readable "$log" && [ -f "$beside" ] && [ ! -L "$beside" ]; } || return 1
    if [ ! -r "$beside" ]; then
        tell_sums "isn't compared: there is no right to read it"
    elif ! holds_sums "$beside"; then
        tell_sums "isn't compared: it has no sums"
    else
        return 0
    fi
    return 1
}

# The history of these words: log, and beside, the file of sums beside it. There is none if it is no regular file or a new
# one, if the words say themselves what becomes of sums or name that file, or if the machine can't be read once more.
find_beside() {
    log='' beside='' wanted=2
    read_words "$@"
    case $command in
        step) log=$save ;;
        run | turns | replay | trace | draw | page | look | gdb | why) log=$second ;;
        sweep) log=$second wanted=3 ;;
    esac
    { [ -n "$log" ] && [ "$places" = "$wanted" ] && [ -n "$is_clear" ] && [ -z "$says_sums" ]; } || return 1
    [ ! -L "$log" ] || log=$(readlink -f "$log") || return 1
    case $log in /dev/* | /proc/*) return 1 ;; esac
    { [ -f "$log" ] || [ ! -e "$log" ]; } && is_read_twice "$config" || return 1
    beside=$log.sums
    for word in "$@"; do
        case $word in *"${beside##*/}") return 1 ;; esac
    done
}

# Which sums go with the history of these words by itself, where they say nothing of sums: sums_word is --sums=LOG.sums,
# or empty. A replay takes none: it is of any machine, and tell_changed says of which one. So it is of a history that may
# be another one than its sums are of: by the time of its change nobody sees whether that was of its bytes, or a copy of
# both files, which are compared all the same.
choose_sums() {
    sums_word='' told_sums='' excuse=''
    explains=$(explains_words "$@")
    find_beside "$@" || return 0
    case $command in
        step | run | turns) can_write_sums || return 0 ;;
        *)
            can_compare_sums || return 0
            [ "$command" != replay ] || excuse="$log was made: it is replayed all the same"
            ! changed_since "$log" "$beside" ||
                excuse="$beside was written: $log changed later, or was copied, so nothing is refused" ;;
    esac
    if [ -z "$excuse" ]; then sums_word=--sums=$beside
    elif [ -n "$explains" ]; then told_sums=$beside; fi
}

# Says what isn't as it was when the sums beside a history were written, where they refuse nobody, by the comparison of
# start_program, which goes before all records.
tell_changed() {
    [ -n "$told_sums" ] || return 0
    part=$( (start_program replay "$config" /dev/null "--sums=$told_sums" --no-explain) 2>&1 >/dev/null |
        sed -n 's/^mx: 64 OtherMachine //p')
    [ -z "$part" ] || echo "mx: SUMS $told_sums: $part isn't as it was when $excuse" >&2
}

# Says of a history that was refused, of a machine that is as it was, that the history is newer than its sums.
tell_newer() {
    { [ -n "${told_sums-}" ] && [ -z "$part" ] && [ "$log" -nt "$told_sums" ]; } || return 0
    echo "mx: $log is newer than $told_sums: it was changed or copied, and the machine is as it was" >&2
}

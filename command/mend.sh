# Streams of the old gateway, mended.

# Reads the call: $what is stream or book, $hex is set for --hex, $from is the input's file or -, and $into is OUT, empty for standard output.
read_mend() { # [--hex] [--book] [-o OUT] [FILE]
    read_words '--hex --book -o=' "$@"
    what=stream hex=${option[--hex]-} into=${option[-o]-} from=${words[0]--}
    [ -z "${option[--book]-}" ] || what=book
    [ "${#words[@]}" -le 1 ] || wrong_call "mend takes one file"
    [ "$into" != - ] || wrong_call "mend -o needs a file; without -o a stream goes to standard output"
    [ "$what" = stream ] || [ -z "$hex" ] || wrong_call "mend --book takes no --hex"
    [ "$what" = stream ] || [ -n "$into" ] || wrong_call "mend --book needs -o NEW"
}

# Refuses an output that is the input, by whatever names.
check_apart() {
    local source=$from
    [ "$from" != - ] || source=/dev/stdin
    ! { [ -f "$source" ] && [ "$source" -ef "${into:-/dev/stdout}" ]; } || wrong_call "mend does not write over its input"
}

# Refuses an output that cannot be written, before anything is done.
check_into() {
    local folder file=$into
    # a link stays, and the file that it leads to is written
    [ ! -L "$into" ] || file=$(readlink -f -- "$into") || die 3 "the link $into leads nowhere"
    into=$file
    [ ! -d "$into" ] || die 3 "$into is a folder"
    [ ! -e "$into" ] || [ -f "$into" ] || die 3 "$into is not a plain file"
    [ ! -e "$into" ] || [ -w "$into" ] || die 3 "$into cannot be written"
    [[ $into = */* ]] || into=./$into
    folder=${into%/*}/
    [ -d "$folder" ] || die 3 "there is no folder $folder"
    [ -w "$folder" ] || die 3 "$folder cannot be written"
}

# Turns hexadecimal digits into the bytes that they spell; a fault is told with its line and column.
from_hex() { # NAME
    local LC_ALL=C text word front digits='' at=0 bytes
    while IFS= read -r text || [ -n "$text" ]; do
        at=$((at + 1)) text=${text//$'\r'/ }
        front=${text%%[!0-9a-fA-F ]*}
        [ "$front" = "$text" ] || die 3 "$1:$at:$((${#front} + 1)): not a hexadecimal digit"
        for word in $text; do
            digits+=$word
            [ $((${#word} % 2)) -eq 0 ] && continue
            front=" $text " front=${front%%" $word "*}
            die 3 "$1:$at:$((${#front} + ${#word})): a digit alone; a byte has two"
        done
        # read loses zero bytes, and one is a fault like any other
    done < <(tr '\0' '\1')
    mapfile -t bytes < <(fold -w 2 <<<"$digits")
    [ -z "$digits" ] || printf %b "${bytes[@]/#/\\x}"
}

# The text of --hex has fewer bytes than this.
hex_most=1048576

# Copies the input, so that a read that fails is not taken for its end; a byte more than a stream or a book may have tells a longer one.
take_input() {
    local name=$from
    [ "$from" != - ] || name='standard input'
    if [ -n "$hex" ]; then
        copy_input "$hex_most" "$name" "$work/text"
        [ "$(wc -c <"$work/text")" -lt "$hex_most" ] || die 3 "$(plain "$name") has $hex_most bytes or more"
        from_hex "$(plain "$name")" <"$work/text" >"$work/old" || exit 3
    else
        copy_input 65536 "$name" "$work/old"
    fi
}

# Sets $status from the line about a stream.
judge_stream() { # LINE
    local n='[0-9]+'
    if [ "$1" = "stream right" ]; then
        status=5
    elif [[ $1 =~ ^stream\ mended\ moved\ $n\ dropped\ $n\ respelled\ $n\ cut\ off\ $n$ ]]; then
        status=0
    elif [[ $1 =~ ^stream\ refused\ $n\ at\ $n\ type\ $n$ ]]; then
        status=1
    fi
}

# Sets $status from the last of so many lines about a book.
judge_book() { # LINE LINES
    local n='([0-9]+)'
    if [[ $1 =~ ^book\ refused\ $n$ ]] && [ "$2" -eq 1 ]; then
        status=2
    elif [[ $1 =~ ^end\ streams\ $n\ right\ $n\ mended\ $n\ refused\ $n\ moved\ $n\ dropped\ $n\ respelled\ $n\ cut\ off\ $n$ ]] &&
        [ "$2" -eq $((BASH_REMATCH[1] + 1)) ]; then
        status=5
        [ "${BASH_REMATCH[3]}" -eq 0 ] || status=0
        [ "${BASH_REMATCH[4]}" -eq 0 ] || status=1
    fi
}

# Sets $status from the program's lines.
judge_lines() {
    local last lines
    status='' last=$(last_line) lines=$(wc -l <"$out")
    [ "$last" != "not written" ] || die 3 "there is no room for the mended bytes in a temporary file"
    case $what,$lines in
    stream,1) judge_stream "$last" ;;
    book,*) judge_book "$last" "$lines" ;;
    esac
    [ -n "$status" ] || die 3 "what the mender says is not whole"
}

# Writes the mended bytes, with --hex as hexadecimal digits and a line end.
show_bytes() {
    if [ -n "$hex" ]; then
        { od -An -v -tx1 -- "$work/new" | tr -d ' \n' && echo; } >"$work/digits"
        show "$work/digits"
    else
        show "$work/new"
    fi
}

# Writes the mended bytes beside OUT, under a name that no file has, with the rights that OUT has or would get.
put_bytes() {
    local mode
    beside=$(mktemp -- "${into%/*}/.mend.XXXXXX") || die 3 "${into%/*}/ cannot be written"
    (show_bytes) >"$beside" 2>/dev/null || die 3 "$into cannot be written"
    mode=$(printf %o $((0666 & ~$(umask))))
    if [ -e "$into" ]; then chmod --reference="$into" -- "$beside"; else chmod "$mode" -- "$beside"; fi || die 3 "$into cannot be written"
}

mend() { # [--hex] [-o OUT] [STREAM] | --book OLD -o NEW
    read_mend "$@"
    check_apart
    [ -z "$into" ] || check_into
    open_input "$from" "the $what"
    need mend
    read_meanings
    make_work
    take_input
    keep mend "$what" <"$work/old" 3>"$work/new" || exit 3
    judge_lines
    case $what$status,$into in
    # refused as a whole: there are no bytes
    stream1,) show_lines >&2 ;;
    stream1,* | book2,*) show_lines ;;
    *,) show_bytes && show_lines >&2 ;;
    *)
        put_bytes
        show_lines
        mv -fT -- "$beside" "$into" || die 3 "$into cannot be written"
        ;;
    esac
    exit "$status"
}

# Reads the cases at the edges (edges/*.txt) and makes them ready for tests/gate/run: what each program is to read, and the lines that it must write.
#
#   awk -v room=FOLDER -f cases.awk FILE...
#
# A case is one line or more. Lines that are empty or begin with '#' say nothing to the program.
#
#   [NAME: ]INPUT = LINE
#   [= LINE]...
#
# NAME stands where the bytes do not tell what the case is about. Instead of '= LINE' stands '= nothing' where a program is to write no line.
#
# INPUT is that of a program, its name and bytes, or a case of the replay protocol, its kind and fields:
#   PROGRAM BYTES             listing 0302 aabb, say
#   KIND FIELD...             a field is u8:N, u16:N, u32:N, i16:N or i32:N, low byte first, or bytes:BYTES, its length before it
#   u16:1,2                   two fields of that type
# BYTES is groups of two hexadecimal digits a byte, with blanks between groups: 0341 01aa. 00*65536 is a group so many times, - is no byte.
#
# LINE is what must be written, but for what is told in short:
#   <03 41fe aa 00*254>       a buffer in hexadecimal, written as BYTES are
#   0*48                      a number so many times, with a blank between two
#   48x frame 0+1 at 2+5      so many lines; the first with 0 and 2, in each next one those numbers are greater by 1 and by 5
#
# Standard output has a line for each case, fields with tabs between: program, name, and for another program than replay the number of its files in the
# folder, N.octal and N.text; or WRONG and why it cannot be read. The last line is END and how many those are. The cases of replay are one behind another in
# replay.octal and replay.text. What is in .octal are escapes for printf %b.

BEGIN {
    for (i = 0; i < 256; i++) octal[sprintf("%02x", i)] = sprintf("\\%03o", i)
    split("u8 u16 u32 i16 i32", type, " ")
    split("1 2 4 2 4", size, " ")
    split("0 0 0 -32768 -2147483648", least, " ")
    split("255 65535 4294967295 32767 2147483647", most, " ")
    for (i = 1; i <= 5; i++) at_type[type[i]] = i
    replay_octal = room "/replay.octal"
    replay_text = room "/replay.text"
    printf "" >replay_octal
    printf "" >replay_text
    open = said = files = 0
}

function wrong(reason) {
    if (why == "") why = reason
    return ""
}

# a text so many times
function times(s, n, all) {
    all = ""
    while (n > 0) {
        if (n % 2) all = all s
        s = s s
        n = int(n / 2)
    }
    return all
}

# a group of bytes, as escapes or as digits; how many they are is added to 'bytes'
function group(g, escapes, n, at, s, i) {
    if (g == "-") return ""
    n = 1
    if (at = index(g, "*")) {
        n = substr(g, at + 1)
        g = substr(g, 1, at - 1)
        if (n !~ /^[1-9][0-9]*$/ || n + 0 > 131072) return wrong("no count of a run: " n)
    }
    if (g !~ /^[0-9a-f]+$/ || length(g) % 2) return wrong("no bytes: " g)
    bytes += n * length(g) / 2
    s = g
    if (escapes) {
        s = ""
        for (i = 1; i < length(g); i += 2) s = s octal[substr(g, i, 2)]
    }
    return times(s, n)
}

# a number of so many bytes, low byte first
function number(value, n, s) {
    s = ""
    if (value < 0) value += 256 ^ n
    while (n-- > 0) {
        s = s octal[sprintf("%02x", value % 256)]
        value = int(value / 256)
    }
    return s
}

# the numbers of a field
function numbers(t, list, n, value, i, s) {
    s = ""
    n = split(list, value, ",")
    if (n == 0) return wrong("no number: " type[t] ":" list)
    for (i = 1; i <= n; i++) {
        if (value[i] !~ /^-?[0-9]+$/ || value[i] + 0 < least[t] + 0 || value[i] + 0 > most[t] + 0) return wrong("no number of its type: " value[i])
        s = s number(value[i] + 0, size[t])
    }
    return s
}

# what a program reads: its name goes to 'program'
function input(text, n, part, i, at, t, s, held, within) {
    n = split(text, part, " ")
    program = part[1]
    s = held = ""
    bytes = 0
    if (program ~ /^[a-z]+$/ && program != "replay") {
        if (n < 2) return wrong("no bytes")
        for (i = 2; i <= n; i++) s = s group(part[i], 1)
        return s
    }
    if (program !~ /^[0-9]+$/ || program + 0 > 255) return wrong("no program and no kind: " program)
    s = number(program + 0, 1)
    program = "replay"
    within = 0
    for (i = 2; i <= n; i++) {
        at = index(part[i], ":")
        if (at == 0) {
            if (!within) return wrong("no field: " part[i])
            held = held group(part[i], 1)
            continue
        }
        if (within) s = s number(bytes, 4) held
        t = substr(part[i], 1, at - 1)
        within = t == "bytes"
        if (within) {
            bytes = 0
            held = group(substr(part[i], at + 1), 1)
        } else if (t in at_type) {
            s = s numbers(at_type[t], substr(part[i], at + 1))
        } else {
            return wrong("no type: " t)
        }
    }
    if (within) s = s number(bytes, 4) held
    return s
}

# the line behind so many others of its kind
function counted(text, done, n, part, pair, i, s) {
    s = ""
    n = split(text, part, " ")
    for (i = 1; i <= n; i++) {
        if (part[i] ~ /^[0-9]+[+][0-9]+$/) {
            split(part[i], pair, "+")
            part[i] = pair[1] + done * pair[2]
        }
        s = s (i > 1 ? " " : "") part[i]
    }
    return s
}

# the lines that must be written
function lines(text, n, part, i, pair, s, within, last) {
    if (match(text, /^[1-9][0-9]*x /)) {
        n = substr(text, 1, RLENGTH - 2) + 0
        text = substr(text, RLENGTH + 1)
        for (i = 0; i < n; i++) s = s counted(text, i) "\n"
        return s
    }
    s = ""
    within = 0
    n = split(text, part, " ")
    for (i = 1; i <= n; i++) {
        if (!within && i > 1) s = s " "
        if (!within && substr(part[i], 1, 1) == "<") {
            within = 1
            part[i] = substr(part[i], 2)
        }
        if (within) {
            last = substr(part[i], length(part[i])) == ">"
            if (last) part[i] = substr(part[i], 1, length(part[i]) - 1)
            s = s group(part[i], 0)
            within = !last
        } else if (part[i] ~ /^-?[0-9]+[*][1-9][0-9]*$/) {
            split(part[i], pair, "*")
            s = s pair[1] times(" " pair[1], pair[2] - 1)
        } else if (part[i] ~ /[<>*]/) {
            return wrong("no part of a line: " part[i])
        } else {
            s = s part[i]
        }
    }
    if (within) return wrong("a buffer without an end")
    return s "\n"
}

# what is known of the case before goes to the files
function close_case(s) {
    if (!open) return
    open = 0
    s = input(asked)
    if (expected == 0) wrong("no line is expected")
    if (program == "replay" && (expected != 1 || nothing)) wrong("replay writes one line")
    if (nothing && expected != 1) wrong("nothing and a line")
    said++
    if (why != "") {
        print "WRONG\t" place ", " why
        return
    }
    if (program == "replay") {
        printf "%s", s >replay_octal
        printf "%s", must >replay_text
        print "replay\t" place ", " name
        return
    }
    files++
    printf "%s", s >(room "/" files ".octal")
    printf "%s", must >(room "/" files ".text")
    close(room "/" files ".octal")
    close(room "/" files ".text")
    print program "\t" place ", " name "\t" files
}

function expects(text) {
    expected++
    if (text == "nothing") nothing = 1
    else if (text == "") wrong("an empty line")
    else must = must lines(text)
}

FNR == 1 { close_case() }
{
    gsub(/[ \t\r]+/, " ")
    sub(/^ /, "")
    sub(/ $/, "")
}
/^#/ || $0 == "" { next }
/^=/ {
    if (!open) {
        said++
        print "WRONG\t" FILENAME ":" FNR ", a line behind no case"
        next
    }
    sub(/^= ?/, "")
    expects($0)
    next
}
{
    close_case()
    open = 1
    seen[FILENAME] = 1
    place = FILENAME ":" FNR
    sub(/^.*\//, "", place)
    why = must = ""
    expected = nothing = 0
    asked = $0
    if (at = index(asked " ", " = ")) {
        asked = substr(asked, 1, at - 1)
        expects(substr($0, at + 3))
    }
    name = asked
    if (at = index(asked, ": ")) {
        name = substr(asked, 1, at - 1)
        asked = substr(asked, at + 2)
    }
}
END {
    close_case()
    for (i = 1; i < ARGC; i++)
        if (!(ARGV[i] in seen)) {
            said++
            print "WRONG\t" ARGV[i] ", no case in it"
        }
    print "END\t" said
}

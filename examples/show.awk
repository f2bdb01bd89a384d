# What examples/show says of a folder. It reads, one after the other, as the variable part says: the
# bytes of the schema and of the passes as numbers, the legend (has_legend is 1 if there is one) and
# what passplan printed, of which so many lines are whole (whole). The schema is one that passplan
# accepts; if it is not, refused says why, and it is not read. FOLDER is the folder's name.

BEGIN {
    errors = "cat >&2"
    CONVFMT = "%.15g" # whole numbers of ten digits are printed whole
}

part == "schema" { for (i = 1; i <= NF; i++) schema[schema_end++] = $i + 0 }
part == "passes" { for (i = 1; i <= NF; i++) passes[passes_end++] = $i + 0 }
part == "legend" { legend[++legend_end] = $0 }
part == "printed" && FNR <= whole { printed[++printed_end] = $0 }

END {
    read_passes()
    if (refused) say("the schema of " ENVIRON["FOLDER"] " is refused (" refused "): no names are used")
    else read_schema()
    if (has_legend && !refused) hold_legend()
    if (!faults) tell()
    close(errors)
    exit (faults > 0)
}

function say(text) { print "examples/show: " text | errors }

function signed(value) { return value < 2147483648 ? value : value - 4294967296 }

# -- The schema, as docs/NUMBERS.md has it: how many nodes, how many variables each has (counts), and
# of a variable lo and hi, or size if it is a listed one.

# The next field.
function field(width,    value) {
    for (value = 0; width > 0; width--) value = 256 * value + schema[schema_at++]
    return value
}

function read_schema(    node, left, v) {
    field(2) # SH
    nodes = field(1)
    for (node = 0; node < nodes; node++) {
        field(2) # SN
        field(1) # kind
        for (left = field(1); left > 0; left--) field(1)
        counts[node] = field(1)
        for (v = 0; v < counts[node]; v++) read_variable(node, v)
    }
}

function read_variable(node, v) {
    if (field(1) == 1) size[node, v] = field(1)
    else {
        lo[node, v] = signed(field(4))
        hi[node, v] = signed(field(4))
    }
}

# -- The passes: how many lines passplan owes (records), with which days each starts (days), and which
# passes there are (is_pass). A bad record gets a line without days, and is the last.

function read_passes(    at, a, b) {
    for (at = 0; at < passes_end; at += 6) {
        days[++records] = "- -"
        if (at + 6 > passes_end || passes[at] != 80 || passes[at + 1] != 83) return # PS
        a = 256 * passes[at + 2] + passes[at + 3]
        b = 256 * passes[at + 4] + passes[at + 5]
        days[records] = a " " b
        is_pass[a, b] = 1
    }
}

# -- The legend: names of nodes, of their variables and of the values of listed ones; notes.

function wrong(text) {
    print ENVIRON["FOLDER"] "/legend:" legend_at ": " text | errors
    faults++
}

function missing(text) {
    print ENVIRON["FOLDER"] "/legend: " text | errors
    faults++
}

# The next word of the line, which is taken off it.
function word(    first) {
    first = line
    sub(/[ \t].*/, "", first)
    sub(/^[^ \t]+[ \t]*/, "", line)
    return first
}

function hold_legend(    node, v) {
    for (legend_at = 1; legend_at <= legend_end; legend_at++) {
        line = legend[legend_at]
        gsub(/^[ \t]+|[ \t\r]+$/, "", line)
        if (line != "" && line !~ /^#/) hold_line(word())
    }
    for (node = 0; node < nodes; node++) {
        if (!(node in names)) missing("node " node " has no name")
        for (v = lines_of[node] + 0; v < counts[node]; v++)
            missing("variable " v " of node " node " (" described(node, v) ") has no line")
    }
}

function hold_line(first,    node) {
    if (first == "note") {
        hold_note()
        return
    }
    node = word()
    if (first !~ /^(node|number|listed)$/) wrong("'" first "' is none of node, number, listed, note")
    else if (node !~ /^[0-9]+$/) wrong("no number of a node after '" first "'")
    else if (node + 0 >= nodes) wrong("the schema has no node " node ", only 0 to " (nodes - 1))
    else if (first == "node") hold_node(node + 0)
    else hold_variable(first, node + 0)
}

function hold_node(node) {
    if (line == "") wrong("no name")
    else if (node in names) wrong("node " node " has a name already, '" names[node] "'")
    else if (line in node_of) wrong("node " node " has the name of node " node_of[line])
    if (!(node in names)) names[node] = line
    if (!(line in node_of)) node_of[line] = node
}

function hold_variable(type, node,    v) {
    v = lines_of[node]++ + 0
    if (line == "") wrong("no name")
    else if (v >= counts[node])
        wrong("one line too many for node " node ", which has " counts[node] " variables in the schema")
    else if (type != ((node, v) in size ? "listed" : "number"))
        wrong("variable " v " of node " node " is " described(node, v) " in the schema")
    else if (type == "listed") hold_values(node, v)
    else variables[node, v] = line
}

function hold_values(node, v,    colon, n, list) {
    colon = index(line, ": ")
    n = split(substr(line, colon + 2), list, " ")
    if (colon < 2) wrong("not 'listed N NAME: V0 V1 ..'")
    else if (n != size[node, v])
        wrong("names of " n " values, parted by blanks: variable " v " of node " node " is " described(node, v) \
            " in the schema")
    variables[node, v] = substr(line, 1, colon - 1)
    for (; n > 0; n--) values[node, v, n - 1] = list[n]
}

function described(node, v) {
    if ((node, v) in size) return "a listed one of size " size[node, v]
    return "a number from " lo[node, v] " to " hi[node, v]
}

function hold_note(    a, b) {
    a = word()
    b = word()
    if (a !~ /^[0-9]+$/ || b !~ /^[0-9]+$/) wrong("no two days after 'note'")
    else if (line == "") wrong("no text")
    else if (!((a + 0, b + 0) in is_pass)) wrong("there is no pass from day " a " to day " b)
    else if ((a + 0, b + 0) in notes) wrong("a second note on the pass from day " a " to day " b)
    else notes[a + 0, b + 0] = line
}

# -- What passplan printed.

function fault(text) {
    say(text)
    faults++
}

function tell(    i) {
    learn_words()
    for (i = 1; i <= printed_end && i <= records; i++) {
        if (i > 1) print ""
        if (is_line(i)) tell_line(i)
        else fault("line " i " of passplan is none for record " i ": " printed[i])
    }
    if (printed_end != records)
        fault("passplan printed " (printed_end + 0) " whole lines for " (records + 0) " records")
}

# Whether a line has the days of its record and then number, file, offset and an instance, or '-'.
function is_line(i) {
    return index(printed[i], days[i] " ") == 1 \
        && substr(printed[i], length(days[i]) + 1) ~ /^ [0-9]+ [0-9]+ [0-9]+ ([0-9a-f]+|-)$/
}

function tell_line(i,    at) {
    split(printed[i], at, " ") # first day, last day, number, file, offset, instance
    if (days[i] == "- -") print "record " i " of the passes: the run ended there"
    else {
        print "pass from day " at[1] " to day " at[2]
        if ((at[4] == 1) != (refused != ""))
            fault("line " i " of passplan does not say of the schema what its line for day 0 says")
    }
    if ((at[1], at[2]) in notes) print "  (" notes[at[1], at[2]] ")"
    if (at[3] == 0) tell_instance(i, at[6])
    else print "  refused: number " at[3] ", " files[at[4]] ", offset " at[5] ": " meanings[at[3]]
}

# The next digits of the instance as a number.
function digits(n,    value) {
    for (value = 0; n > 0; n--)
        value = 16 * value + index("0123456789abcdef", substr(instance, ++digits_read, 1)) - 1
    return value
}

function tell_instance(i, hex,    left) {
    instance = hex
    digits_read = settings = 0
    digits(4) # IH
    for (left = digits(2); left > 0; left--) tell_entry()
    if (digits_read != length(hex)) fault("line " i " of passplan: the instance does not fit the schema")
    else if (!settings) print "  nothing to choose"
}

function tell_entry(    node, choice, v) {
    digits(4) # IN
    node = digits(2)
    choice = digits(2)
    if (choice != 255) tell_setting("  " name(node) ": " name(choice))
    else if (counts[node] > 0) tell_setting("  " name(node))
    for (v = 0; v < counts[node]; v++) tell_setting("    " variable(node, v) ": " value_of(node, v))
}

function tell_setting(text) {
    print text
    settings++
}

function name(node) { return node in names ? names[node] : "node " node }

function variable(node, v) { return (node, v) in variables ? variables[node, v] : "variable " v }

# The next value of the instance.
function value_of(node, v,    value) {
    if (!((node, v) in size)) return signed(digits(8))
    value = digits(2)
    return (node, v, value) in values ? values[node, v, value] : value
}

# The words of docs/NUMBERS.md for the files and numbers that passplan gives.
function learn_words() {
    split("schema policies pass instance", files, " ")
    files[0] = "no file"
    meanings[1] = "a record does not begin with its two letters"
    meanings[2] = "the bytes end before a field is complete"
    meanings[3] = "node count 0 or above 64"
    meanings[4] = "kind above 1, or successor count above 8, or 0 under kind 0"
    meanings[5] = "successor not ascending, not above its node's number or not below the node count"
    meanings[6] = "more than 4 variables, type above 1, hi below lo, or size 0 or above 32"
    meanings[7] = "a byte remains after the last record"
    meanings[8] = "a byte remains after sixteen policies"
    meanings[9] = "last day below first day"
    meanings[10] = "node not ascending in its policy or not below the node count"
    meanings[11] = "mask has a bit at or above the variable's size"
    meanings[12] = "last day of the pass below its first day, or above the day after it"
    meanings[13] = "no instance meets the policies in force"
}

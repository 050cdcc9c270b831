# Says what is wrong with the header of a sheet, in words for whoever made the sheet, a line for each fault. The batch program answers such
# a sheet with one row, 42, and reads no further. Rows that end in CR, each of which is refused for it, are said in one line.
#
#   awk -f tools/sheet/header.awk [-v own=1] SHEET    # own=1: a column of another name is the desk's own, and no fault
#
# Exit status 3: the header is wrong. Bytes are compared, so LC_ALL must be C.
BEGIN {
    known["class"] = known["swap"] = known["tail"] = known["sn1"] = known["sn2"] = known["sn3"] = known["sn4"] = 1
    parts[","] = "commas"
    parts[";"] = "semicolons"
    parts["|"] = "bars"
    parts[" "] = "blanks"
}

function say(text) {
    print text
    faults++
}

# A name as it can be shown: no byte that moves the cursor, and not long.
function shown(name) {
    gsub(/[\001-\037\177]/, "?", name)
    return "\"" (length(name) > 40 ? substr(name, 1, 40) ".." : name) "\""
}

# The known name that was meant: the same letters, but for their case and for blanks or quotation marks around them; else "".
function meant(name) {
    gsub(/^[ "']+|[ "']+$/, "", name)
    name = tolower(name)
    return name in known ? name : ""
}

# What parts the names of a header: a tab, or where it has none another mark between which a known name stands.
function parting(header,    mark, names, i) {
    if (index(header, "\t")) return "\t"
    for (mark in parts) {
        if (!index(header, mark)) continue
        for (i = split(header, names, "[" mark "]"); i > 0; i--) if (meant(names[i]) != "") return mark
    }
    return "\t"
}

function check_name(name, place,    other) {
    if (name in known) {
        if (name in seen) say("the column " shown(name) " stands there twice: a sheet has it once")
    } else if ((other = meant(name)) != "") {
        say("column " place " is named " shown(name) ": write it as " other ", in small letters, with nothing around it")
        seen[other] = 1
    } else if (name == "" && !own) {
        say("column " place " has no name: take it out, or the tab before it")
    } else if (!own) {
        say("column " place " is named " shown(name) ", which is none of class, swap, tail, sn1, sn2, sn3 and sn4 (./run --explain passes other columns through)")
    }
    seen[name] = 1
}

function check_header(header,    mark, n, i, names) {
    if (header ~ /^PK\003\004/) return say("the file is a workbook of a spreadsheet program, and not text: save the sheet as text with tabs between the columns")
    if (header ~ /^(\377\376|\376\377)/) return say("the file is UTF-16 text, which some programs call Unicode text: save it as UTF-8 or as plain text")
    if (sub(/^\357\273\277/, "", header)) say("the file has a mark at its start, the byte-order mark of UTF-8: save it without one")
    if (header ~ /\r./) return say("the file has CR between its lines, and no LF: save it with Unix line ends, or write tr '\\r' '\\n' <FILE >NEWFILE")
    if (sub(/\r$/, "", header)) say("the file has Windows line ends, CR LF: save it with Unix line ends, or write tr -d '\\r' <FILE >NEWFILE")
    if (header == "") return say("the first line is empty: it has to be the header, with the names of the columns")
    mark = parting(header)
    if (mark != "\t") say("the file has " parts[mark] " between its columns: save it with tabs")
    n = split(header, names, "[" mark "]")
    for (i = 1; i <= n; i++) check_name(names[i], i)
    if (!("class" in seen)) say("there is no column \"class\"")
}

NR == 1 { check_header($0) }
NR > 1 && /\r$/ { if (!returns++) first = NR - 1 }

END {
    if (NR == 0) say("the file is empty")
    if (faults) exit 3
    if (!returns) exit
    printf "row %d ends in CR, the line end of Windows, which counts to its last cell, and is refused for it", first
    if (returns > 1) printf "; so are %d more", returns - 1
    print ": save the file with Unix line ends, or write tr -d '\\r' <FILE >NEWFILE"
}

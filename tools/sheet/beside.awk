# The rows of a sheet beside their answers: the row's number, the answer with its token, what it means and who can mend it, the row as it
# stands, then line and carbons.
#
#   awk -v answers=FILE -f tools/sheet/beside.awk tools/sheet/answers.tsv SHEET
#
# `answers` is what the batch program printed for the known columns of the sheet. Exit status 1: it has not as many rows.
BEGIN { FS = "\t" }

NR == FNR {
    meaning[$1] = $2
    mender[$1] = $3
    next
}

# A row of the answers, parted in cells; the row after the last is that of the counts, which starts with #.
function take(    row) {
    if ((getline row < answers) <= 0) row = "#"
    split(row, cell, "\t")
    if (cell[1] != "#") return 1
    failed = 1
    exit 1
}

{
    sub(/\r$/, "")
    take()
}

FNR == 1 {
    print "row\tanswer\tat\tmeaning\tmender\t" $0 "\tline\tcarbons"
    next
}

{
    said = meaning[cell[1]]
    sub(/[{][}]/, "sn" cell[2], said)
    print FNR - 1 "\t" cell[1] "\t" cell[2] "\t" said "\t" mender[cell[1]] "\t" $0 "\t" cell[3] "\t" cell[4]
}

END {
    if (!failed && (getline row < answers) > 0 && row !~ /^#/) failed = 1
    exit failed
}

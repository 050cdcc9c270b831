# The columns of a sheet that the batch program knows, in the order of the sheet; the desk's own are left out. The header has been found
# right by header.awk.
#
#   awk -f tools/sheet/known.awk SHEET
#
# A row of another number of cells than the header keeps being one, so that it is answered by 42: it comes out with a cell too many.
BEGIN {
    FS = "\t"
    split("class swap tail sn1 sn2 sn3 sn4", names, " ")
    for (i in names) known[names[i]] = 1
}

NR == 1 {
    cells = NF
    for (i = 1; i <= NF; i++) if ($i in known) column[++columns] = i
}

{
    line = ""
    # An empty line has one cell, which is empty.
    whole = (NF == 0 ? 1 : NF) == cells
    for (i = 1; i <= columns; i++) line = line (i > 1 ? "\t" : "") (whole ? $(column[i]) : "")
    print line (whole ? "" : "\t")
}

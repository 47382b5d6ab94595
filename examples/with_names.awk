# Says for each line of a catalogue, by its name, what `crsdesk group` found. The names are a file, one per line:
#     ./crsdesk group < catalogue.txt | awk -f examples/with_names.awk names.txt -
NR == FNR { name[FNR] = $0; count = FNR; next }
$1 == "group" { for (i = 3; i <= NF; i++) found[$i] = "group " ($2 + 0) }
$1 == "line" { found[$2 + 0] = $3 " " $4 " " $5 " " $6 " " $7 }
END { for (line = 1; line <= count; line++) print name[line] ": " (line in found ? found[line] : "blank") }

# Parts as "title|row|calls|found|pages read|instructions" to a table: a row for each call, a column for each title.
function text(n,   s, t) { # 1234567 as 1,234,567
  s = sprintf("%.0f", n); t = ""
  while (length(s) > 3) { t = "," substr(s, length(s) - 2) t; s = substr(s, 1, length(s) - 3) }
  return s t
}
NF == 6 && $6 > 0 {
  if (!($1 in seen)) { seen[$1] = 1; titles[++columns] = $1 }
  if (!($2 in known)) { known[$2] = 1; rows[++lines] = $2 }
  cell[$1, $2] = text($6 / $3)
  if ($5 > 0) cell[$1, $2] = cell[$1, $2] " (" text($6 / $5) ")"
}
END {
  print "Instructions a call, counted by callgrind (in brackets: a page read).\n"
  line = "| "; rule = "|---"
  for (c = 1; c <= columns; c++) { line = line "| " titles[c] " "; rule = rule "|--:" }
  print line "|"; print rule "|"
  for (r = 1; r <= lines; r++) {
    line = "| " rows[r] " "
    for (c = 1; c <= columns; c++) line = line "| " cell[titles[c], rows[r]] " "
    print line "|"
  }
}

# Draws the picture of the layers for checks/lib/layers, from its lines of headings and crates: a band for each heading, with a box for
# each of its crates, which has the name, what the crate is for, and after an arrow the crates that it depends on. What it is for is its first
# sentence, or what stands before the colon where that is longer than three lines of 42 letters. Four boxes stand side by side. Where a text is
# longer even so, or there are more headings than colours, it fails.
BEGIN {
  most = split("#f6e0dc #fdf0d5 #e6f2dd #e8e1f3 #dbe9f6 #eeeeee #d9f0ee #fbe3ef", colours, " ")
  width = 262; height = 108; gap = 12; across = 4; y = gap; column = 0; bands = 0
}
function escaped(text) {
  gsub(/`/, "", text); gsub(/&/, "\\&amp;", text); gsub(/</, "\\&lt;", text); gsub(/>/, "\\&gt;", text)
  return text
}
# cuts a text into lines of 42 letters, and says how many they are
function wrapped(text, count, words, i, line) {
  sub(/[.]$/, "", text)
  count = split(text, words, " ")
  line = 1; rows[1] = words[1]
  for (i = 2; i <= count; i++) {
    if (length(rows[line] " " words[i]) > 42) rows[++line] = words[i]
    else rows[line] = rows[line] " " words[i]
  }
  return line
}
function caption(text, x, y, count, i) {
  sub(/[;.] .*$/, "", text)
  count = wrapped(text)
  if (count > 3) { sub(/: .*$/, "", text); count = wrapped(text) }
  if (count > 3) { print "the text of a box has more than three lines: " text >"/dev/stderr"; failed = 1 }
  for (i = 1; i <= count; i++) put(rows[i], x, y + 15 * i)
}
function put(text, x, y) {
  body = body sprintf("<text x=\"%d\" y=\"%d\" text-anchor=\"middle\" font-size=\"11\" fill=\"#333\">%s</text>\n", x, y, escaped(text))
}
# the crates that a crate depends on, in at most two lines at the foot of its box
function foot(names, x, y, count, i) {
  if (names == "") return
  count = wrapped("→ " names)
  if (count > 2) { print "a box has more than two lines of crates: " names >"/dev/stderr"; failed = 1 }
  for (i = 1; i <= count; i++)
    body = body sprintf("<text x=\"%d\" y=\"%d\" text-anchor=\"middle\" font-size=\"11\" font-style=\"italic\" fill=\"#333\">%s</text>\n", x, y - 14 * (count - i), escaped(rows[i]))
}
function box(name, text, names, x) {
  x = gap + column * (width + gap)
  body = body sprintf("<rect x=\"%d\" y=\"%d\" width=\"%d\" height=\"%d\" rx=\"6\" fill=\"%s\" stroke=\"#445\"/>\n", x, y, width, height, colours[bands])
  body = body sprintf("<text x=\"%d\" y=\"%d\" text-anchor=\"middle\" font-size=\"14\" font-weight=\"bold\">%s</text>\n", x + width / 2, y + 21, name)
  caption(text, x + width / 2, y + 23)
  foot(names, x + width / 2, y + height - 8)
}
$1 == "heading" {
  if (bands++) y += height + 2 * gap
  if (bands > most) { print "there are more headings than colours" >"/dev/stderr"; failed = 1 }
  column = 0
  body = body sprintf("<text x=\"%d\" y=\"%d\" font-size=\"15\" fill=\"#333\">%s</text>\n", gap, y + 14, $2)
  y += 14 + gap
}
$1 == "crate" {
  if (column == across) { column = 0; y += height + gap }
  box($2, $3, $4)
  column++
}
END {
  if (failed) exit 1
  width = across * (width + gap) + gap; height = y + height + gap
  printf "<svg xmlns=\"http://www.w3.org/2000/svg\" viewBox=\"0 0 %d %d\" width=\"%d\" height=\"%d\" font-family=\"Helvetica, Arial, sans-serif\">\n", width, height, width, height
  printf "<rect width=\"%d\" height=\"%d\" fill=\"#fff\"/>\n%s</svg>\n", width, height, body
}

# A page in which each link to what isn't installed is its words alone: awk -v list=PLACES -v page=PLACE -f unlink.awk PAGE
# PLACES is a file with the place of each file that is installed, PLACE that of the page.
BEGIN {
  while ((getline place < list) > 0) {
    has[place] = 1
    while (sub(/\/[^\/]*$/, "", place)) has[place] = 1
  }
  folder = page
  sub(/[^\/]*$/, "", folder)
}

# The place to which a link leads.
function place_of(target,   parts, kept, count, depth, k, place) {
  sub(/#.*/, "", target)
  if (target == "") return page
  # Headers lie elsewhere, and a link leads there.
  count = split(folder target, parts, "/")
  depth = 0
  for (k = 1; k <= count; k++) {
    if (parts[k] == "..") depth -= depth > 0
    else if (parts[k] != "" && parts[k] != ".") kept[++depth] = parts[k]
  }
  place = kept[1]
  for (k = 2; k <= depth; k++) place = place "/" kept[k]
  sub(/^share\/doc\/dymelor\/include\//, "include/", place)
  return place
}

/^```/ { is_code = !is_code }

{
  rest = $0
  while (!is_code && match(rest, /\[[^][]*\]\([^) ]*\)/)) {
    link = substr(rest, RSTART, RLENGTH)
    before = substr(rest, 1, RSTART - 1)
    rest = substr(rest, RSTART + RLENGTH)
    split_at = index(link, "](")
    target = substr(link, split_at + 2, length(link) - split_at - 2)
    words = substr(link, 2, split_at - 2)
    printf "%s%s", before, (target ~ /^[a-z]+:/ || place_of(target) in has) ? link : words
  }
  print rest
}

# For `.ci/layers`: what a file has from a layer, and what of that it unfolds.
# layer is the lower crate. With mode "hand" the names that files hand on from it by `pub use` are printed, as FILE:NAME; with mode "look" a file is looked
# at: handed are those names of all files, opened the names that may be open in this one, each between blanks.

function indent(line) { match(line, /^ */); return RLENGTH }

# the last part of a dotted name
function last_of(name) { sub(/.*\./, "", name); return name }

# each name of a `use … {a, b as c}`: what it is called here, and there
function take_list(text, from,    list, items, words, n, i, m) {
  list = text; sub(/^[^{]*\{/, "", list); sub(/\}.*/, "", list)
  n = split(list, items, ",")
  for (i = 1; i <= n; i++) {
    m = split(items[i], words, " ")
    if (!m) continue
    if (from || index(handed, " " module ":" words[1] " ")) {
      called[words[m]] = words[1]
      if (hands) { who = FILENAME_OF; print who ":" words[m] }
    }
  }
}

# a whole `use`, wrapped over lines or not
function take_use(text,    path, from, head) {
  hands = (text ~ /^ *(unfoldable )?pub use /) && mode == "hand"
  sub(/^ *(unfoldable )?(pub )?use /, "", text); sub(/^package\./, "", text)
  path = text; sub(/[ ;].*/, "", path); sub(/\.?\{.*/, "", path)
  module = last_of(path)
  head = path; sub(/\..*/, "", head)
  from = index(path ".", "Rattle." layer ".specs.") == 1 || path == "Rattle." layer || head in prefixes
  if (text ~ /\{/) take_list(text, from)
  else if (from && match(text, / as [^ ]+/)) prefixes[substr(text, RSTART + 4, RLENGTH - 4)] = 1
  else if (from) prefixes[module] = 1
}

# what a name that is unfolded is called in the layer; empty where it is none of its
function origin(name,    p) {
  sub(/^package\./, "", name)
  if (name in called) return called[name]
  if (index(name, "Rattle." layer ".") == 1) return last_of(name)
  for (p in prefixes) if (index(name, p ".") == 1) return last_of(name)
  return ""
}

function take_unfolded(text, line,    n, i, words, what) {
  gsub(/[(),]/, " ", text)
  n = split(text, words, " ")
  for (i = 1; i <= n; i++) {
    what = origin(words[i])
    if (what != "" && !index(opened, " " what " ")) { printf "%s:%d: unfolds `%s` of %s\n", file, line, what, layer; bad = 1 }
  }
}

# the `use`s of the lines kept
function all_uses(    i, text) {
  for (i = 1; i <= kept; i++)
    if (lines[i] ~ /^ *(unfoldable )?(pub )?use /) {
      text = lines[i]
      while (text ~ /\{/ && text !~ /\}/ && i < kept) text = text " " lines[++i]
      take_use(text)
    }
}

# `unfolding a b`, with more names on lines that are further in
function unfolding_at(i,    text, first) {
  first = i; text = lines[i]; sub(/^ *unfolding/, "", text)
  while (i < kept && lines[i + 1] !~ /^ *$/ && indent(lines[i + 1]) > indent(lines[first])) text = text " " lines[++i]
  take_unfolded(text, first)
}

# `unfold a b in …`, wherever it stands
function unfold_at(i,    text, first) {
  first = i; text = lines[i]
  while (i < kept && i < first + 20 && text !~ /unfold .* in([ )]|$)/) text = text " " lines[++i]
  while (match(text, /(^|[ (])unfold /)) {
    text = substr(text, RSTART + RLENGTH)
    if (match(text, / in([ )]|$)/)) take_unfolded(substr(text, 1, RSTART), first)
  }
}

function forget(    k) { for (k in called) delete called[k]; for (k in prefixes) delete prefixes[k]; kept = 0 }

mode == "hand" && FNR == 1 && NR > 1 { all_uses(); forget() }
FNR == 1 { FILENAME_OF = FILENAME; sub(/.*\//, "", FILENAME_OF); sub(/\.antt$/, "", FILENAME_OF) }
{ sub(/--.*/, ""); lines[++kept] = $0 }

END {
  all_uses()
  if (mode == "look")
    for (i = 1; i <= kept; i++) {
      if (lines[i] ~ /^ *unfolding( |$)/) unfolding_at(i)
      else if (lines[i] ~ /(^|[ (])unfold( |$)/) unfold_at(i)
    }
  exit bad
}

#!/bin/sh
# Counts the places of docs/DESIGN-PASS.md: each command looks for an old form and prints how many lines it finds.
# Run it from the root of the repository; with a number, as `sh tools/places.sh 3.1`, it prints the lines themselves.
set -u
LC_ALL=C.UTF-8
export LC_ALL

places() {
    case "$1" in
    # every enum (judged by its variants)
    1.1)
grep -rnE --exclude-dir=out '^\s*(pub(\([a-z]+\))? )?enum ' crates --include='*.rt'
        ;;
    # flags: what answers or keeps a `bool`
    1.2)
grep -rnE --exclude-dir=out '(Result<|-> )bool\b|: bool,|\bis_one: bool' crates --include='*.rt' --exclude=tests.rt
        ;;
    # numbers for kinds and refusals
    1.3)
grep -rnE --exclude-dir=out '\bfn (from_byte|byte|number)\b|\.(byte|number)\(\)|from_byte\(|\b(side|outcome|kind): u8|\bNUMBERS\b' crates --include='*.rt' --exclude=tests.rt
        ;;
    # 0 in place of "none"
    1.4)
grep -rnE --exclude-dir=out 'price == 0|or_nought|price_or\(|=> 0,|or 0 (for|before)' crates --include='*.rt' --exclude=tests.rt
        ;;
    # match arms for Err, None and the variants of `Named`
    1.5)
grep -rnE --exclude-dir=out '^\s*(Err\(.*\)|None) =>|^\s*Named::\w+(\(\w+\))? =>' crates --include='*.rt' --exclude=tests.rt
        ;;
    # tests of an Option or Result by `if let`, `let .. else`, `is_none`, `is_some`
    1.6)
grep -rnE --exclude-dir=out '\bif let (Some|Ok|Err)|let (Some|Ok)\(.*\) = .* else|\.is_(none|some)\(\)' crates --include='*.rt' --exclude=tests.rt
        ;;
    # functions that are members of a group below
    2.1)
grep -rnE --exclude-dir=out '\bfn (units|remaining|position|ordered|holdings|margins|worth_of_all|client_money|lot|order_at|from_byte|byte|read_below|read_above|read_number|read_between|read_points|read_funding|read_margin|read_split|read_figure|read_charge|read_closed|read_field|read_working|parse|read_topic|read_verb|read_figures|read_fields|topic_named|look_up|word|name|figures|fields|max|product|yen|divided|bound|premium|funding_difference|show_points|show_funding|show_margin|show_split|wrong_count|list_topics|show_range|before_ledger|answer_lines|answer_early|answer_command|command_of|command_in|run_named|run_file|reported|write_state|write_statement|add_taken|add_unreadable|add_early|add_refused|points_rate|funding_divisor|funding_cap|margin_percent|paid|received|points|requirement|is_short_of|is_at_cut_level|missing|spare|holders_of|others_of|review|standing_of|worked|admit)\b' crates --include='*.rt' --exclude=tests.rt
        ;;
    # types that are members of a group below
    2.2)
grep -rnE --exclude-dir=out '\b(enum|struct) (NumberFault|RangeFault|WorkFault|Unreadable|Working|Worked|PointsWork|FundingWork|MarginWork|SplitWork|Verb|Topic|Field|Figure|Side|Outcome|Request|Opening|Yen|Signed|Lot|Order)\b' crates --include='*.rt' --exclude=tests.rt
        ;;
    # lines that are members of a group below
    2.3)
grep -rnE --exclude-dir=out 'account < PROPRIETARY|yen > PAYMENT_MAX|price > PRICE_MAX|Settings::new\(.*\)\.unwrap\(\)|cut: false|sen != 0' crates --include='*.rt' --exclude=tests.rt
        ;;
    # runs of four lines that stand twice to the letter (comments, imports and lone brackets passed over; each output line is one run with its places)
    2.4)
find crates -not -path '*/out/*' -name '*.rt' ! -name tests.rt | sort | xargs awk '
FNR == 1 { k = 0 }
{ t = $0; gsub(/^ +| +$/, "", t) }
t == "" || t ~ /^(\/\/|(pub |ghost )?use |(pub )?mod )/ || t !~ /[A-Za-z0-9]/ { next }
{ l[k % 4] = t; at[k % 4] = FNR; k++
  if (k >= 4) { w = l[k % 4] "\n" l[(k + 1) % 4] "\n" l[(k + 2) % 4] "\n" l[(k + 3) % 4]; n[w]++; p[w] = p[w] " " FILENAME ":" at[k % 4] } }
END { for (w in n) if (n[w] >= 2) print n[w] p[w] }' | sort -k2
        ;;
    # runs of six lines of the same shape (names, numbers and strings passed over)
    2.5)
find crates -not -path '*/out/*' -name '*.rt' ! -name tests.rt | sort | xargs awk '
FNR == 1 { k = 0 }
{ t = $0; gsub(/^ +| +$/, "", t) }
t == "" || t ~ /^(\/\/|(pub |ghost )?use |(pub )?mod )/ || t !~ /[A-Za-z0-9]/ { next }
{ gsub(/"[^"]*"/, "S", t); gsub(/[0-9_]*[0-9]+/, "0", t); u = t; gsub(/[A-Za-z_][A-Za-z_0-9]*/, "x", u)
  if (t ~ /(^| )(fn|for|match|if|return|let|impl|struct|enum|ensures|requires)( |$)/) { split(t, b, " "); u = b[1] " " u }
  l[k % 6] = u; at[k % 6] = FNR; k++
  if (k >= 6) { w = ""; for (i = 0; i < 6; i++) w = w l[(k + i) % 6] "\n"; n[w]++; p[w] = p[w] " " FILENAME ":" at[k % 6] } }
END { for (w in n) if (n[w] >= 2) print n[w] p[w] }' | sort -k2
        ;;
    # `for` over a range from 0
    3.1)
grep -rnE --exclude-dir=out '^\s*for \w+ in 0\.\.' crates --include='*.rt'
        ;;
    # every loop
    3.2)
grep -rnE --exclude-dir=out '^\s*(for|while|loop)\b' crates --include='*.rt'
        ;;
    # a sum, count or array that a loop fills by hand
    3.3)
grep -rnE --exclude-dir=out '^\s*let mut \w+ = (0|\[)|\+= 1|= \w+ \+ 1;' crates --include='*.rt' --exclude=tests.rt
        ;;
    # impls of a trait that a derive or a conversion trait stands for
    4.1)
grep -rnE --exclude-dir=out '^\s*impl(<[^>]*>)? .*\b(Display|Debug|PartialEq|Eq|PartialOrd|Ord|Clone|Copy|Default|From|TryFrom|FromStr)\b.* for ' crates --include='*.rt'
        ;;
    # words for a value
    4.2)
grep -rnE --exclude-dir=out '\bfn (word|words|name|verdict|holders_of|others_of|list_topics|show_range|wrong_count)\b' crates --include='*.rt'
        ;;
    # equality, conversion and making by an own function
    4.3)
grep -rnE --exclude-dir=out '\bfn (is|is_open|is_sound|byte|from_byte|number|numbered|told|worked|admit|look_up|topic_named|read_kind|status|new)\b|\.is\(' crates --include='*.rt'
        ;;
    # tests that turn an error into a failed test by hand
    4.4)
grep -rnE --exclude-dir=out 'Err\((\w+)\) => Err\(Fail|Err\(_\) => Err\(Fail' crates --include='*.rt'
        ;;
    # types that derive copying alone, without equality or Debug
    4.5)
grep -rnE --exclude-dir=out 'derive\(Clone, Copy\)' crates --include='*.rt'
        ;;
    # clauses that stand to the letter in three or more functions (`.now` and `.old` passed over; each line: how many, the clause, the functions)
    5.1)
find crates -not -path '*/out/*' -name '*.rt' ! -name tests.rt | sort | xargs awk '
/^ *(pub(\([a-z]+\))? )?fn / { fn = $0; sub(/^.*fn /, "", fn); sub(/[<(].*/, "", fn); fn = FILENAME ":" fn }
/^ *(requires|ensures) / { c = $0; sub(/^ *(requires|ensures) ([a-z_0-9]+ )?\{ /, "", c); sub(/ \}.*$/, "", c); gsub(/\.(now|old)/, "", c)
  if (!((fn, c) in seen)) { seen[fn, c] = 1; n[c]++; w[c] = w[c] " " fn } }
END { for (c in n) if (n[c] >= 3) print n[c] "\t" c "\t" w[c] }' | sort -k1,1nr -k2
        ;;
    # numbers that stand in clauses of three or more functions
    5.2)
find crates -not -path '*/out/*' -name '*.rt' ! -name tests.rt | sort | xargs awk '
/^ *(pub(\([a-z]+\))? )?fn / { fn = $0; sub(/^.*fn /, "", fn); sub(/[<(].*/, "", fn); fn = FILENAME ":" fn }
/^ *(requires|ensures) / { c = $0; sub(/^ *(requires|ensures) ([a-z_0-9]+ )?\{ /, "", c); sub(/ \}.*$/, "", c)
  while (match(c, /[0-9][0-9]+( \* [0-9]+)?/)) { k = substr(c, RSTART, RLENGTH); c = substr(c, RSTART + RLENGTH)
    if (k !~ /^(100|256)$/ && !((fn, k) in seen)) { seen[fn, k] = 1; n[k]++; w[k] = w[k] " " fn } } }
END { for (k in n) if (n[k] >= 3) print n[k] "\t" k "\t" w[k] }' | sort -k1,1nr -k2
        ;;
    # pairs of parameters that stand in three or more signatures (`&` and `mut` passed over)
    5.3)
find crates -not -path '*/out/*' -name '*.rt' ! -name tests.rt | sort | xargs awk '
/^ *(pub(\([a-z]+\))? )?fn / { s = ""; on = 1; f = $0; sub(/^.*fn /, "", f); sub(/[<(].*/, "", f); f = FILENAME ":" FNR ":" f }
on { t = $0; sub(/^ +/, "", t); s = s " " t }
on && (/\)$/ || /\) ->/ || /\) \{/ || /\);/) { on = 0
  sub(/^ *(pub(\([a-z]+\))? )?fn [a-z0-9_]+(<[^(]*>)?\(/, "", s); sub(/\)( ->.*| \{.*|;.*)?$/, "", s)
  gsub(/&(.[a-z]+ )?(mut )?/, "", s); k = split(s, a, /, */); m = 0
  for (i = 1; i <= k; i++) { p = a[i]; gsub(/^ +| +$/, "", p); sub(/^mut /, "", p); if (p != "" && p !~ /self$/) b[++m] = p }
  for (i = 1; i <= m; i++) for (j = 1; j <= m; j++) if (b[i] < b[j]) { q = b[i] " + " b[j]; n[q]++; w[q] = w[q] " " f } }
END { for (q in n) if (n[q] >= 3) print n[q] "\t" q "\t" w[q] }' | sort -k1,1nr -k2
        ;;
    # facts about a field that stand in three or more structs
    5.4)
find crates -not -path '*/out/*' -name '*.rt' ! -name tests.rt | sort | xargs awk '
/^ *(pub )?struct / { s = $0; sub(/^.*struct /, "", s); sub(/[<( {].*/, "", s) }
/^ *ghost [a-z_]+: \{/ { f = $0; sub(/^[^{]*\{ /, "", f); sub(/ \}.*$/, "", f)
  if (f ~ /^[a-z_]+ ≤ [0-9]+$/) sub(/^[a-z_]+/, "x", f); if (f ~ /^[0-9]+ ≤ [a-z_]+$/) sub(/[a-z_]+$/, "x", f)
  if (!((s, f) in d)) { d[s, f] = 1; n[f]++; w[f] = w[f] " " s } }
END { for (f in n) if (n[f] >= 3) print n[f] "\t" f "\t" w[f] }' | sort -k1,1nr -k2
        ;;
    # all `requires` clauses
    5.5)
grep -rnE --exclude-dir=out '^\s*requires ' crates --include='*.rt' --exclude=tests.rt
        ;;
    # all ghost lines in structs and traits
    5.6)
grep -rnE --exclude-dir=out '^\s*ghost [a-z_]+: \{' crates --include='*.rt' --exclude=tests.rt
        ;;
    # arrays of a fixed length
    6.1)
grep -rnE --exclude-dir=out '\[[A-Za-z0-9_:]+; ?(256|ACCOUNTS|NUMBERS|[0-9]+)\]' crates --include='*.rt' --exclude=tests.rt
        ;;
    # reads and writes of an array or slice by index
    6.2)
grep -rnE --exclude-dir=out '\w\[[a-z_.()]+( as usize)?\]|\w\[[a-z]+ \+ [^]]*\]' crates --include='*.rt' --exclude=tests.rt
        ;;
    # records of a list by index
    6.3)
grep -rnE --exclude-dir=out '\.(get|replace|take_out|truncate)\(' crates --include='*.rt' --exclude=tests.rt
        ;;
    # a length or limit as a field
    6.4)
grep -rnE --exclude-dir=out '^\s*(pub(\(crate\))? )?(len|limit): usize' crates --include='*.rt' --exclude=tests.rt
        ;;
    # static tables
    6.5)
grep -rnE --exclude-dir=out '\bstatic\b.*: \[' crates --include='*.rt' --exclude=tests.rt
        ;;
    # chains of `else if`
    6.6)
grep -rnE --exclude-dir=out '\} else if ' crates --include='*.rt' --exclude=tests.rt
        ;;
    # match arms that only call a function
    7.1)
grep -rnE --exclude-dir=out '^\s*[A-Z][A-Za-z]+(::[A-Z][A-Za-z]+)?.* => (return )?[a-z_]+\(.*\)\??,$' crates --include='*.rt' --exclude=tests.rt
        ;;
    # closures, function pointers, `dyn` and `impl Fn` at this commit
    7.2)
grep -rnE --exclude-dir=out '\bfn\(|\bdyn |\bimpl Fn|: Fn(Mut|Once)?\(|[(,=] *\|[a-z_, &()]*\| ' crates --include='*.rt' --exclude=tests.rt
        ;;
    # loops outside tests (which of them differ in the step only is judged by eye)
    7.3)
grep -rnE --exclude-dir=out '^\s*for .* in ' crates --include='*.rt' --exclude=tests.rt
        ;;
    # lines and files by crate: all, Answers, Invariants, lemma files, Lib files (lines/files)
    8.1)
find crates -not -path '*/out/*' -path '*/proofs/*' -name '*.antt' | sort | xargs awk '
{ split(FILENAME, a, "/"); k = FILENAME ~ /Answers.antt$/ ? 2 : FILENAME ~ /Invariants.antt$/ ? 3 : FILENAME ~ /Lib.antt$/ ? 5 : 4; c[a[2]] = 1; n[a[2], 1]++; n[a[2], k]++ }
FNR == 1 { f[a[2], 1]++; f[a[2], k]++ }
END { for (x in c) { s = x; for (k = 1; k <= 5; k++) s = s " " n[x, k] + 0 "/" f[x, k] + 0; print s } }' | sort
        ;;
    # lines of each file, and in all
    8.2)
find crates -not -path '*/out/*' -path '*/proofs/*' -name '*.antt' | sort | xargs wc -l
        ;;
    # names that two lemma files declare
    8.3)
find crates -not -path '*/out/*' -path '*/proofs/*' -name '*.antt' ! -name Answers.antt ! -name Invariants.antt | sort | xargs awk '
/^(pub |record |abbrev )*[A-Za-z_][A-Za-z_0-9-]* .*:/ { t = $0; gsub(/^(pub |record |abbrev )+/, "", t); sub(/[ :].*/, "", t)
  if (t !~ /^(module|use|unfolding|let)$/ && !((FILENAME, t) in s)) { s[FILENAME, t] = 1; n[t]++; w[t] = w[t] " " FILENAME ":" FNR } }
END { for (t in n) if (n[t] >= 2) print n[t] "\t" t "\t" w[t] }' | sort
        ;;
    # lines that stand in three or more files of answers (12 characters or more)
    8.4)
find crates -not -path '*/out/*' -name Answers.antt | sort | xargs awk '
{ t = $0; gsub(/^ +| +$/, "", t) }
length(t) >= 12 && t !~ /^(use|--)/ && t !~ /^(pub )?[a-z_-]+ : goal/ { if (!((FILENAME, t) in s)) { s[FILENAME, t] = 1; n[t]++; w[t] = w[t] " " FILENAME } }
END { for (t in n) if (n[t] >= 3) print n[t] "\t" t "\t" w[t] }' | sort -k1,1nr -k2
        ;;
    # runs of four lines that stand twice to the letter in proofs
    8.5)
find crates -not -path '*/out/*' -path '*/proofs/*' -name '*.antt' | sort | xargs awk '
FNR == 1 { k = 0 }
{ t = $0; gsub(/^ +| +$/, "", t) }
t == "" || t ~ /^(--|use )/ { next }
{ l[k % 4] = t; at[k % 4] = FNR; k++
  if (k >= 4) { w = l[k % 4] "\n" l[(k + 1) % 4] "\n" l[(k + 2) % 4] "\n" l[(k + 3) % 4]; n[w]++; p[w] = p[w] " " FILENAME ":" at[k % 4] } }
END { for (w in n) if (n[w] >= 2) print n[w] p[w] }' | sort -k2
        ;;
    # files of answers of six lines or fewer
    8.6)
find crates -not -path '*/out/*' -name Answers.antt | sort | xargs awk 'FNR == 1 && NR > 1 && last <= 6 { print last "\t" file } { last = FNR; file = FILENAME } END { if (last <= 6) print last "\t" file }' | sort -k2
        ;;
    esac
}

if [ $# -gt 0 ]; then
    places "$1"
    exit
fi
for c in 1.1 1.2 1.3 1.4 1.5 1.6 2.1 2.2 2.3 2.4 2.5 3.1 3.2 3.3 4.1 4.2 4.3 4.4 4.5 5.1 5.2 5.3 5.4 5.5 5.6 6.1 6.2 6.3 6.4 6.5 6.6 7.1 7.2 7.3 8.1 8.2 8.3 8.4 8.5 8.6; do
    printf '%s %s\n' "$c" "$(places "$c" | wc -l)"
done

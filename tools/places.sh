#!/bin/sh
# Counts the places of points 1 to 8 in crates/*/src. Run at the top of a checkout: sh tools/places.sh [POINT..] (all points without one).
# WIDE=n shows n characters of a hit; KEEP=folder keeps the tables. Each command prints its hits as `file:line: text`, and under its heading their number. A hit is a place to read, not yet a place of the point.
[ -d crates ] || { echo "no crates/ here"; exit 1; }
T=$(mktemp -d); trap 'rm -rf "$T"' EXIT
want=" ${*:-1 2 3 4 5 6 7 8} "
on() { case "$want" in *" $1 "*) return 0;; *) return 1;; esac; }
show() { echo; echo "## $1"; sort -t: -k1,1 -k2,2n | uniq > "$T/hits"; cut -c1-${WIDE:-220} "$T/hits"; echo "-- $1: $(wc -l < "$T/hits")"; }
src() { find crates -path '*/src/*' -name '*.rt' | sort; }

# Three tables, tab-separated, without comments and strings.
# F: file line name params(| between) return requires ensures body pub     S: file line enum|struct name fields comment-above     W: file line head body
python3 - "$T" $(src) <<'PY'
import re, sys
out = sys.argv[1]
F, S, W = (open(out + '/' + n, 'w') for n in 'FSW')
flat = lambda s: re.sub(r'\s+', ' ', s).strip()
def close(s, i):                                   # behind the bracket that closes the one at i
    d = 0
    while True:
        d += (s[i] in '([{') - (s[i] in ')]}'); i += 1
        if d == 0: return i
def split(s):                                      # at commas outside brackets
    parts, d, a = [], 0, 0
    for i, c in enumerate(s):
        d += (c in '([{<') - (c in ')]}' or c == '>' and s[i-1] not in '-=')
        if c == ',' and d == 0: parts.append(s[a:i]); a = i + 1
    return [flat(p) for p in parts + [s[a:]] if p.strip()]
for f in sys.argv[2:]:
    text = open(f).read()
    s = re.sub(r'//[^\n]*|"(?:\\.|[^"\\\n])*"|b?\'(?:\\.|[^\\\'])\'', lambda m: m[0][0] + ' ' * (len(m[0]) - 2) + m[0][-1] if m[0][0] != '/' else ' ' * len(m[0]), text)
    line = lambda i: str(s.count('\n', 0, i) + 1)
    for m in re.finditer(r'^[ \t]*(pub(?:\([a-z]+\))? )?(?:const |unsafe |extern +"[^"]*" +)*fn (\w+)', s, re.M):
        i = s.index('(', m.end()); j = k = close(s, i); req, ens = [], []
        while s[k] not in '{;' and not re.match(r'\s(requires|ensures|decreases|where)\b', s[k:k+12]): k = close(s, k) if s[k] in '[(' else k + 1
        ret = re.sub(r'^->', '', flat(s[j:k])).strip()
        while True:                                # clauses, then the body
            c = re.compile(r'\s*(?:where\b[^{]*?)?(?:(requires|ensures|decreases|measure)\b[^{]*)?([{;])').match(s, k)
            if not c: body = ''; break
            if c[2] == ';': body = ''; break
            e = close(s, c.end() - 1)
            if c[1]: (req if c[1] == 'requires' else ens).append(flat(s[c.end():e-1])); k = e; continue
            body = s[c.end():e-1]; b0 = c.end(); break
        if body == '': continue
        print(f, line(m.start(2)), m[2], ' | '.join(split(s[i+1:j-1])), ret, ' × '.join(req), ' × '.join(ens), flat(body), 'pub' if m[1] else '', sep='\t', file=F)
    for m in re.finditer(r'^[ \t]*(?:pub(?:\([a-z]+\))? )?(struct|enum) (\w+)[^{;(]*\{', s, re.M):
        e = close(s, m.end() - 1); above = re.search(r'((?:^[ \t]*(?://|#\[)[^\n]*\n)*)\Z', text[:m.start()], re.M)[1]
        print(f, line(m.start(2)), m[1], m[2], ' | '.join(split(re.sub(r'\bpub ', '', s[m.end():e-1]))), flat(above), sep='\t', file=S)
    for m in re.finditer(r'\b(?:while|for(?=[^{};]* in )|loop)\b[^{};]*\{', s):
        e = close(s, m.end() - 1); print(f, line(m.start()), flat(s[m.start():m.end()-1]), flat(s[m.end():e-1]), sep='\t', file=W)
PY
grepsrc() { src | xargs grep -nHE "$1" | grep -vE '^[^:]*:[0-9]+: *(//|ghost use|requires|ensures)'; }
awkF() { awk -F'\t' "$1" "$T/F"; }
awkS() { awk -F'\t' "$1" "$T/S"; }

[ -z "$KEEP" ] || cp "$T"/[FSW] "$KEEP"/
if on 1; then
  awkS '$3=="enum" { n=split($5,v," [|] "); if (n==2 && $5 ~ /[({]/) print $1":"$2": enum "$4" { "$5" }" }' | show "1a own enums of two variants with a value in one (Option, Result)"
  awkS '$3=="struct" && $5 ~ /[|] / && ($5 ~ /: bool/ || $6 ~ /[^0-9.]0[^0-9.]|refus|fail/) { print $1":"$2": struct "$4" { "$5" }" }' | show "1b a flag with a value beside it, a 0 that stands for none (struct with a bool, or whose comment speaks of 0)"
  awkF '$5 ~ /^(u8|u16|u32|u64|usize)$/ && ($8 ~ /return [1-9][0-9]*;/ || $8 ~ /!= 0 \{ return [a-z]+;/) { print $1":"$2": fn "$3" -> "$5": "$8 } $5 ~ /^(u8|u16|u32|u64|usize)$/ && $3 $7 ~ /refus|verdict/ { print $1":"$2": fn "$3" -> "$5": "$8 }' | show "1c functions that answer a refusal as a number"
  awkF '{ n=split($4,p," [|] "); for(i=1;i<=n;i++) if (p[i] ~ /^(kind|kinds|code|number|refusal|part|status|error|errno): u(8|16|32|64|size)$|^k: u32$/) print $1":"$2": fn "$3"("$4")" } $5=="u32" && $3 ~ /kind|code|number|part/ { print $1":"$2": fn "$3" -> "$5 }' | show "1d numbers for kinds, parts, codes, refusals among parameters and results"
  grepsrc '\bconst [A-Z_]+: u(8|16|32|64|size) = [0-9]{1,2};' | show "1e constants that number kinds"
  awkF '{ b=$8; while (match(b,/match [^{}]* \{ [0-9]+ =>/)) { print $1":"$2": fn "$3": "substr(b,RSTART,60); b=substr(b,RSTART+RLENGTH) } }' | show "1f matches on numbers"
  awkF '{ b=$8; while (match(b,/if !?[a-z_.]+ [!=]= 0 \{ return [^;]*;/)) { print $1":"$2": fn "$3": "substr(b,RSTART,RLENGTH); b=substr(b,RSTART+RLENGTH) } } $8 ~ /match [^{}]*\{ Ok\(\(\)\) => true|Err\(_\) => (false|[A-Z])/ { print $1":"$2": fn "$3": "$8 }' | show "1g a number or a flag tested for refusal or failure, where ? would stand"
  awkF '$8 ~ /else \{ 0 \}/ || $8 ~ /== 0 \{ return 0;/ || $8 ~ /if [a-z.]+ == 0 \{ (0|[a-z.]+ - [0-9]+) \} else/ || $8 ~ /(0 < (width|beam|diameter)|(width|beam|first|x|y|b|diameter) == 0)/ { print $1":"$2": fn "$3": "$8 }' | show "1i a 0 that stands for none in a function (else { 0 }, a width of 0)"
  awkS '$3=="enum" && $5 !~ /[({]/ && $5 ~ /Not[A-Z]|Err|Fail|None|Bad|Refus/ { print $1":"$2": enum "$4" { "$5" }" }' | show "1j own enums of an outcome"
  grepsrc 'if !?[a-z_]+\.(failed|whole|ended|refusal|outer|ok|found|valid)\b' | show "1h a flag of a struct tested before its value is used"
fi
if on 2; then
  python3 - "$T/F" <<'PY' > "$T/twins"
import re, sys, difflib
R = [l.rstrip('\n').split('\t') for l in open(sys.argv[1])]
tok = lambda b: re.findall(r'[A-Za-z_]\w*|\d\w*|[^\sA-Za-z_0-9]+', b)
key = {'if','else','match','return','while','for','in','let','mut','as','break','true','false','u8','u16','u32','u64','usize','bool'}
def shape(t): return ' '.join('L' if w[0].isdigit() else 'I' if w[0].isalpha() and w not in key else w for w in t)
def alpha(t):
    seen = {}
    return ' '.join('L' if w[0].isdigit() else w if w in key or not w[0].isalpha() else seen.setdefault(w, 'v%d' % len(seen)) for w in t)
X = [(r, tok(r[7])) for r in R if len(tok(r[7])) >= 8]
for i in range(len(X)):
    for j in range(i):
        (p, a), (q, b) = X[j], X[i]
        if alpha(a) == alpha(b): how = 'equal'
        elif shape(a) == shape(b) and len(a) >= 16: how = 'same shape'
        elif min(len(a), len(b)) >= 14 and abs(len(a)-len(b)) <= 12 and difflib.SequenceMatcher(None, shape(a).split(), shape(b).split(), False).ratio() >= .88 and difflib.SequenceMatcher(None, a, b, False).ratio() >= .6: how = 'near'
        else: continue
        print('%s:%s: %s: fn %s = %s:%s: fn %s (%d tokens)' % (p[0], p[1], how, p[2], q[0], q[1], q[2], len(a)))
PY
  grep ': equal: ' "$T/twins" | show "2a bodies that are equal but for names and numbers (8 tokens or more)"
  grep ': same shape: ' "$T/twins" | show "2b bodies of the same shape (16 tokens or more)"
  grep ': near: ' "$T/twins" | show "2c near-equal bodies (14 tokens or more)"
  python3 - "$T/S" <<'PY' | show "2d structs that share three or more fields, or half of theirs, or whose field types are the same"
import sys
R = [l.rstrip('\n').split('\t') for l in open(sys.argv[1])]
R = [(r, r[4].split(' | ')) for r in R if r[2] == 'struct']
for i in range(len(R)):
    for j in range(i):
        (p, a), (q, b) = R[j], R[i]; both = set(a) & set(b); ty = lambda x: [f.split(': ')[-1] for f in x]
        if len(both) >= 3 or len(both) >= 2 and 2 * len(both) >= min(len(a), len(b)) or ty(a) == ty(b): print('%s:%s: struct %s and %s:%s: %s: %s' % (p[0], p[1], p[3], q[0], q[1], q[3], ', '.join(sorted(both)) or 'same types'))
PY
fi
if on 3; then
  awk -F'\t' '$3 ~ /^while/ { s=""; if ($4 ~ /\+= 1;/) s=s" += 1"; if ($4 ~ /-= 1;/) s=s" -= 1"; print $1":"$2": "$3" [body has:"(s==""?" no step of 1":s)"]" }' "$T/W" | show "3a while loops"
  awk -F'\t' '$3 ~ /^while/ && $4 ~ /[+-]= 1;/ { print $1":"$2": "$3 }' "$T/W" | show "3b of these, with a step of 1 in the body"
  awk -F'\t' '$3 !~ /^while/ { print $1":"$2": "$3 }' "$T/W" | show "3c for and loop, to compare"
fi
if on 4; then
  awkF '$8 ~ /^if ([a-z]+) [<>]=? ([a-z]+) \{ [a-z]+ \} else \{ [a-z]+ \}$/ || $7 ~ /≡ (min|max) / { print $1":"$2": fn "$3": "$8 }' | show "4a minimum and maximum by hand"
  M=$(awkF '$7 ~ /^result ≡ (min|max) [a-z]+ [a-z]+$/ { print $3 }' | paste -sd'|'); [ -z "$M" ] || grepsrc "\\b($M)\\(" | grep -vE ':(pub )?fn ' | show "4b calls of these"
  grepsrc 'if [a-z_.]+ [<>]=? [a-z_.]+ \{ [a-z_.]+ \} else \{ [a-z_.]+ \}' | show "4c other if a < b { .. } else { .. }"
  grepsrc '^ *[0-9]+\.\.=[0-9]+ =>' | show "4d ranges tested by match arms"
  awkF '{ if (match($8,/^match [a-z]+ \{ [^,]*=> (true|false), .*\}$/) || match($8,/^if [a-z]+ \{ (true|[a-z]+) \} else \{ (false|![a-z]+) \}$/)) print $1":"$2": fn "$3": "$8 }' | show "4e equality by hand"
  awk -F'\t' '$4 ~ /[a-z]+\[[^]]*\] = [a-z]+(\[[^]]*\]|\([^;]*\)\??);/ { print $1":"$2": "$3" { "$4 }' "$T/W" | show "4f loops that copy or fill"
  awkF '{ b=$8; n=gsub(/[a-z]+\[[a-z]+ \+ [0-9]+\]/,"&",b); if (n>=2) print $1":"$2": fn "$3": "$8 }' | show "4g indices written out one by one"
  grepsrc '(256|65536|16777216|4294967296)\b' | show "4h bytes to numbers and back"
  awkF '{ b=$8; if (match(b,/match [a-z]+ \{ [A-Z][A-Za-z]*::[A-Z][A-Za-z]* => [0-9]+,/) || match(b,/[0-9]+ => [A-Z][A-Za-z]*::[A-Z]/)) print $1":"$2": fn "$3": "b } $8 ~ /\{ 1 \} else \{ 0 \}/ { print $1":"$2": fn "$3": "$8 }' | show "4i enum to number, number to enum, bool to number"
  awkF '{ b=$8; n=gsub(/[a-z]+\.[a-z]+,/,"&",b); if (n>=5 && $8 ~ /^\[|; \[/) print $1":"$2": fn "$3": "$8 }' | show "4j a struct to an array, field by field"
  awkF '$4 ~ /^[a-z]+: (u32|u64|usize|bool)/ && $8 ~ /^(Self|[A-Z][A-Za-z]*) \{ [a-z]+: [a-z]+( as u[0-9]+)?, / { print $1":"$2": fn "$3": "$8 }' | show "4k structs built of plain numbers"
  src | xargs grep -nHE '[{ ]([a-z_]+): \1,?$' | show "4l fields given their own name (name: name)"
  grepsrc "write!|writeln!|write_all|b' '|b'.n'|decimal\(" | show "4m printing"
  grepsrc '(let [a-z_]+ = |: )[a-z_]+\.[a-z_]+ as u(32|64|size)|[a-z] as u(16|32|64)\b' | show "4n widening by as (no place by itself)"
fi
if on 5; then
  awkF '{ n=split($4,p," [|] "); if (n>=4) print $1":"$2": fn "$3" ("n"): "$4 }' | show "5a four parameters or more"
  python3 - "$T/F" <<'PY' > "$T/facts"
import sys, re, itertools, collections
R = [l.rstrip('\n').split('\t') for l in open(sys.argv[1])]
G = collections.defaultdict(list)
for r in R:
    P = r[3].split(' | ') if r[3] else []
    for k in range(2, min(len(P), 9) + 1):
        for c in itertools.combinations(P, k): G[c].append(r)
G = {c: v for c, v in G.items() if len(v) >= 3 and len({(r[0], r[1]) for r in v}) >= 3}
at = lambda r: '%s:%s %s' % (r[0].replace('crates/', '').replace('/src/', ':'), r[1], r[2])
for c, v in sorted(G.items(), key=lambda x: (-len(x[1]), x[0])):
    if any(set(c) < set(d) and len(w) == len(v) for d, w in G.items()): continue   # a larger group says the same
    print('%s:%s: P %d functions (%d crates) take %s: %s' % (v[0][0], v[0][1], len(v), len({r[0].split('/')[1] for r in v}), ', '.join(c), ', '.join(at(r) for r in v)))
Q = collections.defaultdict(list)
for r in R:
    for w in set(re.findall(r'(?:^|[ (])([A-Z][A-Za-z0-9]*) ', r[5] + ' ')):
        u = re.search(r'ghost use Rattle\.([\w.]+)\.\{[^}]*\b' + w + r'\b', open(r[0]).read()); Q[w + (' of ' + u[1] if u else '')].append(r)
for w, v in sorted(Q.items(), key=lambda x: (-len(x[1]), x[0])):
    if len(v) >= 3: print('%s:%s: R requires %s in %d contracts (%d crates): %s' % (v[0][0], v[0][1], w, len(v), len({r[0].split('/')[1] for r in v}), ', '.join(at(r) for r in v)))
PY
  grep ': P ' "$T/facts" | show "5b the same two parameters or more in three functions or more (largest groups)"
  grep ': R ' "$T/facts" | show "5c the same requires record in three contracts or more"
fi
if on 6; then
  awkF '{ n=split($4,p," [|] "); a=0; l=0; for(i=1;i<=n;i++) { if (p[i] ~ /: &?(mut )?\[/) a++; if (p[i] ~ /^(n|m|count|len|length|to|last|from|first|width|left): u(32|64|size)$/) l++ } if (a && l) print $1":"$2": fn "$3": "$4 }' | show "6a an array or slice with a length or bound beside it"
  awkF '{ n=split($4,p," [|] "); c=0; for(i=1;i<=n;i++) for(j=1;j<i;j++) { a=p[i]; b=p[j]; sub(/^[^:]*: /,"",a); sub(/^[^:]*: /,"",b); sub(/ $/,"",a); sub(/ $/,"",b); if (a==b && a ~ /\[.*[;\]]/) c++ } if (c) print $1":"$2": fn "$3": "$4 }' | show "6b two arrays or slices of the same type beside each other (parallel arrays)"
  grepsrc '\[\[u[0-9]+; [0-9A-Z]+\]; [0-9A-Z]+\]' | show "6c rows of arrays of fixed size"
  grepsrc '= \[0u(8|16|32|64); ' | show "6d local buffers of fixed size"
  awkF '$8 ~ /copy_from_slice|clone\(\)|let [a-z]+ = [a-z]+\.[a-z]+;.*\[[a-z_]+\(/ || $8 ~ /let mut [a-z]+ = \[0u[0-9]+; [^;]*\]; let n = [a-z]+\.len\(\);/ { print $1":"$2": fn "$3": "$8 }' | show "6e buffers copied whole"
  grepsrc '&(mut )?[a-z]+\[(\.\.[a-z]+|[a-z]+\.\.[^]]*)\]' | show "6f part of a buffer by a count kept beside it"
  awkF '$4 $5 ~ /\[u[0-9]+; [A-Z0-9]+\]/ { print $1":"$2": fn "$3"("$4") -> "$5 }' | show "6g arrays of fixed size as parameters and results"
fi
if on 7; then
  awkF '{ b=$8; if (match(b,/match [^{}]* \{ ([A-Z][A-Za-z]*::[A-Za-z]+(\([a-z_]+\))?|[0-9]+) => (return )?[a-z_:]+\(/)) print $1":"$2": fn "$3": "substr(b,RSTART,200) }' | show "7a matches whose arms call functions"
  awkF '$4 ~ /: bool/ { n=split($4,p," [|] "); for(i=1;i<=n;i++) if (p[i] ~ /: bool$/) { v=p[i]; sub(/:.*/,"",v); if ($8 ~ "(if|match|[(,]) ?[^{;]*[( ]?"v"[,)} ]" || $8 ~ "if "v) print $1":"$2": fn "$3": "p[i]": "$8 } }' | show "7b flags as parameters that choose a step or are handed on"
  awkF '{ n=split($4,p," [|] "); for(i=1;i<=n;i++) if (p[i] ~ /: (bool|[A-Z][A-Za-z]*)$/ && $8 ~ "match "substr(p[i],1,index(p[i],":")-1)" \\{") print $1":"$2": fn "$3": "$4 }' | show "7c a parameter that is matched on"
fi
if on 8; then
  echo; echo "## 8a proof files, lines and positional Proof.antt per crate"
  for c in crates/*/; do
    set -- $(find "$c"proofs -name '*.antt' 2>/dev/null | wc -l) $(find "$c"proofs -name '*.antt' -exec cat {} + 2>/dev/null | wc -l) $(find "$c"proofs -name Proof.antt 2>/dev/null | wc -l) $(find "$c"proofs -mindepth 2 -name '*.antt' 2>/dev/null | wc -l)
    echo "$c: $1 files, $2 lines, $3 Proof.antt, $4 in folders of functions"
  done
  echo "-- all: $(find crates/*/proofs -name '*.antt' | wc -l) files, $(find crates/*/proofs -name '*.antt' -exec cat {} + | wc -l) lines, $(find crates/*/proofs -name Proof.antt | wc -l) Proof.antt"
  find crates/*/proofs -name '*.antt' | sort | xargs awk 'FNR==1 { f=FILENAME } /^ *(use |pub use |--|import |from )/ { next } NF { sub(/^ +/,""); gsub(/ +/," "); if (length($0) >= 60) { n[$0]++; if (!(f SUBSEP $0 in seen)) { seen[f,$0]=1; at[$0]=at[$0]" "f":"FNR } } } END { for (t in n) if (n[t]>1) { split(substr(at[t],2),w," "); print w[1]": x"n[t]": "t" -- "at[t] } }' | show "8b lines of proof (60 characters or more) that stand twice or more"
  python3 - $(find crates/*/proofs -name '*.antt' | sort) <<'PY' | show "8c blocks of a proof (one definition or answer) whose text stands twice or more but for its name"
import re, sys, collections
G = collections.defaultdict(list)
for f in sys.argv[1:]:
    for m in re.finditer(r'(?ms)^(\S[^\n]*\n(?:[ \t]+[^\n]*\n)+)', open(f).read() + '\n'):
        t = re.sub(r'\s+', ' ', m[1]).strip()
        if re.match(r'(pub )?use |--', t) or len(t) < 80: continue
        name = re.match(r'(?:lemma |theorem |abbrev |pub |def )*(\S+)', t)[1]
        G[re.sub(r'(?<!\S)' + re.escape(name) + r'(?!\S)', 'NAME', t)].append('%s:%d' % (f, open(f).read()[:m.start()].count('\n') + 1))
for t, v in G.items():
    if len(v) > 1: print('%s: x%d: %s -- %s' % (v[0], len(v), t[:120], ' '.join(v)))
PY
  find crates/*/proofs -name Proof.antt | sort | while read -r p; do
    awk '/tie.close/ { on=1 } on { t=t" "$0 } END { sub(/^.*tie\.close/,"tie.close",t); gsub(/ +/," ",t); u=t; gsub(/λ [a-zκ. ]*\.|search (rules|cases|arith)|cc|refl|omega arith|NAME|tie\.(close|spec)|[(), ]|result|=/,"",u); if (on && u == "") print FILENAME":1: "t }' "$p"
  done | show "8d positional Proof.antt whose every answer is a bare search, cc, omega or refl"
fi

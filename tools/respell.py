#!/usr/bin/env python3
"""Spells the repository's own definitions, lemmas, fields and constructors in snake case: 'packet-of' to 'packet_of', as Rattle's own.

usage: respell.py [--table FILE] [--check]        at the top of a repository, after the upgrade scripts and before any edit by hand

Turns whole words in the .antt files of specs/ and proofs/, in clauses, 'ghost use' lines and code spans of .rt files, in the texts of must-fail edits, and in code spans of .md files;
then in each file the names that are that file's alone, of imports ('as b-of') and of bound variables.
A name that a library also has, or that would meet another of some file that uses it, stays, and a line 'left:' says so. --table writes the table of old and new names.
A word that a program reads or prints, as `to-box`, stays in pages and comments.
Labels that the check makes stay: in a function's proof folder a word turns only where the file imports or declares it, or as a field.
"""
import collections, os, re, sys
WORD = re.compile(r'[^\s(){}.;,@"«»`]+')
MODS = r'(?:(?:abbrev|unfoldable|pub|record|data|ruleset|rec|private|opaque) )*'
DECL = re.compile(rf'^( *)(?:\| *)?({MODS})([^\s(){{}}.;,@"«»:=]+)(?: \{{[^{{}}\n]*\}}| \([^()\n]*\))* *(:|=)(?=\s|$)', re.M)
USE = re.compile(r"\buse ([^\s;{]+?)(?:\.\{([^}]*)\})?(?: as ([^\s;]+))?(?=[\s;]|$)", re.S)
QUIET = re.compile(r'--[^\n]*|\{-.*?-\}|"(?:[^"\\\n]|\\.)*"', re.S)
def files(kinds):
    for d, ds, fs in os.walk('.'):
        ds[:] = sorted(x for x in ds if x not in ('target', '.git') and not (x == 'out' and re.fullmatch(r'\./crates/[^/]+', d)))
        for f in sorted(fs):
            if f.endswith(kinds): yield os.path.join(d, f)[2:]
def inside(p): return re.match(r'crates/[^/]+/proofs/.+/', p) is not None   # a function's proof folder
CLAUSE = re.compile(r'(?:requires|ensures)\s*\*?\s*(?:[\w-]+\s*)?\{|ghost\s*(?:\w+\s*(?::\s*(?:(?:owns|lends)\s*)?|=\s*))?\{')
def scope(p, t):
    """The words that a name of the file can meet: no path, no projection, and of a .rt file its clauses, ghost uses and parameters alone."""
    if p.endswith('.rt'):
        t = re.sub(r'//[^\n]*|"(?:[^"\\\n]|\\.)*"', ' ', t); out = []
        for m in re.finditer(r'ghost use ([^;]*);', t): out.append(m[1])
        for m in CLAUSE.finditer(t):
            deep, i = 1, m.end()
            while i < len(t) and deep: deep += (t[i] == '{') - (t[i] == '}'); i += 1
            out.append(t[m.end():i-1])
        for m in re.finditer(r'\bfn \w+(?:<[^()]*>)?\(([^)]*)\)', t): out += re.findall(r'(\w+):', m[1])
        out += re.findall(r'\b(?:const|static) (\w+)', t)
        t = ' '.join(out)
    t = re.sub(r'use [^\s;{]+\.(?=\{)', ' ', t)
    t = re.sub(r'use [^\s;{]+', ' ', t)
    t = re.sub(r'Rattle\.[^\s;{]+', ' ', t)
    return re.sub(r'\.[\w\'-]+', ' ', t)
def respelled_here(p, t):
    """The names of one file alone: what an import is called there ('as b-of'), and in specs/ and proofs/ bound variables."""
    imported, called = set(), set()
    for m in USE.finditer(re.sub(r'--[^\n]*|//[^\n]*', ' ', t)):
        for item in (m[2] or m[1].split('.')[-1]).replace('\n', ' ').split(','):
            a = [w.strip('«» ') for w in item.split(' as ')]
            imported.add(a[0]); called |= set(a[1:])
        if m[3]: called.add(m[3])
    words = set(WORD.findall(QUIET.sub(' ', t))) - imported if p.endswith('.antt') and not inside(p) else called
    for w in sorted(words):
        new = w[0].lower() + w[1:].replace('-', '_') if w in called else w.replace('-', '_')
        if re.fullmatch(r"[A-Za-z][\w'₀₁]*(-[\w'₀₁]+)+", w) and w not in imported and new not in words | imported:
            t = re.sub(rf"(?<![\w'.₀₁-]){re.escape(w)}(?![\w'₀₁-])", new, t)
    return t
def main():
    check = '--check' in sys.argv
    text = {p: open(p, encoding='utf-8').read() for p in files(('.antt', '.rt', '.edit', '.md')) if p.endswith('.md') or p.startswith('crates/')}
    own, fields, lib, words, seen = set(), set(), collections.defaultdict(set), {}, {}
    for p, t in text.items():
        if p.endswith(('.md', '.edit')): continue
        bare = QUIET.sub(' ', t) if p.endswith('.antt') else t
        words[p] = set(WORD.findall(bare)); seen[p] = set(WORD.findall(scope(p, bare)))
        for m in USE.finditer(bare):
            mine = m[1].startswith('Rattle.') and os.path.isdir('crates/' + m[1].split('.')[1])
            for item in (m[2] or m[1].split('.')[-1]).replace('\n', ' ').split(','):
                a = [w.strip('«» ') for w in item.split(' as ')]
                if not mine:
                    for w in a: lib[w].add(p)
        if p.endswith('.antt'):
            for m in DECL.finditer(bare):
                n = m[3]
                if inside(p) and re.match(r'\s*(tie|goal)\.|\s*\{M : Type 1\}', bare[m.end():]): continue
                if ('-' in n or n[0].islower() and re.search('[A-Z]', n)) and re.fullmatch(r"[A-Za-z][\w'?-]*", n): own.add(n); fields |= {n} if m[1] else set()
    table, left = {}, []
    for n in sorted(own):
        new = re.sub(r'(?<=[a-z])[A-Z](?=[a-z])', lambda m: '_' + m[0].lower(), n.replace('getD', 'get_or')).replace('-', '_') if n[0].islower() else n.replace('-', '_')
        users = [p for p in words if n in words[p]]
        if n in lib: left.append((n, 'a library has it: ' + sorted(lib[n])[0])); continue
        clash = [p for p in users if new in seen[p]]
        if clash: left.append((n, f'{new} stands in {clash[0]} too')); continue
        table[n] = new
    for n, why in left: print(f'left: {n}: {why}')
    def turn(s, may=lambda w: True):
        return WORD.sub(lambda m: table[m[0]] if m[0] in table and may(m[0]) else m[0], s)
    # what a script of simulate may say keeps its spelling in pages and comments
    said = {w for p, t in text.items() if p.endswith('.rt') for s in re.findall(r'b"((?:\\.|[^"\\])*)"', t) for w in re.findall(r'[a-z]+(?:-[a-z]+)+', s)}
    turned_names = {m[3] for p, t in text.items() if p.endswith('.antt') for m in DECL.finditer(QUIET.sub(' ', t)) if '_' in m[3]} | set(table.values())
    def one_told(w): return table.get(w, w.replace('-', '_') if '-' in w and w.replace('-', '_') in turned_names else w)
    def turn_span(s): return WORD.sub(lambda m: m[0] if m[0] in said else one_told(m[0]), s)
    def turn_comment(s): return re.sub(r'`[^`\n]+`', lambda m: turn_span(m[0]), s)
    turned = 0
    for p, t in text.items():
        if p.endswith('.md'):
            new = turn_comment(t)
        elif p.endswith('.edit'):
            new = re.sub(r'b?"(?:\\.|[^"\\])*"|[^"]+|"', lambda m: m[0] if m[0][-1:] == '"' and len(m[0]) > 1 else turn(m[0]), t)
        elif p.endswith('.rt'):
            new = re.sub(r'//[^\n]*|b?"(?:\\.|[^"\\])*"|[^/"]+|/|"', lambda m: turn_comment(m[0]) if m[0].startswith('//') else m[0] if m[0][-1:] == '"' and len(m[0]) > 1 else turn(m[0]), t)
        else:
            mine = None
            if inside(p):
                bare = QUIET.sub(' ', t); mine = set()
                for m in USE.finditer(bare):
                    for item in (m[2] or '').replace('\n', ' ').split(','): mine |= {w.strip('«» ') for w in item.split(' as ')}
                for m in DECL.finditer(bare):
                    if not re.match(r'\s*(tie|goal)\.|\s*\{M : Type 1\}', bare[m.end():]): mine.add(m[3])
            def code(s, start, whole):
                def one(m):
                    w = m[0]
                    if w not in table: return w
                    if mine is not None:
                        at = start + m.start(); dotted = whole[at-1:at] == '.'
                        head = re.search(r'([\w-]+)\.$', whole[:at])
                        if dotted and head and head[1] in ('tie', 'goal'): return w
                        if not dotted and w not in mine and not (w in fields and re.match(r' =(?: |\n)', whole[at+len(w):])): return w
                    return table[w]
                return WORD.sub(one, s)
            out, at = [], 0
            for m in QUIET.finditer(t):
                out.append(code(t[at:m.start()], at, t))
                out.append(turn_comment(m[0]) if m[0][0] in '-{' else m[0]); at = m.end()
            out.append(code(t[at:], at, t)); new = ''.join(out)
            # names bound by let, also where the scripts turned the binding alone
            for b in set(re.findall(r"\blet ([a-z][\w'-]*)(?= [:=])", new)):
                kebab, snake = b.replace('_', '-'), b.replace('-', '_')
                if kebab != snake and kebab not in lib: new = re.sub(rf"(?<![\w'.-]){re.escape(kebab)}(?![\w'-])", snake, new)
        if p.endswith(('.rt', '.antt')): new = respelled_here(p, new)
        if new != t:
            turned += 1
            if not check: open(p, 'w', encoding='utf-8').write(new)
    if '--table' in sys.argv:
        with open(sys.argv[sys.argv.index('--table') + 1], 'w') as f: f.writelines(f'{a}\t{b}\n' for a, b in sorted(table.items()))
    print(f'respell: {len(table)} names in {turned} files, {len(left)} left')
main()

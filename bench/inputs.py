"""Inputs that would show a body whose work grows faster than its input. Each is a function of a count: it gives the lines of
a file, or those of some files by their names. A file `script` is read by a session over the others.
"""

import math

FIRST = ["$c wff |- -> ( ) $.", "$v p q $.", "wp $f wff p $.", "wq $f wff q $.", "wi $a wff ( p -> q ) $."]


def variables(count):
    """Variables with a typecode, and their declarations."""
    names = [f"x{n}" for n in range(count)]
    return names, ["$c wff |- $.", f"$v {' '.join(names)} $.", *(f"w{name} $f wff {name} $." for name in names)]


def statements(n):
    """As many short statements, each a piece of its own."""
    return [*FIRST, *(f"a{k} $a |- ( p -> q ) $." for k in range(n))]


def theorems(n):
    """As many theorems, each citing the one before."""
    lines = [*FIRST, "t0 $p wff ( p -> q ) $= wp wq wi $."]
    return lines + [f"t{k} $p wff ( p -> q ) $= wp wq t{k - 1} $." for k in range(1, n)]


def open_blocks(n):
    """Blocks in one another, with a statement in the innermost."""
    return ["$c wff $.", "${ " * n + "a $a wff $. " + "$} " * n]


def blocks(n):
    """Blocks one after another, each with a hypothesis and an assertion."""
    return [*FIRST, *("${ " + f"h{k} $e |- p $. a{k} $a |- q $. " + "$}" for k in range(n))]


def one_piece(n):
    """The same inside one block, and so in one piece."""
    return [*FIRST, "${", *(f"a{k} $a |- ( p -> q ) $." for k in range(n)), "$}"]


def commented(n, symbol):
    """Statements, each after a long comment: of the larger size some 41 MB."""
    return (f"$( {'x' * 390} $) a{k} $a |- {symbol} $." for k in range(n))


def no_faults(n):
    """Sound statements after long comments, to compare the next two with."""
    return [*FIRST, *commented(n, "p")]


def faults(n):
    """Statements at fault after long comments."""
    return [*FIRST, *commented(n, "r")]


def no_faults_in_one(n):
    """Sound statements after long comments, in one piece."""
    return [*FIRST, "${", *commented(n, "p"), "$}"]


def faults_in_one(n):
    """Statements at fault after long comments, in one piece."""
    return [*FIRST, "${", *commented(n, "r"), "$}"]


def faults_on_one_line(n):
    """Statements at fault on one line of one piece."""
    return [*FIRST, "${ " + " ".join(f"a{k} $a |- r $." for k in range(n)) + " $}"]


def many_variables(n):
    """One assertion with as many variables, and no pair."""
    names, lines = variables(n)
    return [*lines, f"a $a |- {' '.join(names)} $."]


def wide_pairs(n):
    """One statement of so many disjoint variables."""
    names, lines = variables(n)
    return [*lines, f"$d {' '.join(names)} $."]


def wide_pairs_and_theorems(n):
    """So many disjoint variables, and three theorems for each."""
    names, lines = variables(n)
    return [*lines, "wy $a wff x0 $.", f"$d {' '.join(names)} $.", *(f"t{k} $p wff x0 $= wx0 wy $." for k in range(3 * n))]


def wide_pairs_cited(n):
    """So many disjoint variables, and three theorems for each that cite an assertion with a pair."""
    names, lines = variables(n)
    lines += ["${", "$d x0 x1 $.", "ax $a |- x0 x1 $.", "$}", f"$d {' '.join(names)} $."]
    return [*lines, *(f"t{k} $p |- x2 x3 $= wx2 wx3 ax $." for k in range(3 * n))]


def wide_pairs_missed(n):
    """So many disjoint variables, and three theorems for each that cite an assertion with a pair that is not active."""
    names, lines = variables(n)
    lines += ["$v y $.", "wy $f wff y $.", "${", "$d x0 x1 $.", "ax $a |- x0 x1 $.", "$}", f"$d {' '.join(names)} $."]
    return [*lines, *(f"t{k} $p |- x2 y $= wx2 wy ax $." for k in range(3 * n))]


def pairs_in_blocks(n):
    """Variables in an outer `$d`, and twice as many blocks with a `$d` and a theorem each."""
    names, lines = variables(n)
    inner = ("${ $d x0 x1 $. " + f"t{k} $p wff x0 $= wx0 $. " + "$}" for k in range(2 * n))
    return [*lines, f"$d {' '.join(names)} $.", *inner]


def new_pairs_in_blocks(n):
    """The same where each block has a pair of its own."""
    names, lines = variables(n)
    others = [f"y{k}" for k in range(2 * n)]
    inner = (f"${{ $d x0 y{k} $. t{k} $p wff x0 $= wx0 $. $}}" for k in range(2 * n))
    return [*lines, f"$v {' '.join(others)} $.", f"$d {' '.join(names)} $.", *inner]


def new_pairs_and_theorems(n):
    """A `$d` of two new variables and a theorem, in turn, in the outermost block."""
    names, lines = variables(2 * n)
    for k in range(0, 2 * n, 2):
        lines += [f"$d {names[k]} {names[k + 1]} $.", f"t{k} $p wff {names[k]} $= w{names[k]} $."]
    return lines


def pairs_apart(n):
    """So many variables of one assertion, each in a `$d` with a variable of no assertion."""
    names, lines = variables(2 * n)
    lines += [f"$d {names[k]} {names[k + 1]} $." for k in range(0, 2 * n, 2)]
    return [*lines, f"a $a |- {' '.join(names[::2])} $."]


def rows_apart(n):
    """Two variables in so many `$d` each, none of which has both, and as many assertions of both."""
    lines = ["$c |- wff $.", "$v x y a b $.", *(f"w{name} $f wff {name} $." for name in "xyab")]
    lines += ["$d x a $. $d y b $."] * n
    return [*lines, *(f"k{k} $a |- x y $." for k in range(n))]


def rows_apart_in_turn(n):
    """The same, with each assertion after a `$d` of the one and a `$d` of the other."""
    lines = ["$c |- wff $.", "$v x y a b $.", *(f"w{name} $f wff {name} $." for name in "xyab")]
    return [*lines, *(f"$d x a $. $d y b $. k{k} $a |- x y $." for k in range(n))]


def wide_frames_cited(n):
    """One `$d` of so many variables, and ten assertions of all of them, which one proof cites."""
    names, lines = variables(n)
    every, typed = " ".join(names), " ".join(f"w{name}" for name in names)
    proof = " ".join(f"{typed} a{k}" for k in range(10))
    return [*lines, f"$d {every} $.", *(f"a{k} $a |- {every} $." for k in range(10)), f"t $p |- {every} $= {proof} $."]


def wide_frames(n):
    """One `$d` and one `$e` of the outermost block with so many variables, and as many assertions after them."""
    names, lines = variables(n)
    return [*lines, f"$d {' '.join(names)} $.", f"h $e |- {' '.join(names)} $.", *(f"a{k} $a |- x0 $." for k in range(n))]


def wide_frames_in_blocks(n):
    """A `$d` and an `$e` of so many variables; and then as many times an assertion outside of a block, and one in a block with a pair of its own."""
    names, lines = variables(n)
    lines += ["$v z $.", "wz $f wff z $.", f"$d {' '.join(names)} $.", f"h $e |- {' '.join(names)} $."]
    return [*lines, *(f"s{k} $a |- x0 $. ${{ $d x{k} z $. t{k} $a |- x0 $. $}}" for k in range(n))]


def wide_pairs_and_blocks(n):
    """A `$d` of so many variables; and then as many times a theorem outside of a block, and one in a block with a pair of its own."""
    names, lines = variables(n)
    lines += ["$v z $.", "wz $f wff z $.", f"$d {' '.join(names)} $."]
    return [*lines, *(f"s{k} $p |- x0 $= ? $. ${{ $d x{k} z $. t{k} $p |- x0 $= ? $. $}}" for k in range(n))]


def equal_pairs_in_blocks(n):
    """A `$d` of so many variables; and then as many times a theorem outside of a block, and one in a block with the same pair more."""
    names, lines = variables(n)
    lines += ["$v z $.", "wz $f wff z $.", f"$d {' '.join(names)} $."]
    return [*lines, *(f"s{k} $p |- x0 $= ? $. ${{ $d x0 z $. t{k} $p |- x0 $= ? $. $}}" for k in range(n))]


def many_pairs_of_each(n):
    """So many pairs of variables, each variable in a `$d` with each other one, and as many assertions of all as there are variables."""
    names, lines = variables(math.isqrt(2 * n))
    lines += [f"$d {name} {' '.join(names[k + 1 :])} $." for k, name in enumerate(names[:-1])]
    return [*lines, *(f"a{k} $a |- {' '.join(names)} $." for k in range(len(names)))]


def equal_lists(n):
    """A `$d` that says nothing new, and a block with a pair of its own and a theorem, in turn."""
    lines = ["$c |- wff $.", "$v x y z $.", *(f"w{name} $f wff {name} $." for name in "xyz")]
    return [*lines, *(f"$d x y $. ${{ $d x z $. t{k} $p |- x $= ? $. $}}" for k in range(n))]


def long_outermost_hypothesis(n):
    """One `$e` of the outermost block with so many symbols, and as many theorems after it that do not use it."""
    return [*FIRST, f"h $e |- {'p ' * n}$.", *(f"t{k} $p wff p $= ( ) A $." for k in range(n))]


def like_hypotheses(n):
    """A hundred `$e` of the outermost block with the same hundred variables each, and so many theorems."""
    names, lines = variables(100)
    lines += [f"h{k} $e |- {' '.join(names)} $." for k in range(100)]
    return [*lines, *(f"t{k} $p wff x0 $= wx0 $." for k in range(n))]


def long_hypothesis(n):
    """A hypothesis of so many symbols, pushed as many times."""
    return [*FIRST, f"h $e |- {'p ' * n}$.", f"t $p |- p $= {'h ' * n}$."]


def long_apart(n):
    """Assertions of 60 pairwise disjoint variables, cited with entries of so many symbols."""
    names, lines = variables(60)
    others = [f"y{k}" for k in range(60)]
    lines += [f"$v {' '.join(others)} $.", *(f"w{name} $f wff {name} $." for name in others)]
    lines += ["wd $a wff x0 x0 $.", "${", f"$d {' '.join(names)} $.", f"ax $a |- {' '.join(names)} $.", "$}"]
    double = n.bit_length() - 1
    entries = " ".join(f"w{name} " + "wd " * double for name in others)
    return [*lines, f"$d {' '.join(others)} $.", f"t $p |- y0 $= {entries} ax $."]


def many_apart(n):
    """An assertion of 100 pairwise disjoint variables, cited ten times with entries of so many symbols, of ten variables each."""
    names, lines = variables(100)
    others = [f"y{k}" for k in range(1000)]
    lines += [f"$v {' '.join(others)} $.", *(f"w{name} $f wff {name} $." for name in others)]
    lines += [f"wj $a wff {' '.join(names[:10])} $.", f"wr $a wff {'x0 ' * (n // 10)}$."]
    lines += ["${", f"$d {' '.join(names)} $.", f"ax $a |- {' '.join(names)} $.", "$}", f"$d {' '.join(others)} $."]
    entries = " ".join(" ".join(f"w{name}" for name in others[k : k + 10]) + " wj wr" for k in range(0, 1000, 10))
    return [*lines, *(f"t{k} $p |- y0 $= {entries} ax $." for k in range(10))]


def wide_entries_apart(n):
    """A mandatory pair whose two entries have so many variables each, cited as many times with the same entries."""
    names, lines = variables(n)
    others = [f"y{k}" for k in range(n)]
    lines += [f"$v {' '.join(others)} p q $.", *(f"w{name} $f wff {name} $." for name in (*others, "p", "q"))]
    lines += ["wj $a wff p q $.", "${", "$d p q $.", "ax $a |- p q $.", "$}", f"$d {' '.join(names + others)} $."]
    joined = [f"w{group[0]} " + " ".join(f"w{name} wj" for name in group[1:]) for group in (names, others)]
    labels = {name: k for k, name in enumerate(("wj", "ax", *(f"w{name}" for name in names + others)), 2)}
    first, second = ("".join(number(labels[label]) for label in words.split()) for words in joined)
    saved = [number(1 + len(labels) + k) for k in (1, 2)]
    listed = f"( {' '.join(labels)} )"
    return [*lines, f"t $p |- p $= {listed} {first}Z{second}Z{number(3)}{(saved[0] + saved[1] + number(3)) * (n - 1)} $."]


def new_entries_apart(n):
    """The same, where the first entry of each citation is another one: it has one symbol more each time."""
    *lines, proof = wide_entries_apart(n)
    listed = proof[:proof.index(")") + 1]
    labels = listed.split()[6:-1]
    joined, first = number(2), number(2 + labels.index("wx0"))
    letters = proof[len(listed):].split("Z")
    save = 2 + len(labels)
    cited = "".join(f"{number(entry)}{first}{joined}Z{number(save + 1)}{number(3)}" for entry in (save, *range(save + 2, save + n)))
    return [*lines, f"{listed}{letters[0]}Z{letters[1]}Z{cited} $."]


def long_axiom(n):
    """An axiom of so many constants, named as many times in one proof."""
    return [*FIRST, f"a $a |- {'( ' * n}$.", f"t $p |- p $= {'a ' * n}$."]


def outermost_hypothesis_named(n):
    """An `$e` of the outermost block with so many symbols, named by as many theorems."""
    return [*FIRST, f"h $e |- {'p ' * n}$.", *(f"t{k} $p |- p $= h $." for k in range(n))]


def outermost_hypothesis_cited(n):
    """An `$e` of the outermost block with so many symbols, and a proof that cites as many assertions after it."""
    steps = " ".join(f"wp h a{k}" for k in range(n))
    return [*FIRST, f"h $e |- {'p ' * n}$.", *(f"a{k} $a |- p $." for k in range(n)), f"t $p |- p $= {steps} $."]


def outermost_hypotheses_in_turn(n):
    """Four `$e` of the outermost block with so many symbols together, named in turn, with a short proof after each."""
    lines = [*FIRST, "a $a wff p $.", *(f"h{k} $e |- {'p ' * (n // 4)}$." for k in range(4))]
    return lines + [f"t{k} $p |- p $= h{k % 4} $. u{k} $p wff p $= a $." for k in range(n // 16)]


def number(value):
    """The letters of a number of a compressed proof."""
    value, last = divmod(value - 1, 20)
    letters = chr(ord("A") + last)
    while value:
        value, digit = divmod(value - 1, 5)
        letters = chr(ord("U") + digit) + letters
    return letters


def many_saves(n):
    """A step that is saved so many times."""
    return [*FIRST, f"t $p wff p $= ( ) A{'Z' * n} $."]


def short_words(n):
    """As many saves, each a word of its own."""
    return [*FIRST, f"t $p wff p $= ( ) A{' Z' * n} $."]


def long_list(n):
    """A proof that lists so many labels, and uses each."""
    labels = " ".join(f"x{k}" for k in range(n))
    letters = "A" + "".join(number(k + 2) for k in range(n))
    return [*FIRST, *(f"x{k} $a wff p $." for k in range(n)), f"t $p wff p $= ( {labels} ) {letters} $."]


def large_frame(n):
    """A frame of so many variables that is cited ten times."""
    names, lines = variables(n)
    return [*lines, f"a $a |- {' '.join(names)} $.", f"t $p |- {' '.join(names)} $= {(' '.join(f'w{name}' for name in names) + ' a ') * 10} $."]


def large_frame_listed(n):
    """A frame of so many variables, and as many theorems that list its assertion and do not cite it."""
    names, lines = variables(n)
    return [*lines, f"big $a |- {' '.join(names)} $.", *(f"t{k} $p wff x0 $= ( big ) A $." for k in range(n))]


def large_frame_short(n):
    """A frame of so many variables, and as many theorems that cite its assertion without its entries."""
    names, lines = variables(n)
    return [*lines, f"big $a |- {' '.join(names)} $.", *(f"t{k} $p wff x0 $= ( big ) B $." for k in range(n))]


def frame_listed_again(n):
    """A frame of a thousand `$e`, whose assertion is listed so many times, and cited by each. Nothing else takes the results."""
    lines = [*FIRST, "x $a |- p $.", "${", *(f"e{k} $e |- p $." for k in range(1000)), "big $a |- p $.", "$}"]
    letters = "".join(f"A{'AB' * 1000}{number(k + 3)}" for k in range(n))
    return [*lines, f"t $p |- p $= ( x {' '.join(['big'] * n)} ) {letters} $."]


def large_frames_cited(n):
    """So many axioms with a frame of a thousand `$e`, and as many theorems, each of which cites another axiom."""
    lines = [*FIRST, *(f"e{k} $e |- p $." for k in range(1000)), *(f"a{k} $a |- p $." for k in range(n))]
    letters = "".join(number(k) for k in range(1, 1003))
    return [*lines, *(f"t{k} $p |- p $= ( a{k} ) {letters} $." for k in range(n))]


def outermost_hypotheses(n):
    """So many `$e` of the outermost block, and as many assertions after them, each with all of them in its frame."""
    return [*FIRST, *(f"e{k} $e |- p $." for k in range(n)), *(f"a{k} $a |- p $." for k in range(n))]


def new_outermost_hypotheses(n):
    """An `$e` of the outermost block and an assertion, in turn, so that each assertion has a frame of its own."""
    return [*FIRST, *(f"e{k} $e |- p $. a{k} $a |- p $." for k in range(n))]


def endless_number(n):
    """A number of so many letters."""
    return [*FIRST, f"t $p wff p $= ( ) {'Y' * n}A $."]


def long_label(n):
    """A label of so many letters, cited once."""
    return [*FIRST, f"{'l' * n} $a wff p $.", f"t $p wff p $= wp {'l' * n} $."]


def changed_long_label(n):
    """An axiom with a label of so many letters, as many theorems after it, none of which cites it, and four edits that change it."""
    axiom, *others = (f"{'l' * n} $a |- ( {one} -> {other} ) $." for one, other in ("pq", "qp", "pp", "qq", "pq"))
    proofs = (f"t{k} $p wff ( p -> q ) $= wp wq wi $." for k in range(n))
    return {"input.mm": [*FIRST, axiom, *proofs], "script": [f"replace input.mm 5 {len(text)}\n{text}" for text in others]}


def new_names(n):
    """So many edits of one piece, each of which gives it a hundred names that no text had before."""
    texts = ("$v " + " ".join(f"v{k}n{j}" for j in range(100)) + " $.\n" for k in range(n))
    return {"input.mm": ["$c wff $.", "$v x $."], "script": [f"replace input.mm 1 {len(text)}\n{text}" for text in texts]}


def longer_labels(n):
    """So many statements with labels of twelve bytes, half of them theorems that cite one of the others each."""
    half = n // 2
    lines = [*FIRST, *(f"axiom{k:07} $a wff ( p -> q ) $." for k in range(half))]
    return lines + [f"proof{k:07} $p wff ( p -> q ) $= wp wq axiom{k * 7919 % half:07} $." for k in range(half)]


def same_labels(n):
    """Statements with a label that is taken."""
    return [*FIRST, *("wi $a wff p $." for _ in range(n))]


def chain(n):
    """Files in one another: each includes the next, and has a statement."""
    files = {f"f{k}.mm": [f"$[ f{k + 1}.mm $]", f"a{k} $a wff $."] for k in range(n - 1)}
    files[f"f{n - 1}.mm"] = ["$c wff $."]
    return files | {"input.mm": ["$[ f0.mm $]"]}


def many_files(n):
    """Files one after another, each with the first one's inclusion once more, one of a missing file, and a statement."""
    files = {f"f{k}.mm": ["$[ f0.mm $]", f"$[ none{k}.mm $]", f"a{k} $a wff $."] for k in range(n)}
    return files | {"input.mm": ["$c wff $.", *(f"$[ f{k}.mm $]" for k in range(n))]}


def edited(n, edits):
    """A file of so many short statements, and a script with one batch of these edits of it."""
    return {"input.mm": statements(n), "script": [f"batch {len(edits)}", *edits]}


def edits_beside_equal_pairs(n):
    """The same file as `equal_pairs_in_blocks`, and two edits of it."""
    return {"input.mm": equal_pairs_in_blocks(n), "script": ["insert input.mm 0 5\n${ $}", "delete input.mm 0"]}


def edits_beside_equal_frames(n):
    """A `$d` and an `$e` of so many variables, and as many axioms with one frame; and two edits."""
    names, lines = variables(n)
    lines += [f"$d {' '.join(names)} $.", f"e0 $e |- {' '.join(names)} $.", *(f"a{k} $a |- x0 $." for k in range(n))]
    return {"input.mm": lines, "script": ["insert input.mm 0 5\n${ $}", "delete input.mm 0"]}


def insertions(n):
    """As many insertions at the front of a file as it has pieces, in one batch."""
    return edited(n, ["insert input.mm 0 5\n${ $}"] * n)


def moves(n):
    """As many moves from near the front of a file to its end, in one batch."""
    return edited(n, [f"move input.mm 5 {n + 4}"] * n)


def deletions(n):
    """As many deletions near the front of a file, in one batch."""
    return edited(n, ["delete input.mm 5"] * n)


def refused_insertions(n):
    """As many insertions at the front of a file, and after them an edit that is refused, so that all are undone."""
    return edited(n, ["insert input.mm 0 5\n${ $}"] * n + ["delete none.mm 0"])

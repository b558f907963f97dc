#!/usr/bin/env python3
"""Respells this repository's own definitions and lemmas: words in snake case, types and facts in camel case.

usage: python3 tools/respell.py [FOLDER]      FOLDER holds crates/ (default: here); files are rewritten in place

It was run once, behind the kit's port.py, which respells only the names that a library shares. It turns whole names in
.antt files and in the ghost texts of .rt files; strings, the code of src/ and generated names stay. It stops, and writes
nothing, where two names would fall together.
"""

import os
import re
import sys

NAMES = """
All-allowed All-characters All-fit Budget-in-parts Byte-laws Count-down Dry-stop Each-one-line Ends-outside Fields-in-range First-bad Full-stop
Goes-to Has-texts In-range Line-laws Line-reading Loaded-memory New-is One-line Part-laws Piece-laws Placement-laws Polarity-laws Read-statement
Reads-back Reads-texts Register-zero Represented-once Sends-lines Signed-effects Signed-word Some-line Source-reading Space-law Stops-alter-nothing
Token-laws Unused-ignored Values-of Within-budget Word-of Written-by Zero-act Zero-ran Zero-served Zero-turn accepted-reading accepted-writing
adding-none adding-twice adds-immediate after-load after-sign after-word all-good all-range all-values allowed-from and-bit answers-append
appending-fits appending-padded appending-padded-short appending-short as-cstr as-fill as-stated as-under at-end at-start before-fault begun-number
begun-range behind-front behind-one behind-two behind-zeros below-zero binary-way blank-is branch-word by-cause by-file by-function by-functions
by-imm6 by-imm8 by-label by-machine by-opcode by-text capped-more capped-stop cases-option characters-range check-append closed-early comment-gaps
comment-none comment-passes complement-is cond-under constant-fits constant-range cost-of costs-one count-down-image counted-down counted-fault
cstr-told cut-piece cut-shorter cut-token decimal-way defines-not did-word difference-is digit-back digit-is digits-good digits-length digits-only
digits-told digits-write distance-of escape-character expanded-width extended-signed fails-if fault-on file-of fill-told first-fault first-line
first-long first-place first-token flat-joined found-last fresh-is from-binary from-digits from-hexadecimal from-high from-line from-minus
from-outside from-plus front-is front-single function-1 function-5 function-below function-code function-read gap-then gaps-is gaps-len gaps-none
gathered-good gathered-length goes-more goes-off halted-run has-texts held-and-then held-cond held-under hex-lines hex-reads hex-value hex-way
high-holds high-passes holds-if if-accepted if-bad if-good if-long if-so image-of image-words imm6-is imm6-of imm8-fields imm8-is imm8-of
immediate-fits in-binary in-hexadecimal judged-bad judged-good k-is lacks-label last-digit length-bytes-of length-file length-overlaid length-padded
length-words-of line-answer line-laws line-len line-range line-reading lines-length lines-push low-fields low-holds low-passes lw-outside
masked-answer masked-given masked-taken masks-joined masks-plain masks-undone minus-way mnemonic-of name-byte named-number near-extended near-wrapped
negative-only negative-told new-accepted new-holds new-refused new-starts no-piece no-quote no-token none-higher none-met none-not not-dry not-halted
not-not not-outside not-quoted not-unassigned number-below number-numbered number-range numbered-number of-eight of-file of-imm6 of-imm8 of-in
of-label of-machine of-not of-operand of-out of-registers of-signed of-six of-statement of-text ok-not one-constant one-first one-immediate one-laid
one-register one-run one-sent operated-number operated-range or-bit out-r0 overlaid-behind overlaid-blank overlaid-from-copy overlaid-padded
overlaid-twice packed-imm8 packed-registers packed-rest part-ends part-laws parts-allowed passes-by passes-if past-gaps pattern-only pattern-told
piece-laws piece-len pieces-allowed placed-number placement-laws plain-character plain-fields plus-way polarity-laws positive-only positive-told
product-gone put-before puts-upper quoted-allowed quotient-gone ran-as rd-is rd-number rd-of reading-behind-head reading-few reading-many
reading-words reads-back reads-below reads-texts refusal-line refusal-number refused-not refused-reading register-immediate register-is register-range
registers-number resolved-immediate resolved-target resolved-width resolved-word rest-is rs1-is rs1-number rs1-of runs-from same-imm6 same-imm8
same-made same-token same-value seen-operands seen-operation seen-sized seen-some seen-statement seen-text seen-values send-after send-answer
send-holds send-word sending-into sending-masked sending-of sending-some sends-lines settled-comment settled-none settled-white shf-left shf-right
shifted-high shifted-low shifts-out short-number signed-effects signed-from sized-stated some-fields some-higher some-line some-place some-under
source-reading space-law stack-registers stated-in stated-number statement-number statement-on statement-range stop-dry stop-full stop-number
string-range take-capped take-over take-padded take-word taken-if taken-only taken-told taking-from taking-masked taking-one target-range test-code
text-fault text-taken then-adding then-ended three-fields three-is three-of three-registers token-laws token-of told-number told-range told-words
two-first two-of two-registers unused-none usual-writes values-fault values-fit values-taken when-bad when-full when-good when-long when-room
when-short white-allowed white-gap white-stays whites-begin whites-gap whites-parts whites-pass whites-stay whole-end whole-front whole-last
with-eight with-imm6 with-imm8 with-line with-memory with-plus with-port with-register with-six with-waiting within-reach word-is words-accepted
words-all words-in words-joined words-plain words-push writing-few written-by written-more ys-is zero-act zero-at zero-fetched zero-gave zero-goes
zero-loading zero-performed zero-running zero-step zero-took zero-written zeros-behind zeros-stay
"""

TABLE = {}
for name in NAMES.split():
    parts = name.split("-")
    TABLE[name] = "".join(p[:1].upper() + p[1:] for p in parts) if name[0].isupper() else "_".join(parts)

WORD = re.compile(r"[A-Za-z_][\w']*(?:-[\w']+)*")
QUIET = re.compile(r'"(?:[^"\\\n]|\\.)*"')
GHOST = re.compile(r"\b(?:requires|ensures|ghost)\b")


def turned(text):
    """The text with every whole name of the table in its new spelling; quoted text stays."""
    out, at = [], 0
    for quoted in list(QUIET.finditer(text)) + [None]:
        end = quoted.start() if quoted else len(text)
        out.append(WORD.sub(lambda m: TABLE.get(m[0], m[0]), text[at:end]))
        if quoted:
            out.append(quoted[0])
            at = quoted.end()
    return "".join(out)


def ghost_lines(text):
    """A source file: its ghost uses, clauses and ghost members are turned, line by line; code holds no name with a dash."""
    return "".join(turned(line) if "{" in line or GHOST.search(line) or "}" in line else line for line in text.splitlines(keepends=True))


def files(root):
    for folder, dirs, names in os.walk(os.path.join(root, "crates")):
        dirs[:] = sorted(d for d in dirs if d not in ("out", "target"))
        for name in sorted(names):
            if name.endswith((".antt", ".rt")):
                yield os.path.join(folder, name)


def main(argv):
    root = argv[0] if argv else "."
    new = {}
    for old, to in TABLE.items():
        if new.setdefault(to, old) != old:
            raise SystemExit(f"{old} and {new[to]} fall together")
    texts = {}
    for path in files(root):
        with open(path, encoding="utf-8") as f:
            texts[path] = f.read()
    for path, text in texts.items():
        words = set(WORD.findall(text))
        for old, to in TABLE.items():
            if old in words and to in words:
                print(f"look: {path}: {old} meets {to}")
    for path, text in texts.items():
        to = ghost_lines(text) if path.endswith(".rt") else turned(text)
        if to != text:
            with open(path, "w", encoding="utf-8") as f:
                f.write(to)


if __name__ == "__main__":
    main(sys.argv[1:])

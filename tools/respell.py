#!/usr/bin/env python3
"""Brings the definitions and lemmas of specs/ and proofs/ to one spelling: words in snake case.

Run once, at the top, after /opt/rattle/port/port.py. A dash stays where it joins the names of two definitions, as in
`gathered-digit`, and in the names that Rattle makes, as in `returns-then-eq`. A name that would fall together with
another gets one of its own first (FIRST). It reads the .antt files, the clauses of the .rt files, the edits, docs/ and
README.md; what it renames is spelled so that it cannot occur in code.
"""
import re
import subprocess
import sys

# A lemma that a definition would fall together with.
FIRST = {
    'word_over': 'word_over_lem',
    'get_d_words': 'get_or-words_of',
    'getD-tabulated': 'get_or-tabulated',
    'length-words': 'length-words_of',
    'zip-fields': 'zip_fields_lem',
    'Thevariants': 'TableCases',
    'put-mid': 'put_mid-put_word',
}
# Definitions: camel case becomes snake case.
CAMEL = '''allOpen blocksOf bytesAfter carriedAt eightOf endAnswer fixedOver functionOf heldBelow isTicket onBlock openAnswer
pppOf putWord raOf rbOf rdOf reachOf reachesOf readAt readsSecond rootOf setOf shiftedSigned shownOver topPPP trialOver
wordCount wordOver writeAnswer writeAt wroteAll wroteSome wwOf'''.split()
# A test that is spelled as the Rust method is, and may not hide it.
OTHER = {'open?': 'open_at'}
# Lemmas, local definitions and fields: plain words are joined by an underscore.
DASHED = '''answer-below answer-closed answer-open answer-past answered-none answered-some bytes-are carried-all carried-more
count-written cut-cond digit-shl digit-shl-other distance-below done-writes eight-bytes field-and field-low64 field-not
field-ones field-or field-shl field-shl-other field-xor first-unread fixed-through gathered-lt half-below half-ones
in-range in-trial is-calculate is-done is-undone is-width joined-all joined-fits joined-more joined-none kept-own
length-written low-difference lower-half masked-byte merge-bits named-bytes none-at not-refused not-xor number-bytes
number-eight only-root open-all open-carried open-past open-shown open-under open-within opened-none outside-written
over-set put-bits put-replaces ra-below rb-below rd-below read-refused read-shown refused-past rest-written
row-right same-fields same-ways second-unread shift-distance signed-set size-over size-shown tabulated-list
tabulated-same tabulated-set unread-a unread-b value-cond whole-and whole-not whole-or whole-xor whole-zero
word-from-fields word-other words-written write-below write-past written-closed wrote-held wrote-refused wrote-shown
wrote-through'''.split()


def snake(name):
    return re.sub('(?<=[a-z])(?=[A-Z])', '_', name).lower()


def main():
    names = dict(FIRST)
    names.update({name: snake(name) for name in CAMEL})
    names.update(OTHER)
    names.update({name: name.replace('-', '_') for name in DASHED})
    # whole names only: no part of a longer name, and no field of a path that Rattle makes
    any_name = re.compile(
        r"(?<![\w\-?'])(" + '|'.join(re.escape(n) for n in sorted(names, key=len, reverse=True)) + r")(?![\w\-?'])")
    kinds = ('.antt', '.rt', '.edit', '.md')
    files = subprocess.run(['git', 'ls-files', '-co', '--exclude-standard', 'crates', 'docs', 'README.md'],
                           capture_output=True, text=True, check=True).stdout.split('\n')
    made = {}
    for file in files:
        if not file.endswith(kinds) or file.startswith('docs/PORT'):
            continue
        try:
            old = open(file, encoding='utf-8').read()
        except FileNotFoundError:
            continue
        # in the documents a name stands between backticks; elsewhere a question may be asked in the same letters
        parts = re.split('(`[^`\\n]*`)', old) if file.endswith('.md') else ['', old]
        new = ''.join(p if i % 2 == 0 else any_name.sub(lambda m: names[m.group(1)], p) for i, p in enumerate(parts))
        if new != old:
            made[file] = len(any_name.findall(old))
            open(file, 'w', encoding='utf-8').write(new)
    for file, count in sorted(made.items()):
        print(f'{count:4} {file}')
    return 0


if __name__ == '__main__':
    sys.exit(main())

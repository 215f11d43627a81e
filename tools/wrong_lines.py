#!/usr/bin/env python3
"""Begins a list of recorded answers with lines that are wrong on purpose, so that a replay which agrees with everything is noticed.

    tools/wrong_lines.py CRATE < LIST > crates/CRATE/stdin

CRATE is the program that replays the list: lsm_replay, lsm_replay_open, lsm_replay_pictures or utf8_vectors. First come wrong copies
of the list's own lines, and then the list as it is, so that a difference must be remembered over all that agrees. Of each sort of answer
(what was asked, and the number that begins the answer) two lines are taken, those with the shortest answers of two lengths, or one where
all are of one length. A line is copied once for each number of its answer, with that number wrong; once without the last; and once with a
number more. So each number of each sort of answer is seen to count, and so is how many they are. No reader answers the wrong numbers:
bad0bad0bad for a number, the byte ff for one of a text in UTF-8. How many lines differ stands in crates/CRATE/stdout, and is printed here.
"""
import sys

# For each letter of a list, how many numbers say what is asked; the answer follows (tools/record/README.md, host/README.md).
ASKED = {
    'lsm_replay': {'b': 3, 's': 4, 'r': 13, 'm': 4, 'l': 4, 'e': 4, 'p': 7, 'c': 3, 'z': 3},
    'lsm_replay_open': {'o': 1, 'n': 2, 'w': 4},
    'lsm_replay_pictures': {'p': 5, 'r': 9, 'q': 25, 'h': 29},
}
# Where a line says the length of a table that is handed in; its words are asked too.
TABLE = {'q': 21, 'h': 21}
NUMBER, BYTE = 'bad0bad0bad', 'ff'


def wrongs(answer, wrong):
    """An answer wrong in each of its numbers, then one number short, then one too long."""
    for i in range(len(answer)):
        yield answer[:i] + [wrong] + answer[i + 1:]
    if answer:
        yield answer[:-1]
    yield answer + [wrong]


def numbers(line, asked):
    """A line's letter and numbers that ask, its answer, and its bytes with the colon."""
    head, colon, tail = line.partition(':')
    words = head.split(' ')
    cut = 1 + asked[words[0]]
    if words[0] in TABLE:
        cut += int(words[TABLE[words[0]]], 16)
    return words[:cut], words[cut:], colon + tail


def shortest(lines):
    """Of each sort the shortest line of each of the two shortest answers: (sort, what is asked, answer, tail)."""
    sorts = {}
    for sort, asked, answer, tail in lines:
        of_length = sorts.setdefault(sort, {})
        kept = of_length.get(len(answer))
        if kept is None or len(' '.join(asked) + tail) < len(' '.join(kept[0]) + kept[2]):
            of_length[len(answer)] = (asked, answer, tail)
    for sort, of_length in sorts.items():
        for length in sorted(of_length)[:2]:
            yield (sort, *of_length[length])


def of_numbers(lines, asked):
    told = [numbers(line, asked) for line in lines]
    for sort, ask, answer, tail in shortest([(ask[0] + answer[0], ask, answer, tail) for ask, answer, tail in told]):
        for wrong in wrongs(answer, NUMBER):
            yield sort, ' '.join(ask + wrong) + tail


def of_texts(lines):
    """Bytes, a space and their text. The sorts: a text that is the bytes, and one with a replacement."""
    told = []
    for line in lines:
        given, text = line.split(' ')
        if '*' not in text:
            pairs = [text[i:i + 2] for i in range(0, len(text), 2)]
            told.append(('same' if text == given else 'replaced', [given], pairs, ''))
    for sort, given, text, _ in shortest(told):
        for wrong in wrongs(text, BYTE):
            yield sort, given[0] + ' ' + ''.join(wrong)


def main():
    crate = sys.argv[1]
    lines = sys.stdin.read().splitlines()
    wrong = list(of_texts(lines) if crate == 'utf8_vectors' else of_numbers(lines, ASKED[crate]))
    for line in [line for _, line in wrong] + lines:
        print(line)
    counts = {}
    for sort, _ in wrong:
        counts[sort] = counts.get(sort, 0) + 1
    print(f'{crate}: {len(lines)} lines and {len(wrong)} wrong ones,', *(f'{k} {n}' for k, n in counts.items()), file=sys.stderr)


main()

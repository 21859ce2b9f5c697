"""Counts the places of eight older forms in crates/*/src/*.rt (docs/DESIGN-PASS.md says what each point asks for).

python3 tools/forms.py            the counts
python3 tools/forms.py --list 3   each place of point 3, as file:line: text
"""
import pathlib
import re
import sys

HEAD = re.compile(r'^( *)(?:pub(?:\([a-z]+\))? )?(?:unsafe )?(?:extern "C" )?fn (\w+)')

# Point: what is counted, and the pattern of a line that counts.
LINES = {
    '1 own enums': r'^\s*(pub )?enum ',
    '1 kinds by number': r'\bkind(\)| as usize)* *(==|<=|<|!=) *[0-9]|of_node\([0-9]|equal\(k(ind as usize)?, [0-9]',
    '2 names that differ by a number': r'^\s*(pub )?fn [a-z_]*[a-z][0-9]+\(',
    '3 while loops': r'^\s*while ',
    '4 tests joined by functions': r'\bbools::\w+\(',
    '4 bytes by division': r'/ *(256|65536|16777216)\b',
    '5 settings and users apart': r'\bconfig: Config,',
    '6 arrays of fixed length in programs': r'\[0(u8|u32|usize)?; ?[0-9A-Za-z_:]+\]',
    '6 memory by offsets in programs': r'\b(world|work|place|memory): &(mut )?\[u8\]',
    '7 steps chosen by a number': r'^\s*if (kind|what|command|step|word|way) == ',
}
# Crates of the log's own code, which point 6 leaves out: it has no heap.
LOG = ('codes entry_board sha256 tree lms firing opening_hours user_list store user server user_update user_read user_write '
       'user_give_up c_layout kozbrax').split()


def functions(text):
    """Each function of a file: its line, name and text up to the brace that closes it."""
    lines = text.split('\n')
    for at, line in enumerate(lines):
        head = HEAD.match(line)
        if head:
            end = next((k for k in range(at, len(lines)) if lines[k] == head[1] + '}'), at)
            yield at + 1, head[2], '\n'.join(lines[at:end + 1])


def answers_a_code(text):
    """A function that answers a number and gives a refusal's number in its body or by name."""
    head = text.split('{')[0]
    named = re.search(r'fn \w*(code|judge)\w*', head)
    return bool(re.search(r'-> u(8|32)\b', head)) and bool(named or re.search(r'return (1[0-9]|2[0-9]|3[0-4]|[1-9]);', text))


def counts_by_hand(text):
    """A loop over a number that the body raises or lowers by one, or by a step."""
    return bool(re.search(r'^\s*while ', text, re.M)) and bool(re.search(r'^\s*\w+ [+-]= [0-9]+;', text, re.M))


def flags(text):
    """Fields of structs that are a bool."""
    for struct in re.finditer(r'^ *(?:pub )?struct [^;{]*\{\n(.*?)^ *\}', text, re.M | re.S):
        for field in re.finditer(r'^ *(?:pub )?(\w+): bool,$', struct[1], re.M):
            yield text[:struct.start(1) + field.start(1)].count('\n') + 1, field[1]


def places():
    found = {name: [] for name in LINES}
    found['1 flags in structs'] = []
    found['1 functions that answer a code'] = []
    found['3 functions that count by hand'] = []
    requires = {}
    for path in sorted(pathlib.Path('crates').glob('*/src/**/*.rt')):
        text = path.read_text()
        for at, line in enumerate(text.split('\n'), 1):
            for name, pattern in LINES.items():
                if re.search(pattern, line) and not (name[0] == '6' and path.parts[1] in LOG):
                    found[name].append(f'{path}:{at}: {line.strip()}')
        found['1 flags in structs'] += [f'{path}:{at}: {name}' for at, name in flags(text)]
        for at, name, body in functions(text):
            if answers_a_code(body):
                found['1 functions that answer a code'].append(f'{path}:{at}: {name}')
            if counts_by_hand(body):
                found['3 functions that count by hand'].append(f'{path}:{at}: {name}')
            for fact in re.findall(r'requires (?:\w+ )?\{ (.*) \}$', body, re.M):
                requires.setdefault(fact, []).append(f'{path}:{at}: {name}')
    found['5 facts in three or more contracts'] = [w for where in requires.values() if len(where) >= 3 for w in where]
    answers = {}
    for path in sorted(pathlib.Path('crates').glob('*/proofs/**/Answers.antt')):
        body = re.sub(r'^use .*\n', '', path.read_text(), flags=re.M)
        answers.setdefault(body, []).append(str(path))
    found['8 answers of the same text'] = [w for where in answers.values() if len(where) >= 2 for w in where]
    return found


if __name__ == '__main__':
    found = places()
    wanted = sys.argv[2] if len(sys.argv) > 2 else None
    for name in sorted(found):
        if wanted is None:
            print(f'{len(found[name]):5} {name}')
        elif name.startswith(wanted):
            print(name)
            print('\n'.join('  ' + place for place in found[name]))

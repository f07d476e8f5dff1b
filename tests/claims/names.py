"""Checks that each name in backticks in the tables of docs/CLAIMS.md is declared in the crates, and each file named is there."""
import pathlib
import re
import sys

crates = pathlib.Path('crates')
declared = set()
for path in crates.rglob('*'):
    if path.suffix == '.antt':
        text = path.read_text(encoding='utf-8')
        declared.update(re.findall(r'^\s*(?:unfoldable |abbrev |pub )*([^\s:(){}]+)(?: \{[^}]*\})? :', text, re.M))
        declared.update(re.findall(r'^\s*(?:pub )?(?:record|data) (\S+)', text, re.M))
    elif path.suffix == '.rt':
        text = path.read_text(encoding='utf-8')
        declared.update(re.findall(r'\b(?:fn|struct|enum|const) (\w+)', text))

passed, failed = 0, 0
rows = [l for l in pathlib.Path('docs/CLAIMS.md').read_text(encoding='utf-8').splitlines() if l.startswith('|')]
for row in rows:
    cells = [c.strip() for c in row.strip('|').split('|')]
    if len(cells) < 3:
        continue
    for term in re.findall(r'`([^`]+)`', cells[1]):
        # the first word of a term, without its type: `condition-3 : ..`, `not (planBad ..)`, `[[u8; 2]; 128]`
        name = re.split(r'[\s(]', term)[0].split('::')[-1]
        if name in ('not',):
            name = re.split(r'[\s()]+', term)[1]
        if not re.match(r'[A-Za-z]', name):
            continue
        if name in declared:
            passed += 1
        else:
            failed += 1
            print('docs/CLAIMS.md names', term, 'and no crate declares it')
    crate = None
    for part in re.split(r'[,;]\s*', cells[2]):
        for word in part.split():
            if (crates / word).is_dir():
                crate = word
            elif '/' in word and crate:
                path = crates / crate / word
                there = path.exists() or path.with_suffix('.antt').exists()
                passed += there
                failed += not there
                if not there:
                    print('docs/CLAIMS.md names', crate, word, 'and it is not there')
print(f'{passed} passed, {failed} failed')
sys.exit(1 if failed else 0)

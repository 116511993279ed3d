#!/usr/bin/env python3
"""Prints docs/ENTITIES.md from the tables of crates/shop_defs/src: each entity with its key, fields, references and limits.

With --check it compares instead, and says where the document differs."""
import os
import re
import sys

TOP = os.path.join(os.path.dirname(os.path.abspath(__file__)), '..')
SOURCES = os.path.join(TOP, 'crates/shop_defs/src')
PAGE = os.path.join(TOP, 'docs/ENTITIES.md')

HEAD = """# The entities

Made by `.ci/entities.py` from the tables in `crates/shop_defs/src/table.rt` and `words.rt`, and compared with them by a check: change those, and print this page anew (`python3 .ci/entities.py >docs/ENTITIES.md`).

A row has a key and fields. A key is the entity, the version (none in the live rows) and an id, or an id and a second part. Any field may be null but a required one and one with a default. What the columns and marks say:

- **kind**: a whole number from its least to its greatest; a text by its length in bytes of UTF-8; a word of a list; the id of a row of that entity, which has to be there when it is given; any id, which may name nothing; a day, written `YYYY-MM-DD`, from 1970-01-01 to 9999-12-30. Amounts of money are in minor units, moments in seconds since 1970-01-01T00:00:00 UTC, weights in grams, rates in hundredths of a percent.
- **required**: never null. **fixed**: keeps the value that it has when the row is made. **inherited**: where a product has none of its own, its parent's counts. **unique**: no two rows of one view agree in all fields of the entity with this mark, unless one of them is null.
- **default**: what the field holds where it would be null.
- **referred to by**: what a delete of a row does to the rows that name it: they *go too*, they *hold it back*, or their field *becomes null*.

Of each entity there are at most {most} rows, all versions together.
"""


def read(name):
    with open(os.path.join(SOURCES, name), encoding='utf-8') as file:
        return file.read()


def table(text, name):
    """The text between the brackets of the static array of that name."""
    at = re.search(r'static %s: \[[^=]*\] = \[' % name, text).end()
    depth, end = 1, at
    while depth:
        depth += {'[': 1, ']': -1}.get(text[end], 0)
        end += 1
    return text[at:end - 1]


def entries(text, macro):
    """The parts of each macro call of that name, parted by semicolons outside of braces."""
    found = []
    for match in re.finditer(re.escape(macro) + r'!\(', text):
        at, depth, parts = match.end(), 0, ['']
        while text[at] != ')' or depth:
            depth += {'(': 1, ')': -1, '{': 1, '}': -1}.get(text[at], 0)
            if text[at] == ';' and not depth:
                parts.append('')
            else:
                parts[-1] += text[at]
            at += 1
        found.append([part.strip() for part in parts])
    return found


def snake(name):
    return re.sub(r'(?<!^)([A-Z])', r'_\1', name).lower()


def grouped(number):
    return re.sub(r'(?<=\d)(?=(\d{3})+$)', ',', number.replace('_', ''))


class Tables:
    def __init__(self):
        lines, words = read('table.rt'), read('words.rt')
        variants = re.findall(r'^    ([A-Z]\w*),$', words[words.index('pub enum FieldName {'):words.index('pub enum Choice')], re.M)
        texts = re.findall(r'"(\w+)"', table(words, 'FIELD_TEXTS'))
        self.fields = dict(zip(variants, texts))
        names = re.findall(r'"(\w+)"', table(words, 'ENTITY_TEXTS'))
        self.entities = entries(table(lines, 'ENTITIES'), 'entity')
        self.names = dict(zip([entity[0] for entity in self.entities], names))
        choices = words[words.index('pub fn texts(self) -> &'):]
        self.choices = {name: re.findall(r'"(\w+)"', listed) for name, listed in re.findall(r'Choice::(\w+) => &\[(.*?)\]', choices, re.S)}
        self.kinds = dict(re.findall(r'const (\w+): FieldKind = (.*?);', lines, re.S))
        self.marks = {}
        for name, body in re.findall(r'const (\w+): Marks = Marks \{(.*?)\};', lines, re.S):
            base = re.search(r'\.\.(\w+)', body)
            self.marks[name] = (self.marks[base.group(1)] if base else []) + re.findall(r'(\w+): true', body)
        self.rows = {entity[0]: entries(table(lines, self.table_of(lines, entity[0])), 'field') for entity in self.entities}
        self.references = entries(table(lines, 'REFERENCES'), 'reference')
        self.levels = dict(entries(table(lines, 'LEVEL_LIMITS'), 'level'))
        self.owners = entries(table(lines, 'OWNER_LIMITS'), 'owned')
        self.most = grouped(re.search(r'pub const MOST_ROWS: u32 = ([\d_]+);', lines).group(1))

    @staticmethod
    def table_of(lines, entity):
        return re.search(r'Entity::%s => &(\w+),' % entity, lines).group(1)

    def kind(self, text):
        text = ' '.join(self.kinds.get(text, text).split())
        bounds = re.search(r'low: (-?[\d_]+), high: (-?[\d_]+)', text)
        if bounds:
            low, high = grouped(bounds.group(1)), grouped(bounds.group(2))
            if 'Int' in text:
                return '%s to %s' % (low, high)
            return 'text of %s bytes' % (low if low == high else '%s to %s' % (low, high))
        if 'Choice' in text:
            return ', '.join('`%s`' % word for word in self.choices[re.search(r'Choice::(\w+)\)', text).group(1)])
        if 'Id(' in text:
            return 'id of a `%s`' % self.names[re.search(r'Entity::(\w+)', text).group(1)]
        return {'FieldKind::Flag': 'true or false', 'FieldKind::Interval': '1, 5, 10, 50 or 100', 'FieldKind::Loose': 'any id', 'FieldKind::Day': 'day'}[text]

    def preset(self, text, kind):
        if 'FirstWord' in text:
            return self.kind(kind).split(', ')[0]
        return '`%s`' % re.search(r'\((\w+)\)', text).group(1)

    def part(self, entity, part):
        number = re.search(r'Field\((\d+)\)', part)
        if number:
            return '`%s`' % self.field(entity, number.group(1))
        return 'the id' if part.endswith('Id') else 'the second part'

    def field(self, entity, number):
        return next(self.fields[row[0].split()[1]] for row in self.rows[entity] if row[0].split()[0] == number)

    def field_line(self, row):
        number, name = row[0].split()
        preset = self.preset(row[3], row[1]) if len(row) > 3 else ''
        return '| %s | `%s` | %s | %s | %s |' % (number, self.fields[name], self.kind(row[1]), ', '.join(self.marks[row[2]]), preset)

    def key_line(self, key, entity):
        if key == 'OnePart':
            return 'an id'
        parts = {part: self.names[of] for of, part in ((r[2], r[1]) for r in self.references if r[0] == entity) if 'Field' not in part}
        first, second = parts.get('Part::Id'), parts.get('Part::Second')
        return '%s and %s' % ('the id of a `%s`' % first if first else 'an id', 'the id of a `%s`' % second if second else 'a number')

    def refer_lines(self, entity):
        words = {'Cascade': 'they go too', 'Restrict': 'they hold it back', 'SetNull': 'the field becomes null', 'NeverDeleted': None}
        for reference in self.references:
            if reference[2] == entity and words[reference[3]]:
                within = '; both in the same tree' if len(reference) > 4 else ''
                yield '`%s` by %s (%s%s)' % (self.names[reference[0]], self.part(reference[0], reference[1]), words[reference[3]], within)

    def limits(self, entity):
        if entity in self.levels:
            yield 'at most %s levels deep, a row without parent being the first' % self.levels[entity]
        for limited, owner, most in self.owners:
            if limited == entity:
                by = self.part(entity, owner)
                yield 'at most %s rows by %s' % (most, by)

    def section(self, number, entity):
        name, key, versions, writable = entity
        lines = ['', '## %d. `%s`' % (number, self.names[name]), '']
        said = ['Key: %s.' % self.key_line(key, name), 'Drafts may have rows of it.' if versions == 'true' else '',
                'Operations may write it.' if writable == 'true' else 'Made by commands alone.']
        lines.append(' '.join(word for word in said if word))
        for limit in self.limits(name):
            lines[-1] += ' Limit: %s.' % limit
        if self.rows[name]:
            lines += ['', '| No. | Field | Kind | Marks | Default |', '|---|---|---|---|---|'] + [self.field_line(row) for row in self.rows[name]]
        else:
            lines += ['', 'No fields.']
        refers = list(self.refer_lines(name))
        if refers:
            lines += ['', 'Referred to by: ' + '; '.join(refers) + '.']
        return lines

    def page(self):
        lines = [HEAD.format(most=self.most).rstrip()]
        for number, entity in enumerate(self.entities, 1):
            lines += self.section(number, entity)
        return '\n'.join(lines) + '\n'


def main():
    page = Tables().page()
    if sys.argv[1:] != ['--check']:
        sys.stdout.write(page)
        return 0
    with open(PAGE, encoding='utf-8') as file:
        same = file.read() == page
    if not same:
        print('docs/ENTITIES.md is not what .ci/entities.py prints')
    return 0 if same else 1


sys.exit(main())

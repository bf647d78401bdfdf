#!/usr/bin/env python3
"""Tables and a plot of what bench measured.

    report.py show FOLDER    the tables, as Markdown
    report.py write FOLDER   docs/PERFORMANCE.md between its markers, and docs/performance.svg
    report.py check FOLDER   fails where the library needs too many instructions

The section on before and after is only written where an older library was measured.

FOLDER has what tests/bench.sh left there: times, and counts/ where valgrind is there.
"""
import collections
import datetime
import pathlib
import platform
import re
import subprocess
import sys
import textwrap

import plot

# The library's share of the reference that a reading may take.
LIMIT = 1.2
# The share of openssl's throughput that a digest must have.
THROUGHPUT = 0.8
DOCS = pathlib.Path('docs')
CPUS = pathlib.Path('/proc/cpuinfo')
BEGIN = '<!-- measured by tests/bench.sh --write{}: {} -->'
END = '<!-- end of {} -->'

# Quartiles: low, middle, high. Times are nanoseconds per call; count is instructions per call.
# The peer is librpm for readings and look-ups, openssl for digests: a time, and its ratio to the library; or both are
# the word why there is none. So is before, the older library. A digest is the case of a reading's digest alone, or None.
Time = collections.namedtuple('Time', 'low middle high')
Case = collections.namedtuple(
    'Case', 'group name bytes signature records number place library reference ratio peer peer_ratio before before_ratio digest')
Count = collections.namedtuple('Count', 'library reference peer before')
Drawn = collections.namedtuple('Drawn', 'name library digest reference librpm')

# The header records of the table of instructions per record.
PER_RECORD = ('64', '128', '256', '512')
# In the first table: accepted packages of the test data with so many header records, and these.
DATA_RECORDS = range(40, 81)
DIGEST_OF = 'digest of '
FIRST = ['64 records, rising tags', '512 records, rising tags', '64 records, 1 remark', '64 records, 4,096 remarks',
         '64 records, 585 doses', '64 records, 300 files', '64 records, 300 files, no book']
FIRST_LOOK_UPS = ['64 records, first tag', '64 records, last tag', '512 records, first tag', '512 records, last tag']
# In the table of what the digest costs: accepted packages of the test data, and these.
DIGESTED = ['64 records, rising tags', '512 records, rising tags', '64 records, 4,096 remarks', '64 records, 585 doses',
            '64 records, 300 files']
# Look-ups beside librpm, and how many times as long librpm must take at least.
LOOK_UPS = [(f'{records} records, {which} tag', least) for records, least in [(64, 6), (512, 10)]
            for which in ('first', 'middle', 'last', 'absent')]
# Before and after: the orders of tags.
ORDERS = ['rising tags', 'falling tags', 'shuffled tags', 'scattered tags', 'tags made to be slow']


def time_or_word(column):
    return Time(*map(float, column.split())) if ' ' in column else column


def read_times(folder):
    """What is said of the run, and the cases, readings with their digests."""
    run, cases = {}, []
    for line in (folder / 'times').read_text().splitlines():
        words = line.split('\t')
        if len(words) == 2:
            run[words[0]] = words[1]
            continue
        group, name, *whole = words[:7]
        cases.append(Case(group, name, *map(int, whole), *map(time_or_word, words[7:]), None))
    digests = {(case.group, case.name): case for case in cases if case.group.startswith(DIGEST_OF)}
    return run, [case._replace(digest=digests.get((DIGEST_OF + case.group, case.name)))
                 for case in cases if not case.group.startswith(DIGEST_OF)]


def read_counts(folder):
    """A count for each (group, name); none without valgrind."""
    counts = folder / 'counts'
    if not counts.exists():
        return {}
    all_counts, call = {}, 0
    for line in (counts / 'cases').read_text().splitlines():
        group, name, names = line.split('\t')
        sides = {}
        for side in names.split():
            call += 1
            text = (counts / f'call.{call}').read_text()
            sides[side] = int(re.search(r'^summary: (\d+)$', text, re.M)[1])
        peer = sides.get('Librpm', sides.get('Openssl'))
        all_counts[group, name] = Count(sides['Library'], sides['Reference'], peer, sides.get('Before'))
    return all_counts


def first_line(*command):
    try:
        return subprocess.run(command, capture_output=True, text=True, check=True).stdout.split('\n')[0]
    except (OSError, subprocess.CalledProcessError):
        return ''


# ---- Cells ----

def micros(nanos):
    """Microseconds, three digits at least."""
    number = nanos / 1000
    places = 0 if number >= 100 else 1 if number >= 10 else 2 if number >= 1 else 3
    return f'{number:,.{places}f}'


def time_cell(time):
    if isinstance(time, str):
        return time
    return f'{micros(time.middle)} ({micros(time.low)}–{micros(time.high)})'


def middle_cell(time):
    return time if isinstance(time, str) else micros(time.middle)


def apart(case):
    """The library's time without that of the digest."""
    return case.library.middle - (case.digest.library.middle if case.digest else 0)


def digest_cell(case):
    return micros(case.digest.library.middle) if case.digest else 'none'


def librpm_ratio(case):
    """librpm's time to the library's, the digest apart; None where librpm has no part."""
    return None if isinstance(case.peer, str) else case.peer.middle / apart(case)


def ratio_cell(case):
    ratio = librpm_ratio(case)
    return '' if ratio is None else f'{ratio:.2f}'


def rounds_cell(ratio):
    """A ratio by rounds, where there is one."""
    return '' if isinstance(ratio, str) else f'{ratio.middle:.2f} ({ratio.low:.2f}–{ratio.high:.2f})'


def ratio_cells(case):
    return [f'{case.library.middle / case.reference.middle:.2f}', rounds_cell(case.ratio)]


def count_cells(count):
    if not count:
        return ['not counted'] * 3
    return [f'{count.library:,}', f'{count.reference:,}', f'{count.library / count.reference:.2f}']


def peer_count(case, counts):
    count = counts.get((case.group, case.name))
    if isinstance(case.peer, str):
        return case.peer
    return f'{count.peer:,}' if count and count.peer is not None else 'not counted'


def digest_count(counts, group, name):
    """The instructions of a reading's digest; 0 where the reading does not come to it."""
    digest = counts.get((DIGEST_OF + group, name))
    return digest.library if digest else 0


def digest_count_cell(case, counts):
    return f'{digest_count(counts, case.group, case.name):,}' if counts else 'not counted'


def apart_count(counts, group, name, side='library'):
    """The instructions of a reading without those of its digest."""
    return getattr(counts[group, name], side) - digest_count(counts, group, name)


def answer_cell(case):
    if case.number:
        return f'refused {case.number} at {case.place}'
    if 'writing' in case.group:
        return 'written'
    if case.group == 'versions':
        return ['older', 'same', 'newer'][case.place]
    if case.group == 'requirements':
        return 'yes' if case.place else 'no'
    if 'reading' in case.group or 'growth' in case.group:
        return f'{case.place} doses' if case.place != 1 else '1 dose'
    return 'found'


def wrapped(said):
    return '\n'.join(textwrap.wrap(said, 110))


OF_IT = 'Of it the digest'
BESIDE = 'librpm / library'
APART = BESIDE + ', digest apart'


def table(head, rows, left=1):
    """Text in the first columns, numbers in the others."""
    marks = ['---'] * left + ['---:'] * (len(head) - left)
    return '\n'.join('| ' + ' | '.join(cells) + ' |' for cells in [head, marks, *rows])


def case_tables(what, cases, counts):
    """Times of the cases, then instructions; librpm only has readings and look-ups, a digest only readings."""
    reading = any('reading' in case.group for case in cases)
    librpm = reading or any('look-up' in case.group for case in cases)
    beside = ratio_cell if reading else lambda case: rounds_cell(case.peer_ratio)
    times = [
        [case.name, answer_cell(case), f'{case.bytes:,}', time_cell(case.library), *([digest_cell(case)] if reading else []),
         time_cell(case.reference), *ratio_cells(case), *([time_cell(case.peer), beside(case)] if librpm else [])]
        for case in cases
    ]
    instructions = [
        [case.name, *with_digest(case, counts, reading), *([peer_count(case, counts)] if librpm else [])]
        for case in cases
    ]
    head = [what, 'Answer', 'Bytes', 'Library, µs', *([OF_IT + ', µs'] if reading else []), 'Reference, µs', 'Ratio of medians',
            'Ratio by rounds']
    yield table(head + ['librpm, µs', APART if reading else BESIDE] * librpm, times, left=2)
    if counts:
        head = [what, 'Instructions, library', *([OF_IT] if reading else []), 'Reference', 'Ratio']
        yield table(head + ['librpm'] * librpm, instructions)


def with_digest(case, counts, reading):
    """Instructions; a reading's with those of its digest."""
    library, *others = count_cells(counts.get((case.group, case.name)))
    return [library, *([digest_count_cell(case, counts)] if reading else []), *others]


# ---- Sections ----

def day():
    return datetime.datetime.now(datetime.timezone.utc).date().isoformat()


def processor():
    model = re.search(r'^model name\s*: (.*)$', CPUS.read_text(), re.M)
    return model[1] if model else platform.machine()


def machine(run):
    processors = len(re.findall(r'^processor\s*:', CPUS.read_text(), re.M))
    pinned = 'the run stays on one' if run['pinned'] == 'yes' else 'the run may move between them'
    rows = [
        ['Processor', processor()],
        ['Processors', f'{processors}; {pinned}'],
        ['System', f'{platform.system()} {platform.release().split("-")[0]}, {platform.machine()}'],
        ['Reference and bench', f'{first_line("rustc", "--version").split(" (")[0]}, opt-level 3'],
        ['librpm', run['librpm']],
        ['openssl', run['openssl']],
        ['Instructions counted by', first_line('valgrind', '--version') or 'nothing: no valgrind there'],
        ['Day', day()],
        ['Batches', f'{run["batches"]} for each side of each case, each of {run["milliseconds"]} ms or more'],
    ]
    return table(['', ''], rows, left=2)


def first(folder):
    """The first table: library, reference and librpm."""
    run, cases = read_times(folder)
    readings, look_ups = ({case.name: case for case in cases if case.group == group} for group in ('reading', 'look-up'))
    data = [case for case in cases
            if case.group == 'data reading' and not case.number and case.records in DATA_RECORDS]
    rows = [
        [name, answer_cell(case), micros(case.library.middle), digest_cell(case), micros(case.reference.middle),
         middle_cell(case.peer), ratio_cell(case)]
        for name, case in [(f'{case.name}, {case.records} records', case) for case in data]
        + [(name, readings[name]) for name in FIRST]
        + [(f'look-up, {name}', look_ups[name]) for name in FIRST_LOOK_UPS]
    ]
    yield table(['One reading or look-up', 'Answer', 'Library, µs', OF_IT + ', µs', 'Reference, µs', 'librpm, µs', APART], rows, left=2)
    slower = [case for case in cases if case.ratio.middle > LIMIT]
    worst = max(cases, key=lambda case: case.ratio.middle)
    peers = [case for case in cases if case.group != 'digest' and librpm_ratio(case) is not None]
    quicker = [case for case in peers if librpm_ratio(case) > 1]
    said = (f'Of {len(cases)} cases, {len(slower)} take over {LIMIT} times the reference\'s time; the highest ratio'
            f' by rounds is {worst.ratio.middle:.2f} ({worst.group}: {worst.name}).')
    if peers:
        said += (f' Its digest apart, the library is quicker than librpm in {len(quicker)} of the {len(peers)} readings and'
                 ' look-ups that librpm takes part in.')
    yield wrapped(said)


def digest_tables(cases, counts):
    """The digest by itself, and what of a reading it costs."""
    digests = [case for case in cases if case.group == 'digest']
    rows = [
        [case.name, time_cell(case.library), time_cell(case.reference), time_cell(case.peer),
         *(throughput_cell(case, time) for time in (case.library, case.reference, case.peer)),
         share_cell(case), f'{THROUGHPUT}']
        for case in digests
    ]
    yield table(['Bytes', 'Library, µs', 'Reference, µs', 'openssl, µs', 'Library, MB/s', 'Reference, MB/s', 'openssl, MB/s',
                 'Library / openssl', 'Asked: at least'], rows)
    if counts:
        rows = []
        for case in digests:
            count = counts[case.group, case.name]
            rows.append([case.name, *count_cells(count), peer_count(case, counts), f'{count.library / case.bytes:.2f}'])
        yield table(['Bytes', 'Instructions, library', 'Reference', 'Ratio', 'openssl', 'Library, for each byte'], rows)
    yield wrapped(DIGEST_SAID)
    shown = [case for case in cases if case.group == 'reading' and case.name in DIGESTED]
    shown += [case for case in cases if case.group == 'data reading' and case.digest]
    rows = [
        [case.name, f'{case.digest.bytes:,}', micros(case.library.middle), digest_cell(case), micros(apart(case)),
         f'{100 * case.digest.library.middle / case.library.middle:.0f} %',
         *([f'{counts[case.group, case.name].library:,}', digest_count_cell(case, counts),
            f'{apart_count(counts, case.group, case.name):,}'] if counts else ['not counted'] * 3)]
        for case in shown
    ]
    yield table(['One reading', 'Bytes digested', 'Whole, µs', 'Digest, µs', 'Digest apart, µs', "The digest's part of the time",
                 'Whole, instructions', 'Digest', 'Digest apart'], rows)


DIGEST_SAID = 'What a reading costs, and what of it the digest costs. Digest apart is the one less the other.'


def throughput_cell(case, time):
    """Millions of bytes a second."""
    return time if isinstance(time, str) else f'{1000 * case.bytes / time.middle:,.0f}'


def share_cell(case):
    """The library's throughput as a share of openssl's, by rounds."""
    ratio = case.peer_ratio
    return ratio if isinstance(ratio, str) else f'{ratio.middle:.2f} ({ratio.low:.2f}–{ratio.high:.2f})'


def asked(counts):
    """What readings take, and what they may take at most: instructions, the digest apart."""
    of = lambda name: apart_count(counts, 'reading', name)
    return [
        ('64 records, rising tags', of('64 records, rising tags'), 22_000),
        ('512 records, rising tags', of('512 records, rising tags'), 78_000),
        ('512 records, shuffled tags', of('512 records, shuffled tags'), 250_000),
        ('512 records, scattered tags', apart_count(counts, 'orders reading', '512 records, scattered tags'), 250_000),
        ('4,096 remarks, more than 1 remark', of('64 records, 4,096 remarks') - of('64 records, 1 remark'), 30_000),
        ('585 doses, more than 24', of('64 records, 585 doses') - of('64 records, rising tags'), 45_000),
        ('300 files, in all', of('64 records, 300 files'), 120_000),
    ]


def steps(cells):
    """A count for each record, and for each record more than the count above has; cells are (records, count)."""
    above = None
    for records, count in cells:
        more = f'{(count - above[1]) / (records - above[0]):,.0f}' if above else ''
        yield [f'{count / records:,.0f}', more]
        above = records, count


def instructions(cases, counts):
    """Instructions of a reading beside what is asked, and for each record."""
    if not counts:
        yield 'Not counted: no valgrind there.'
        return
    yield table(['One reading, the digest apart', 'Instructions', 'Asked: at most'],
                [[what, f'{count:,}', f'{most:,}'] for what, count, most in asked(counts)])
    shown = [case for case in cases if case.group == 'growth rising' and case.name in PER_RECORD]
    parts = [apart_count(counts, case.group, case.name) for case in shown]
    rows = [
        [case.name, f'{counts[case.group, case.name].library:,}', digest_count_cell(case, counts), f'{part:,}', *step,
         peer_count(case, counts)]
        for case, part, step in zip(shown, parts, steps(zip(map(int, PER_RECORD), parts)))
    ]
    yield 'For each record, rising tags, the digest apart:'
    yield table(['Records', 'Instructions', 'Digest', 'Digest apart', 'For each record', 'For each record more than above',
                 'librpm'], rows, left=0)


def look_ups(cases, counts):
    """Look-ups beside librpm, and what is asked."""
    by_name = {case.name: case for case in cases if case.group == 'look-up'}
    rows = []
    for name, least in LOOK_UPS:
        case = by_name[name]
        count = counts.get((case.group, name))
        rows.append([name, time_cell(case.library), time_cell(case.peer), rounds_cell(case.peer_ratio), f'{least}',
                     f'{count.library:,}' if count else 'not counted', peer_count(case, counts)])
    return table(['One look-up', 'Library, µs', 'librpm, µs', BESIDE, 'Asked: at least', 'Instructions, library', 'librpm'],
                 rows)


# ---- Before and after ----

def sides_apart(case):
    """Before and after, in nanoseconds, without the digest."""
    digest = case.digest.library.middle if case.digest else 0
    return case.before.middle - digest, case.library.middle - digest


def before_and_after_table(what, cases, counts):
    """Times and instructions, the digest of a reading apart."""
    rows = []
    for case in cases:
        before, after = sides_apart(case)
        times = [micros(before), micros(after), f'{before / after:.2f}' if case.digest else rounds_cell(case.before_ratio)]
        numbers = ['not counted'] * 3
        if counts:
            before, after = (apart_count(counts, case.group, case.name, side) for side in ('before', 'library'))
            numbers = [f'{before:,}', f'{after:,}', f'{before / after:.2f}']
        rows.append([case.name, *times, *numbers])
    return table([what, 'Before, µs', 'After, µs', 'Before / after', 'Instructions before', 'After', 'Before / after'], rows)


def order_steps(counts, order):
    """Instructions of readings of more and more records, before and after."""
    records = [int(number) for number in PER_RECORD[1:]]
    sides = []
    for side in ('before', 'library'):
        parts = [apart_count(counts, 'orders reading', f'{number} records, {order}', side) for number in records]
        sides.append([[f'{part:,}', *step] for part, step in zip(parts, steps(zip(records, parts)))])
    tags = order.replace('tags', '').strip()
    return [[tags, str(number), *before, *after] for number, before, after in zip(records, *sides)]


def before_and_after(folder):
    """The library beside an older one."""
    run, cases = read_times(folder)
    counts = read_counts(folder)
    of = lambda group: [case for case in cases if case.group == group and not case.name.startswith('256 ')]
    yield '## Repeated tags, before and after'
    yield f'Measured on {day()}, {processor()}, {run["batches"]} batches for each side of each case.'
    yield before_and_after_table('One reading, the digest apart', of('orders reading'), counts)
    yield before_and_after_table('One look-up of the first tag', of('orders look-up'), counts)
    yield 'A look-up has no digest. A writing has one, and is measured whole:'
    yield before_and_after_table('One writing', of('orders writing'), counts)
    if counts:
        yield 'How the instructions of one reading grow, the digest apart:'
        head = ['Tags', 'Records']
        for side in ('Before', 'After'):
            head += [side, f'{side}, for each record', f'{side}, for each record more than above']
        yield table(head, [row for order in ORDERS for row in order_steps(counts, order)])


def growth_said(cases, order):
    first_case, last = (next(case for case in cases if case.name == name) for name in ('64', '512'))
    times = [getattr(last, side).middle / getattr(first_case, side).middle for side in ('library', 'reference')]
    return (f'{order.capitalize()} tags: from 64 to 512 records, 8 times as many, the library takes {times[0]:.1f}'
            f' times as long, the reference {times[1]:.1f} times.')


def growth(cases, counts):
    rows = [
        [case.name, f'{case.bytes:,}', time_cell(case.library), digest_cell(case), time_cell(case.reference),
         f'{case.ratio.middle:.2f}', time_cell(case.peer), ratio_cell(case),
         *with_digest(case, counts, True), peer_count(case, counts)]
        for case in cases
    ]
    head = ['Records', 'Bytes', 'Library, µs', OF_IT + ', µs', 'Reference, µs', 'Ratio by rounds', 'librpm, µs', APART,
            'Instructions, library', OF_IT, 'Reference', 'Ratio', 'librpm']
    return table(head, rows, left=0)


def writing(cases, more, counts):
    """Writings, then those of more and more records; librpm has none."""
    yield '## Writing'
    yield from case_tables('Lists', cases, counts)
    rows = [
        [case.name, f'{case.bytes:,}', time_cell(case.library), time_cell(case.reference),
         f'{case.ratio.middle:.2f}', *count_cells(counts.get((case.group, case.name)))]
        for case in more
    ]
    head = ['Records, rising tags', 'Bytes', 'Library, µs', 'Reference, µs', 'Ratio by rounds',
            'Instructions, library', 'Reference', 'Ratio']
    yield table(head, rows, left=0)


def rest(folder):
    """What follows; the long tables last."""
    run, cases = read_times(folder)
    counts = read_counts(folder)
    of = lambda group: [case for case in cases if case.group == group]
    yield '## The digest'
    yield from digest_tables(cases, counts)
    yield '## Instructions'
    yield from instructions(cases, counts)
    yield '## Look-ups beside librpm\n\n' + look_ups(cases, counts)
    yield '## How the time of one reading grows\n\n![Time over header records](performance.svg)'
    for order in ('rising', 'shuffled'):
        yield growth_said(of(f'growth {order}'), order)
    yield '## The run\n\n' + machine(run)
    for title, what, group in [
        ('One reading', 'Package', 'reading'),
        ('The test data: one reading', 'Package', 'data reading'),
        ('One look-up', 'Look-up', 'look-up'),
        ('One look-up of an element', 'Element', 'element'),
        ('The test data: one look-up of tag 1126', 'Package', 'data look-up'),
        ('One comparison of versions', 'Versions', 'versions'),
        ('One requirement', 'Package', 'requirements'),
    ]:
        yield '\n\n'.join([f'## {title}', *case_tables(what, of(group), counts)])
    yield '\n\n'.join(writing(of('writing'), of('growth writing'), counts))
    for order in ('rising', 'shuffled'):
        yield f'## More and more records, {order} tags\n\n' + growth(of(f'growth {order}'), counts)


# A name, what it is measured with, what makes it.
PARTS = [('the first table', '', first), ('the rest', '', rest)]
BEFORE_AND_AFTER = ('before and after', ' with BEFORE_LIB', before_and_after)


def parts(folder):
    """Those that were measured."""
    return PARTS + [BEFORE_AND_AFTER] * (read_times(folder)[0]['before'] == 'yes')


def write(folder):
    page = DOCS / 'PERFORMANCE.md'
    text = page.read_text()
    for name, measured, part in parts(folder):
        begin, end = BEGIN.format(measured, name), END.format(name)
        before, old = text.split(begin)
        text = before + '\n\n'.join([begin, *part(folder), end]) + old.split(end)[1]
    page.write_text(text)
    cases = read_times(folder)[1]
    drawn = lambda case: Drawn(case.name, case.library, case.digest.library, case.reference, case.peer)
    panels = [(f'{order} tags', [drawn(case) for case in cases if case.group == f'growth {order}'])
              for order in ('rising', 'shuffled')]
    (DOCS / 'performance.svg').write_text(plot.svg(panels))


def check(folder):
    counts = read_counts(folder)
    if not counts:
        sys.exit('bench: nothing was counted')
    slower = 0
    for (group, name), count in counts.items():
        ratio = count.library / count.reference
        slower += ratio > LIMIT
        print(f'{"OVER" if ratio > LIMIT else "ok  "} {ratio:5.2f}  {group}: {name}')
    over = 0
    for what, count, most in asked(counts):
        over += count > most
        print(f'{"OVER" if count > most else "ok  "} {count:7,} of {most:7,} instructions, the digest apart: {what}')
    if slower or over:
        sys.exit(f'bench: {slower} of {len(counts)} cases need over {LIMIT} times the reference\'s instructions,'
                 f' {over} of {len(asked(counts))} readings more than asked')
    print(f'bench: all of {len(counts)} cases need at most {LIMIT} times the reference\'s instructions, and no reading more'
          ' than asked')


def main():
    mode, folder = sys.argv[1], pathlib.Path(sys.argv[2])
    if mode == 'check':
        check(folder)
    elif mode == 'write':
        write(folder)
    else:
        print('\n\n'.join(text for *_, part in parts(folder) for text in part(folder)))


if __name__ == '__main__':
    main()

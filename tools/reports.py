"""What `gate run` may report where memory is refused to some of its calls."""
import re


def total_of(lines):
    """The last line of a report, from the lines of its calls."""
    count = dict.fromkeys(('values', 'trap', 'exhausted', 'refused', 'no-memory'), 0)
    fuel = 0
    for line in lines:
        end = line.split(' ', 1)[1]
        kind = end.split(' ')[0]
        kind = {'out-of-fuel': 'exhausted', 'out-of-frames': 'exhausted'}.get(kind, kind)
        count[kind if kind in count else 'refused'] += 1
        spent = re.search(r' fuel (\d+)$', end)
        fuel += int(spent.group(1)) if spent else 0
    return (f"total {len(lines)} values {count['values']} traps {count['trap']} exhausted {count['exhausted']} "
            f"refused {count['refused']} no-memory {count['no-memory']} fuel {fuel}")


def may_report(wanted, got):
    """Whether the report is the one wanted but for calls that were run and ran out of memory."""
    *lines, last = got.splitlines()
    *others, _ = wanted.splitlines()
    if len(lines) != len(others) or last != total_of(lines):
        return False
    refused = re.compile(r'\d+ (no-export|not-a-function|bad-arguments|not-started )')
    return all(line == other or (line == f'{n} no-memory' and not refused.match(other))
               for n, (line, other) in enumerate(zip(lines, others)))

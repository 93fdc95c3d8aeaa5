"""Random bytes from a seed as everything that the program reads: texts that are right, with changes, and pure noise."""
import collections
import concurrent.futures
import pathlib
import random
import re
import subprocess
import sys
import tempfile

sys.dont_write_bytecode = True
from serving import (  # noqa: E402
    BLOCK, echo, exchange, LINE, LOCAL, LONG_BLOCK, plain, ROOT, Server, UNKNOWN, until, WIDE_BLOCK, WIDE_LINE,
    WIDE_LONG_BLOCK,
)

EXAMPLES = ROOT / 'examples'
BATCH = 500  # runs of the program in one run of the shell
PATIENCE = 60  # the seconds that a batch may take
HEADERS = [LINE, BLOCK, LOCAL, LONG_BLOCK, UNKNOWN, WIDE_BLOCK, WIDE_LINE, WIDE_LONG_BLOCK]
PIECES = [b'\0', b'\r', b'\n', b'\xff', b'\xc3', b' ', b'\t', b'  ', b'|', b'= ', b'#', b'"', b"'", b'\\', b'{ ', b' }',
          b'-1', b'0', b'00', b'65535', b'65536', b'4294967296', b'18446744073709551615', b'18446744073709551616',
          b'9' * 40, b'::', b'[::]:0', b'0.0.0.0:0', b'256.1.1.1', b'/33', b'/0', b'*', b'x' * 300, b'a ' * 70, b'-',
          b'sc0=1.0/::1', b'%s%n']
# Runs the program for each text of a folder: what it says goes to files beside it, and its statuses are listed.
EACH = '''for text in "$1"/*.text; do
    at=${text%.text}
    case $2 in
        check) "$3" check "$text" ;;
        pipe) "$3" pipe "$4" bare 10.1.1.1:5000 127.0.0.1:9000 < "$text" ;;
        whatif) "$3" whatif "$4" "$4" "$text" ;;
        explain) "$3" explain "$4" bare 10.1.1.1:5000 127.0.0.1:9000 --header "$(head -c 60000 "$text" | od -An -v -tx1 | tr -d ' \n')" ;;
        *) "$3" "$2" "$4" "$text" ;;
    esac > "$at.out" 2> "$at.said"
    echo "$? $text"
done'''
BARE = b'frontend bare\nbind 127.0.0.1:9000 accept-proxy\ndefault_backend raw\nbackend raw\nserver s 10.0.0.13:443\n'
VERDICT = re.compile(rb'line \d+: ([A-Z]\w+ )?[A-Z]\w+\n')
REPLIES = re.compile(rb'((wait|offer|refuse|up|closed|reloaded|count|fault) [^\n]+\n)*')
COMPARED = re.compile(rb'changed 0 of \d+\nother server \d+\nlet in 0\nlost 0\nsaved 0\n')
DIFFERENT = re.compile(rb'(conn [^\n]+\n)+(\d+ was [^\n]+\n)*changed \d+ of \d+\nother server \d+\nlet in \d+\nlost \d+\nsaved \d+\n')
AUDITED = re.compile(rb'(conn [^\n]+\n)*checked \d+ open \d+\n')
FAULT = re.compile(rb'line \d+: (WrongReply|Format|TooLong)\n')


def changed(draw, text, others):
    """A text with some changes."""
    for _ in range(draw.choice([1, 1, 2, 3, 8])):
        at = draw.randrange(len(text) + 1)
        end = min(len(text), at + draw.choice([1, 1, 4, 30, 300]))
        other = draw.choice(others)
        begin = draw.randrange(len(other) + 1)
        text = draw.choice([
            lambda: text[:at] + bytes([draw.randrange(256)]) + text[at + 1:],
            lambda: text[:at] + draw.choice(PIECES) + text[at:],
            lambda: text[:at] + draw.choice(PIECES) + text[end:],
            lambda: text[:at] + text[end:],
            lambda: text[:at] + text[at:end] * draw.choice([2, 3, 50]) + text[end:],
            lambda: text[:at] + other[begin:begin + 60] + text[end:],
            lambda: text[:at],
            lambda: lines_moved(draw, text),
        ])()
    return text


def lines_moved(draw, text):
    """The same lines, of which two have changed places."""
    lines = text.split(b'\n')
    first, second = draw.randrange(len(lines)), draw.randrange(len(lines))
    lines[first], lines[second] = lines[second], lines[first]
    return b'\n'.join(lines)


def noise(draw, others):
    """Bytes of no text: any, those that are printed, or words of the others in any order."""
    kind, size = draw.randrange(3), draw.choice([0, 1, 2, 10, 100, 1_000, 5_000])
    if kind == 0:
        return draw.randbytes(size)
    if kind == 1:
        return bytes(draw.choice(b' \n!"#$%&\'()*+,-./0129:;<=>?@AZ[\\]^_`az{|}~') for _ in range(size))
    words = [word for other in others for word in other.split()] or [b'x']
    return b''.join(draw.choice(words) + draw.choice([b' ', b' ', b'\n', b'\n    ']) for _ in range(size // 10))


def texts(draw, count, right):
    """So many texts, of which some are right."""
    for _ in range(count):
        what = draw.random()
        if what < 0.75:
            yield changed(draw, draw.choice(right), right)
        else:
            yield draw.choice(right) if what < 0.76 else noise(draw, right)


def fault_of_check(status, text, out, said):
    try:
        text.decode()
    except UnicodeDecodeError:
        return None if (status, out) == (3, b'') and said else 'it is no UTF-8'
    is_refused = status == 1 and VERDICT.fullmatch(out) and said
    return None if (status, out) == (0, b'ok\n') or is_refused else 'no such answer'


def fault_of_replay(status, text, out, said):
    return None if status == 0 and not said or status == 1 and said and REPLIES.fullmatch(out) else 'no such answer'


def fault_of_audit(status, text, out, said):
    return None if status == 0 and AUDITED.fullmatch(out) or status == 1 and FAULT.fullmatch(out) else 'no such answer'


def fault_of_pipe(status, text, out, said):
    """What comes out is what is after a header."""
    return None if status == 0 and text.endswith(out) or status == 1 and not out and said else 'no such answer'


def fault_of_whatif(status, text, out, said):
    """Without a reload the same file decides nothing otherwise."""
    right = status == 0 and COMPARED.fullmatch(out) or status == 1 and (FAULT.fullmatch(out) or DIFFERENT.fullmatch(out) and b' reload ' in text)
    return None if right else 'no such answer'


def fault_of_explain(status, text, out, said):
    """The last line is the reply that the status says."""
    last = out.rstrip(b'\n').split(b'\n')[-1]
    reply = {0: b'offer 0.1 used ', 1: b'refuse 0.1 used ', 4: b'wait 0.1 used '}.get(status)
    return None if reply and last.startswith(reply) and not said else 'no such answer'


FAULT_OF = {'check': fault_of_check, 'replay': fault_of_replay, 'audit': fault_of_audit, 'pipe': fault_of_pipe, 'explain': fault_of_explain,
            'whatif': fault_of_whatif}


def subjects(room):
    """What is tried of each command: the configuration if it takes one, and right texts."""
    scripts = sorted(EXAMPLES.glob('*.script'))
    configs = [script.with_suffix('.cfg') for script in scripts]
    records = [subprocess.run(['awk', '-f', EXAMPLES / 'record.awk', script, script.with_suffix('.answers')],
                              capture_output=True, check=True).stdout for script in scripts]
    bare = pathlib.Path(room, 'bare.cfg')
    bare.write_bytes(BARE)
    headers = [header + payload for header in HEADERS for payload in (b'', b'hello', LINE)]
    return {
        'check': [(None, [file.read_bytes() for file in sorted(EXAMPLES.glob('*.cfg'))])],
        'replay': [(config, [script.read_bytes()]) for config, script in zip(configs, scripts)],
        'audit': [(config, [record]) for config, record in zip(configs, records)],
        'whatif': [(config, [record]) for config, record in zip(configs, records)],
        'pipe': [(bare, headers)],
        'explain': [(bare, headers)],
    }


def tried(case, command, config, drawn):
    """The statuses of the answers to some texts."""
    with tempfile.TemporaryDirectory(dir=case.room) as folder:
        for number, text in enumerate(drawn):
            pathlib.Path(folder, f'{number:04}.text').write_bytes(text)
        done = subprocess.run(['sh', '-c', EACH, 'sh', folder, command, case.program, config or ''],
                              stdin=subprocess.DEVNULL, capture_output=True, text=True, timeout=PATIENCE)
        for line, text in zip(done.stdout.splitlines(), drawn, strict=True):
            status, _, file = line.partition(' ')
            out, said = (pathlib.Path(file).with_suffix(suffix).read_bytes() for suffix in ('.out', '.said'))
            fault = FAULT_OF[command](int(status), text, out, said)
            what = f'{command} {config and config.name} of {text!r}'
            case.check(what, fault, None, status, out[-500:], said[-500:])
            yield f'{command}, status {status}'


def commands_tried(case, seed, command, parts, count):
    """How often each status came of so many texts of a command."""
    draw, seen = random.Random(f'{seed} {command}'), collections.Counter()
    for config, right in parts:
        left = count // len(parts)
        while left > 0:
            drawn = list(texts(draw, min(BATCH, left), right))
            seen.update(tried(case, command, config, drawn))
            left -= len(drawn)
    return seen


def words_drawn(draw, count):
    """So many lines for standard input, of which none is `quit`."""
    right = [b'reload', b'quit', b'reload\r', b'quit\r', b'', b'help', b'reload now', b'RELOAD', b'quit ']
    for text in texts(draw, count, right):
        line = text.replace(b'\n', b' ')
        yield b'reload' if line in (b'quit', b'quit\r') else line


def words_heard(case, seed, count):
    """So many lines on the standard input of `serve`, which goes on, and makes the reloads among them."""
    config, port = plain(case, Server(echo))
    lines = list(words_drawn(random.Random(f'{seed} serve'), count))
    reloads = sum(line in (b'reload', b'reload\r') for line in lines)
    with case.start(config) as proxy:
        for begun in range(0, count, BATCH):
            proxy.tell(b''.join(line + b'\n' for line in lines[begun:begun + BATCH]))
            case.check(f'after {begun + BATCH} lines', exchange(port, b'hello')[0], b'hello')
        until(lambda: proxy.record.read_bytes().count(b'\n= reloaded ') == reloads, 'all reloads are made', PATIENCE)
        case.check('the reloads', len(proxy.ended().reloads), reloads)
    return {'serve, lines that are skipped': count - reloads, 'serve, reloads': reloads}


def try_noise(case, seed, count):
    """So many texts of each kind, from a seed; two kinds at a time."""
    case.say(f'{count:,} of each, from the seed {seed}')
    with concurrent.futures.ThreadPoolExecutor(2) as pool:
        jobs = [pool.submit(commands_tried, case, seed, command, parts, count)
                for command, parts in subjects(case.room).items()]
        jobs.append(pool.submit(words_heard, case, seed, count))
        for job in jobs:
            for what, times in sorted(job.result().items()):
                case.say(f'{what}: {times:,}')

#!/usr/bin/env python3
"""Sends the requests of the files .ci/http/*.cases and *.runs through the built program, and compares all bytes.

A file `.cases` is one run; in a file `.runs` each block is a run of its own. Blocks are parted by empty lines. A block is a request
and its response:

    POST /sync                      the method and the target
    x-language-id: #4               header fields; Content-Length is added where there is a body
    [{"op":"upsert", ..}]           the body, on the lines that begin with [ or {; `body PYTHON` gives it as an expression
    = 200 {"front":1,"value":1}     the status and the body of the response, compact; `= nothing` where there is none
    ! connection: close             fields of the response behind content-length

`#a` stands for the id with these hexadecimal digits, in targets, fields, bodies and responses. `raw PYTHON` in place of the first
line gives the whole request as an expression. `times N` as the first line of a block sends it N times, and `at` stands for 0, 1 and
so on in its expressions. `use NAME` sends the requests of another file first. `ends N` gives the exit status of the run, where it
isn't 0; in a file `.runs` it counts for the blocks below it. Lines that begin with `--` are comments.
"""
import glob
import http.client
import os
import re
import subprocess
import sys

HERE = os.path.dirname(os.path.abspath(__file__))
NAMES = {'MOST': 1048576}


def ids(text):
    return re.sub(r'#([0-9a-f]{1,32})\b', lambda m: m.group(1).zfill(32), text)


def value_of(expression, at):
    value = eval(expression, {'ids': ids, 'at': at, **NAMES})
    return ids(value).encode() if isinstance(value, str) else value


def phrase(status):
    return {413: 'Payload Too Large'}.get(status, http.client.responses[status])


def read_block(lines, at=0):
    """The bytes of a request, and those of its response."""
    raw = method = body = None
    fields, extra, status, reply = [], [], None, b''
    for line in lines:
        if line.startswith('= '):
            status, _, text = line[2:].partition(' ')
            reply = ids(text).encode() or reply
        elif line.startswith('! '):
            extra.append(line[2:])
        elif line.startswith('raw '):
            raw = value_of(line[4:], at)
        elif line.startswith('body '):
            body = value_of(line[5:], at)
        elif line.startswith('reply '):
            reply = value_of(line[6:], at)
        elif line[0] in '[{':
            body = (body or b'') + ids(line).encode()
        elif method is None:
            method = ids(line)
        else:
            fields.append(ids(line))
    if raw is None:
        head = [method + ' HTTP/1.1', 'Host: 127.0.0.1:8080', 'User-Agent: curl/8.5.0', 'Accept: */*'] + fields
        if body is not None:
            head += ['Content-Type: application/json', 'Content-Length: %d' % len(body)]
        raw = '\r\n'.join(head + ['', '']).encode() + (body or b'')
    if status == 'nothing':
        return raw, b''
    status = int(status)
    lines = ['HTTP/1.1 %d %s' % (status, phrase(status)), 'content-type: application/json', 'content-length: %d' % len(reply)]
    return raw, '\r\n'.join(lines + extra + ['', '']).encode() + reply


def read_file(path):
    """The requests with their responses, and the exit status of the run."""
    cases, ends, block = [], 0, []
    with open(path, encoding='utf-8') as file:
        for line in file.read().split('\n') + ['']:
            if line.startswith('--'):
                continue
            if line.startswith('use '):
                cases += read_file(os.path.join(HERE, 'http', line[4:] + '.cases'))[0]
            elif line.startswith('ends '):
                ends = int(line[5:])
            elif line.strip():
                block.append(line)
            elif block:
                times = int(block.pop(0)[6:]) if block[0].startswith('times ') else 1
                cases += [(block[0],) + read_block(block, at) for at in range(times)]
                block = []
    return cases, ends


def read_runs(path):
    """The runs of a file, each its requests with their responses and its exit status."""
    if path.endswith('.cases'):
        return [read_file(path)]
    runs, ends = [], 0
    with open(path, encoding='utf-8') as file:
        blocks = file.read().split('\n\n')
    for block in blocks:
        block = [line for line in block.split('\n') if line and not line.startswith('--')]
        if not block:
            continue
        if block[0].startswith('ends '):
            ends = int(block[0][5:])
        else:
            runs.append(([(block[0],) + read_block(block)], ends))
    return runs


def first_difference(cases, written):
    at = 0
    for name, request, wanted in cases:
        if written[at:at + len(wanted)] != wanted:
            return '%s\n  sent    %r\n  wanted  %r\n  written %r' % (name, request[:400], wanted, written[at:at + len(wanted) + 200])
        at += len(wanted)
    return 'more than was asked for: %r' % written[at:at + 300]


def main():
    program, failed, count = sys.argv[1], 0, 0
    paths = sys.argv[2:] or sorted(glob.glob(os.path.join(HERE, 'http', '*.cases')) + glob.glob(os.path.join(HERE, 'http', '*.runs')))
    for path in paths:
        for cases, ends in read_runs(path):
            count += len(cases)
            run = subprocess.run([program, 'run'], input=b''.join(c[1] for c in cases), capture_output=True, timeout=600)
            wanted = b''.join(c[2] for c in cases)
            if run.stdout != wanted or run.returncode != ends:
                failed += 1
                print('%s: status %d\n%s' % (os.path.basename(path), run.returncode, first_difference(cases, run.stdout)))
    print('%d requests in %d files, %d runs differ' % (count, len(paths), failed))
    return failed > 0


sys.exit(main())

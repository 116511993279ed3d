#!/usr/bin/env python3
"""Sends the examples of docs/HTTP.md through the built program, and compares their responses byte by byte.

An example is a block of `sh` with a curl command, a block of `http` with the request that it sends, and one with its response.
Lines of a head end with CR LF. A `sh` block right before a response has several commands, each of which is answered by it. The
examples are sent in their order in one run, and in a further one behind each response that closes the connection.
"""
import re
import subprocess
import sys

CURL = re.compile(r"curl -s (-X POST )?http://127\.0\.0\.1:8080(\S+)(?: -d '([^']*)')?((?: -H '[^']*')*)")


def raw(block):
    """The bytes of a message: its head's lines end with CR LF, and its body is the line behind the empty one, if any."""
    head, _, body = block.partition('\n\n')
    return (head.rstrip('\n').replace('\n', '\r\n') + '\r\n\r\n' + body.rstrip('\n')).encode()


def sent_by(command):
    """The request that a curl command sends, with the field Host alone."""
    post, target, body, fields = CURL.match(command).groups()
    lines = ['%s %s HTTP/1.1' % ('POST' if post or body is not None else 'GET', target), 'Host: 127.0.0.1:8080']
    lines += re.findall(r"-H '([^']*)'", fields)
    if body is not None and 'chunked' not in fields:
        lines.append('Content-Length: %d' % len(body.encode()))
    return raw('\n'.join(lines) + '\n\n' + (body or ''))


def examples(text):
    commands, request = [], None
    for kind, block in re.findall(r'^```(http|sh)\n(.*?)^```$', text, re.M | re.S):
        if kind == 'sh':
            commands, request = block.strip().split('\n'), None
        elif not block.startswith('HTTP/1.1'):
            request = raw(block)
        elif request is None:
            yield from ((command, sent_by(command), raw(block)) for command in commands)
        else:
            yield commands[0], request, raw(block)


def main():
    with open('docs/HTTP.md', encoding='utf-8') as file:
        cases = list(examples(file.read()))
    failed, run = False, []
    for number, (command, request, response) in enumerate(cases):
        head = sent_by(command).split(b'\r\n\r\n')[0].split(b'\r\n')
        if any(line not in request for line in head):
            failed = True
            print('another request than\n%s\n%s' % (command, request.decode()))
        run.append((request, response))
        if b'connection: close' in response or number + 1 == len(cases):
            program = subprocess.run([sys.argv[1], 'run'], input=b''.join(r[0] for r in run), capture_output=True, timeout=60)
            wanted = b''.join(r[1] for r in run)
            if program.stdout != wanted:
                failed = True
                print('status %d\n%s\nin place of\n%s' % (program.returncode, program.stdout.decode(), wanted.decode()))
            run = []
    print('%d examples' % len(cases))
    return failed


sys.exit(main())
